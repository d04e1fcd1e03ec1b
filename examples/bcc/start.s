! Startup in ROM of a program in C, at F600:0000: data and stack lie in RAM, from 0050:0000 on. In the syntax of as86.
RAM = 0x50              ! paragraph of data and stack, behind the vectors
STACK = 0x3000          ! SP at the start

.text
entry start
start:  cli
        cld
        mov ax,#RAM
        mov es,ax
        mov ss,ax
        mov sp,#STACK
        mov ax,#__etext ! behind the code, at the next paragraph, stand the values that data begins with
        add ax,#15
        and ax,#0xFFF0
        mov si,ax
        mov ax,cs
        mov ds,ax
        xor di,di
        mov cx,#__edata
        rep
        movsb
        mov cx,#__end   ! what has no value begins as 0
        sub cx,di
        xor al,al
        rep
        stosb
        push es
        pop ds
        call _main
stop:   cli
        hlt
        jmp stop

! The handlers: C functions between, with all registers saved and DS leading to the data.
export _on_tick
_on_tick:
        push ax
        mov ax,#_tick
        jmp handle
export _on_key
_on_key:
        push ax
        mov ax,#_key
handle: push bx
        push cx
        push dx
        push si
        push di
        push bp
        push ds
        push es
        mov bx,#RAM
        mov ds,bx
        mov es,bx
        cld
        call ax
        mov al,#0x20    ! the end of the interrupt
        out 0x20,al
        pop es
        pop ds
        pop bp
        pop di
        pop si
        pop dx
        pop cx
        pop bx
        pop ax
        iret

! void set_vector(int number, void (*handler)()), with the handler in ROM
export _set_vector
_set_vector:
        push bp
        mov bp,sp
        push di
        xor ax,ax
        mov es,ax
        mov di,4[bp]
        add di,di
        add di,di
        mov ax,6[bp]
        seg es
        mov [di],ax
        mov ax,cs
        seg es
        mov 2[di],ax
        pop di
        pop bp
        ret

! void out(int port, int value)
export _out
_out:   mov bx,sp
        mov dx,2[bx]
        mov al,4[bx]
        out dx,al
        ret

! int in(int port)
export _in
_in:    mov bx,sp
        mov dx,2[bx]
        in al,dx
        xor ah,ah
        ret

! void put(int place, int sign): a sign in text memory
export _put
_put:   push bp
        mov bp,sp
        push di
        mov ax,#0xB000
        mov es,ax
        mov di,4[bp]
        add di,di
        mov al,6[bp]
        mov ah,#7
        seg es
        mov [di],ax
        pop di
        pop bp
        ret

! void wait(): until an interrupt has come
export _wait
_wait:  sti
        hlt
        ret

! What bcc calls for AX % BX, signed and not, and AX / BX, not signed. Longs, strings and the like, which its own library has,
! aren't here.
export imod
imod:   cwd
        idiv bx
        mov ax,dx
        ret
export imodu
imodu:  xor dx,dx
        div bx
        mov ax,dx
        ret
export idiv_u
idiv_u: xor dx,dx
        div bx
        ret
