! Startup in ROM of a program in C, at F000:0000: data and stack lie in RAM, from 0050:0000 on. In the syntax of as86. What none
! of the programs calls (set_vector, in, wait) stays, so that their bytes stay.
RAM = 0x50              ! paragraph of data and stack, after the vectors
STACK = 0x3000          ! SP at the start

.text
entry start
start:  cli
        cld
        mov ax,#RAM
        mov es,ax
        mov ss,ax
        mov sp,#STACK
        mov ax,#__etext ! after the code, at the next paragraph, are the values that data begins with
        add ax,#15
        and ax,#0xFFF0
        mov si,ax
        mov ax,cs
        mov ds,ax
        xor di,di
        mov cx,#__edata
        rep
        movsb
        mov cx,#__end   ! what has no value begins as 0
        sub cx,di
        xor al,al
        rep
        stosb
        push es
        pop ds
        call _main
stop:   cli
        hlt
        jmp stop

! void set_vector(int number, void (*handler)()), with the handler in ROM
export _set_vector
_set_vector:
        push bp
        mov bp,sp
        push di
        xor ax,ax
        mov es,ax
        mov di,4[bp]
        add di,di
        add di,di
        mov ax,6[bp]
        seg es
        mov [di],ax
        mov ax,cs
        seg es
        mov 2[di],ax
        pop di
        pop bp
        ret

! void out(int port, int value)
export _out
_out:   mov bx,sp
        mov dx,2[bx]
        mov al,4[bx]
        out dx,al
        ret

! int in(int port)
export _in
_in:    mov bx,sp
        mov dx,2[bx]
        in al,dx
        xor ah,ah
        ret

! void put(int place, int character): a character in text memory
export _put
_put:   push bp
        mov bp,sp
        push di
        mov ax,#0xB000
        mov es,ax
        mov di,4[bp]
        add di,di
        mov al,6[bp]
        mov ah,#7
        seg es
        mov [di],ax
        pop di
        pop bp
        ret

! void wait(): until an interrupt has come
export _wait
_wait:  sti
        hlt
        ret

! What bcc calls for AX % BX, signed and not, and AX / BX, not signed. Longs, strings and the like, which its own library has,
! aren't here.
export imod
imod:   cwd
        idiv bx
        mov ax,dx
        ret
export imodu
imodu:  xor dx,dx
        div bx
        mov ax,dx
        ret
export idiv_u
idiv_u: xor dx,dx
        div bx
        ret
