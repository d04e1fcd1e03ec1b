; A program in ROM by NASM: code from F600:0000 on, data and stack in RAM. Counts the timer's ticks and the keys that go down.
        bits 16
        org 0

RAM     equ 50h                 ; paragraph of data and stack, behind the vectors
STACK   equ 3000h               ; SP at the start
        absolute 0              ; places in RAM, which begin with no value
ticks:  resw 1
keys:   resw 1
        section .text

start:  cli
        cld
        mov ax,RAM
        mov ds,ax
        mov ss,ax
        mov sp,STACK
        xor ax,ax
        mov [ticks],ax
        mov [keys],ax
        mov es,ax
        mov word [es:4*8],tick  ; the vectors
        mov [es:4*8+2],cs
        mov word [es:4*9],key
        mov [es:4*9+2],cs
        mov al,34h              ; the timer's counter 0 in mode 2, a tick each 4,000 clocks, before the controller's first word
        out 43h,al
        mov ax,1000
        out 40h,al
        mov al,ah
        out 40h,al
        mov al,99h              ; the parallel port: B is an output
        out 63h,al
        mov al,40h              ; line 6: the keyboard may send
        out 61h,al
        mov al,13h              ; 8259A: edges, no slaves, ICW4 comes
        out 20h,al
        mov al,8                ; IR0 is interrupt 8, and so IR1 is interrupt 9
        out 21h,al
        mov al,1                ; 8086 mode
        out 21h,al
        mov al,0FCh             ; all masked but the timer and the keyboard
        out 21h,al
        mov dx,3B8h             ; the text card: bit 0 first, then its MC6845, then the video
        mov al,1
        out dx,al
        mov dx,3B4h
        mov bx,15
.card:  mov al,bl               ; the register's number goes to 3B4h
        mov ah,[cs:bx+mc6845]   ; and its value to 3B5h
        out dx,ax
        dec bx
        jns .card
        mov dx,3B8h
        mov al,9                ; video on
        out dx,al
        mov ax,0B000h
        mov es,ax
        mov si,title
        xor di,di
        mov ah,7
.next:  cs lodsb
        stosw
        cmp si,title.end
        jb .next
idle:   mov ax,[ticks]
        mov di,2*8
        call show
        mov ax,[keys]
        mov di,2*18
        call show
        sti
        hlt
        jmp short idle

; Shows AX in decimal, its last digit at DI.
show:   mov bx,10
.digit: xor dx,dx
        div bx
        add dl,'0'
        mov dh,7
        mov [es:di],dx
        sub di,2
        test ax,ax
        jnz .digit
        ret

tick:   push ax
        push ds
        mov ax,RAM
        mov ds,ax
        inc word [ticks]
        jmp short done

key:    push ax
        push ds
        mov ax,RAM
        mov ds,ax
        in al,60h
        mov ah,al
        mov al,0C0h             ; line 7 up: the latch is emptied
        out 61h,al
        mov al,40h              ; and down: the next code may come
        out 61h,al
        test ah,80h
        jnz done
        inc word [keys]
done:   mov al,20h              ; the end of the interrupt
        out 20h,al
        pop ds
        pop ax
        iret

title:  db 'ticks    , keys    '
.end:
; The MC6845's registers for 25 lines of 80 characters.
mc6845: db 61h,50h,52h,0Fh,19h,6,19h,19h,2,0Dh,0Bh,0Ch,0,0,0,0
