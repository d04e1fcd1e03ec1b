; The sieve of Eratosthenes up to 400, each prime in a line of its own.
        org 100h
MOST    equ 400
start:  mov di,sieve
        mov cx,MOST
        xor al,al
        rep stosb
        mov bx,2
next:   cmp byte [sieve+bx],0
        jne .none
        mov ax,bx
        call number
        mov si,bx
.cross: add si,bx
        cmp si,MOST
        jae .none
        mov byte [sieve+si],1
        jmp .cross
.none:  inc bx
        cmp bx,MOST
        jb next
        mov ax,4C00h
        int 21h

; Writes AX and a line end.
number: push bx
        mov bx,10
        xor cx,cx
.digit: xor dx,dx
        div bx
        push dx
        inc cx
        test ax,ax
        jnz .digit
.write: pop dx
        add dl,'0'
        mov ah,2
        int 21h
        loop .write
        mov dx,crlf
        mov ah,9
        int 21h
        pop bx
        ret
crlf:   db 13,10,'$'
section .bss
sieve:  resb MOST
