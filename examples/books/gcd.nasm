; Greatest common divisors by Euclid.
        org 100h
        mov si,pairs
next:   lodsw
        test ax,ax
        jz .over
        mov bx,ax
        lodsw
.again: xor dx,dx
        div bx
        mov ax,bx
        mov bx,dx
        test dx,dx
        jnz .again
        call number
        jmp next
.over:  ret
number: aam
        or ax,3030h
        mov dx,ax
        xchg dl,dh
        mov ah,2
        int 21h
        mov dl,dh
        int 21h
        mov dl,' '
        int 21h
        ret
pairs:  dw 12,18, 1071,462, 17,5, 100,75, 0
