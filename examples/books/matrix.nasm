; The product of two matrices of 3 by 3.
        org 100h
        xor bp,bp
row:    xor di,di
column: xor cx,cx
        xor bx,bx
.sum:   mov si,bp
        add si,bx
        mov al,[a+si]
        mov si,bx
        add si,bx
        add si,bx
        add si,di
        mul byte [b+si]
        add cx,ax
        inc bx
        cmp bx,3
        jb .sum
        mov ax,cx
        call number
        inc di
        cmp di,3
        jb column
        mov ax,0E0Dh
        int 10h
        mov ax,0E0Ah
        int 10h
        add bp,3
        cmp bp,9
        jb row
        mov ax,4C00h
        int 21h
number: aam
        add ax,3030h
        push ax
        mov al,ah
        mov ah,0Eh
        int 10h
        pop ax
        mov ah,0Eh
        int 10h
        mov al,' '
        int 10h
        ret
a:      db 1,2,3, 4,5,6, 7,8,9
b:      db 1,0,1, 0,2,0, 1,0,1
