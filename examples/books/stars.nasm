; A triangle of stars, by the BIOS, higher than the screen.
        org 100h
        mov cx,30
        mov di,1
row:    push cx
        mov cx,di
.star:  mov ax,0E00h+'*'
        int 10h
        loop .star
        mov ax,0E0Dh
        int 10h
        mov ax,0E0Ah
        int 10h
        inc di
        pop cx
        loop row
        mov ah,4Ch
        int 21h
