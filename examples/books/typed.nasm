; Keys by the BIOS, looked at before they are taken, until Enter.
        org 100h
wait_:  mov ah,1
        int 16h
        jz wait_
        mov ah,0
        int 16h
        cmp al,13
        je .over
        mov ah,0Eh
        mov bx,7
        int 10h
        mov al,'-'
        int 10h
        jmp wait_
.over:  ret
