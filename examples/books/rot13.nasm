; What is typed up to Enter, each letter thirteen further.
        org 100h
%macro write 1
        mov dl,%1
        mov ah,2
        int 21h
%endmacro
next:   mov ah,8
        int 21h
        cmp al,13
        je .over
        mov bl,al
        and bl,0DFh
        cmp bl,'A'
        jb .show
        cmp bl,'Z'
        ja .show
        cmp bl,'N'
        jb .add
        sub al,26
.add:   add al,13
.show:  write al
        jmp next
.over:  write 13
        write 10
        int 20h
