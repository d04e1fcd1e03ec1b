; Local labels of TASM
        DOSSEG
        .MODEL small
        .STACK 100h
        LOCALS @@
        .DATA
Str1    DB 'Able',0
Str2    DB 'Table',0
        .CODE
Len     PROC
        xor cx,cx
@@next: cmp BYTE PTR [si],0
        je @@done
        inc si
        inc cx
        jmp @@next
@@done: ret
Len     ENDP
Show    PROC
@@next: mov dl,cl
        add dl,'0'
        mov ah,2
        int 21h
        jcxz @@done
@@done: ret
Show    ENDP
Start:  mov ax,@data
        mov ds,ax
        lea si,[Str1]
        call Len
        call Show
        lea si,Str2
        call Len
        call Show
        mov ah,4Ch
        int 21h
        END Start
