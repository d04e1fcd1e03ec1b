        TITLE   Turbo Assembler with local symbols
        DOSSEG
        .MODEL  small
        .STACK  100h
        LOCALS
        DATASEG
TimePrompt      DB 'Is it after 12 noon (Y/N)?$'
GoodMorning     DB 13,10,'Good morning, world!',13,10,'$'
GoodAfternoon   DB 13,10,'Good afternoon, world!',13,10,'$'
        CODESEG
        STARTUPCODE
        mov     dx,OFFSET TimePrompt
        call    show
        mov     ah,1
        int     21h
        or      al,20h
        cmp     al,'y'
        je      @@after
        mov     dx,OFFSET GoodMorning
        jmp     short @@out
@@after: mov    dx,OFFSET GoodAfternoon
@@out:  call    show
        EXITCODE 3
show    PROC
@@out:  mov     ah,9
        int     21h
        ret
show    ENDP
        END
