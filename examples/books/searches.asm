; A word that is sought in a text.
SEGMENT MAIN AT 100h
        ORG 100h
start:  MOV DI,words
        MOV CX,many
next:   MOV AL,'c'
        REPNE SCASB
        JNE over
        PUSH CX
        PUSH DI
        DEC DI
        MOV SI,sought
        MOV CX,3
        REPE CMPSB
        POP DI
        POP CX
        JNE next
        MOV AX,DI
        SUB AX,words
        CALL number
        CALL line
        JMP SHORT next
over:
        MOV AX,4C00h
        INT 21h

; Writes AX in decimal.
number: PUSH AX
        PUSH BX
        PUSH CX
        PUSH DX
        XOR CX,CX
        MOV BX,10
digits: XOR DX,DX
        DIV BX
        PUSH DX
        INC CX
        TEST AX,AX
        JNZ digits
write:  POP DX
        ADD DL,'0'
        MOV AH,2
        INT 21h
        LOOP write
        POP DX
        POP CX
        POP BX
        POP AX
        RET

; Begins a new line.
line:   PUSH AX
        PUSH DX
        MOV AH,2
        MOV DL,13
        INT 21h
        MOV DL,10
        INT 21h
        POP DX
        POP AX
        RET

many    EQU 38
sought: DB 'cat'
words:  DB 'a cat can catch cats; cocoa can not...',0,0
ENDS
