; The printable characters with their codes.
SEGMENT MAIN AT 100h
        ORG 100h
start:  MOV BX,32
next:   MOV AX,BX
        CALL number
        MOV AL,' '
        CALL char
        MOV AL,BL
        CALL char
        MOV AL,9
        CALL char
        INC BX
        CMP BX,127
        JB next
        MOV AX,4C00h
        INT 21h

; Writes AX in decimal.
number: PUSH AX
        PUSH BX
        PUSH CX
        PUSH DX
        XOR CX,CX
        MOV BX,10
digits: XOR DX,DX
        DIV BX
        PUSH DX
        INC CX
        TEST AX,AX
        JNZ digits
write:  POP DX
        ADD DL,'0'
        MOV AH,2
        INT 21h
        LOOP write
        POP DX
        POP CX
        POP BX
        POP AX
        RET

; Writes AL.
char:   PUSH AX
        PUSH DX
        MOV DL,AL
        MOV AH,2
        INT 21h
        POP DX
        POP AX
        RET
ENDS
