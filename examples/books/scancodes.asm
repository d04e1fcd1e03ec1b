; Keys by the BIOS, with their codes, until Esc.
SEGMENT MAIN AT 100h
        ORG 100h
start:  MOV AH,0
        INT 16h
        CMP AL,27
        JE over
        PUSH AX
        MOV AL,AH
        XOR AH,AH
        CALL number
        MOV AL,' '
        CALL tty
        POP AX
        XOR AH,AH
        CALL number
        CALL line
        JMP SHORT start
over:   INT 20h

; Writes AX in decimal.
number: PUSH AX
        PUSH BX
        PUSH CX
        PUSH DX
        XOR CX,CX
        MOV BX,10
digits: XOR DX,DX
        DIV BX
        PUSH DX
        INC CX
        TEST AX,AX
        JNZ digits
write:  POP DX
        ADD DL,'0'
        MOV AH,2
        INT 21h
        LOOP write
        POP DX
        POP CX
        POP BX
        POP AX
        RET

; Writes AL by the BIOS.
tty:    PUSH AX
        PUSH BX
        MOV AH,0Eh
        MOV BX,7
        INT 10h
        POP BX
        POP AX
        RET

; Begins a new line.
line:   PUSH AX
        PUSH DX
        MOV AH,2
        MOV DL,13
        INT 21h
        MOV DL,10
        INT 21h
        POP DX
        POP AX
        RET
ENDS
