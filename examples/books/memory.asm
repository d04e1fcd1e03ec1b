; Blocks of memory, taken and given back.
SEGMENT MAIN AT 100h
        ORG 100h
start:  MOV SP,stack
        MOV BX,100h
        MOV AH,4Ah
        INT 21h
        CALL told
        MOV BX,10h
        MOV AH,48h
        INT 21h
        CALL told
        MOV ES,AX
        MOV BX,20h
        MOV AH,4Ah
        INT 21h
        CALL told
        MOV AH,49h
        INT 21h
        CALL told
        MOV BX,0FFFFh
        MOV AH,48h
        INT 21h
        CALL told
        CALL number
        MOV AX,4C00h
        INT 21h

; Writes whether CF is set.
told:   PUSH AX
        MOV AL,'0'
        ADC AL,0
        CALL char
        POP AX
        RET

; Writes AX in decimal.
number: PUSH AX
        PUSH BX
        PUSH CX
        PUSH DX
        XOR CX,CX
        MOV BX,10
digits: XOR DX,DX
        DIV BX
        PUSH DX
        INC CX
        TEST AX,AX
        JNZ digits
write:  POP DX
        ADD DL,'0'
        MOV AH,2
        INT 21h
        LOOP write
        POP DX
        POP CX
        POP BX
        POP AX
        RET

; Writes AL.
char:   PUSH AX
        PUSH DX
        MOV DL,AL
        MOV AH,2
        INT 21h
        POP DX
        POP AX
        RET

        DW 100h DUP(0)
stack:
ENDS
