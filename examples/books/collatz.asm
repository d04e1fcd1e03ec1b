; The steps of 27 down to 1.
SEGMENT MAIN AT 100h
        ORG 100h
start:  MOV AX,27
next:   CALL number
        CALL line
        CMP AX,1
        JE over
        SHR AX,1
        JNC next
        RCL AX,1
        MOV BX,AX
        ADD AX,BX
        ADD AX,BX
        INC AX
        JMP SHORT next
over:
        MOV AX,4C00h
        INT 21h

; Writes AX in decimal.
number: PUSH AX
        PUSH BX
        PUSH CX
        PUSH DX
        XOR CX,CX
        MOV BX,10
digits: XOR DX,DX
        DIV BX
        PUSH DX
        INC CX
        TEST AX,AX
        JNZ digits
write:  POP DX
        ADD DL,'0'
        MOV AH,2
        INT 21h
        LOOP write
        POP DX
        POP CX
        POP BX
        POP AX
        RET

; Begins a new line.
line:   PUSH AX
        PUSH DX
        MOV AH,2
        MOV DL,13
        INT 21h
        MOV DL,10
        INT 21h
        POP DX
        POP AX
        RET
ENDS
