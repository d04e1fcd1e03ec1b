; A sort by exchange, the numbers before and after.
SEGMENT MAIN AT 100h
        ORG 100h
start:  CALL show
        MOV CX,9
pass:   PUSH CX
        MOV SI,numbers
each:   MOV AX,[SI]
        CMP AX,[SI+2]
        JBE okay
        XCHG AX,[SI+2]
        MOV [SI],AX
okay:   ADD SI,2
        LOOP each
        POP CX
        LOOP pass
        CALL show
        MOV AX,4C00h
        INT 21h

show:   MOV SI,numbers
        MOV CX,10
one:    LODSW
        CALL number
        MOV AL,' '
        CALL char
        LOOP one
        CALL line
        RET

; Writes AX in decimal.
number: PUSH AX
        PUSH BX
        PUSH CX
        PUSH DX
        XOR CX,CX
        MOV BX,10
digits: XOR DX,DX
        DIV BX
        PUSH DX
        INC CX
        TEST AX,AX
        JNZ digits
write:  POP DX
        ADD DL,'0'
        MOV AH,2
        INT 21h
        LOOP write
        POP DX
        POP CX
        POP BX
        POP AX
        RET

; Writes AL.
char:   PUSH AX
        PUSH DX
        MOV DL,AL
        MOV AH,2
        INT 21h
        POP DX
        POP AX
        RET

; Begins a new line.
line:   PUSH AX
        PUSH DX
        MOV AH,2
        MOV DL,13
        INT 21h
        MOV DL,10
        INT 21h
        POP DX
        POP AX
        RET

numbers: DW 503,87,512,61,908,170,897,275,653,426
ENDS
