; The primes below 300, each in a line of its own.
SEGMENT MAIN AT 100h
        ORG 100h
start:  MOV BX,2
next:   MOV CX,2
tries:  MOV AX,CX
        MUL CX
        CMP AX,BX
        JA prime
        MOV AX,BX
        XOR DX,DX
        DIV CX
        TEST DX,DX
        JZ none
        INC CX
        JMP SHORT tries
prime:  MOV AX,BX
        CALL number
        CALL line
none:   INC BX
        CMP BX,300
        JB next
        MOV AX,4C00h
        INT 21h

; Writes AX in decimal.
number: PUSH AX
        PUSH BX
        PUSH CX
        PUSH DX
        XOR CX,CX
        MOV BX,10
digits: XOR DX,DX
        DIV BX
        PUSH DX
        INC CX
        TEST AX,AX
        JNZ digits
write:  POP DX
        ADD DL,'0'
        MOV AH,2
        INT 21h
        LOOP write
        POP DX
        POP CX
        POP BX
        POP AX
        RET

; Begins a new line.
line:   PUSH AX
        PUSH DX
        MOV AH,2
        MOV DL,13
        INT 21h
        MOV DL,10
        INT 21h
        POP DX
        POP AX
        RET
ENDS
