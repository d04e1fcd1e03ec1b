; The alphabet, there and back.
SEGMENT MAIN AT 100h
        ORG 100h
start:  MOV DL,'A'
there:  MOV AH,2
        INT 21h
        INC DL
        CMP DL,'Z'
        JBE there
        CALL line
        MOV DL,'z'
back:   MOV AH,2
        INT 21h
        DEC DL
        CMP DL,'a'
        JAE back
        INT 20h

; Begins a new line.
line:   PUSH AX
        PUSH DX
        MOV AH,2
        MOV DL,13
        INT 21h
        MOV DL,10
        INT 21h
        POP DX
        POP AX
        RET
ENDS
