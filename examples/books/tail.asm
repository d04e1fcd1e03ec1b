; What the command was given.
SEGMENT MAIN AT 100h
        ORG 100h
start:  MOV CL,[80h]
        XOR CH,CH
        MOV SI,81h
        JCXZ over
next:   LODSB
        CMP AL,' '
        JNE show
        CALL line
        LOOP next
        JMP SHORT over
show:   CALL char
        LOOP next
over:   CALL line
        MOV AX,4C00h
        INT 21h

; Writes AL.
char:   PUSH AX
        PUSH DX
        MOV DL,AL
        MOV AH,2
        INT 21h
        POP DX
        POP AX
        RET

; Begins a new line.
line:   PUSH AX
        PUSH DX
        MOV AH,2
        MOV DL,13
        INT 21h
        MOV DL,10
        INT 21h
        POP DX
        POP AX
        RET
ENDS
