; What is typed up to a point, with the capital letter behind each.
SEGMENT MAIN AT 100h
        ORG 100h
start:  MOV AH,1
        INT 21h
        CMP AL,'.'
        JE over
        CMP AL,'a'
        JB show
        CMP AL,'z'
        JA show
        SUB AL,20h
show:   CALL char
        JMP SHORT start
over:
        MOV AX,4C00h
        INT 21h

; Writes AL.
char:   PUSH AX
        PUSH DX
        MOV DL,AL
        MOV AH,2
        INT 21h
        POP DX
        POP AX
        RET
ENDS
