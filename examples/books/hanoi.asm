; The tower of five discs.
SEGMENT MAIN AT 100h
        ORG 100h
start:  MOV CX,5
        MOV AX,'A'
        MOV BX,'B'
        MOV DX,'C'
        CALL move
        MOV AX,4C00h
        INT 21h

; Moves CX discs from AL to DL by BL.
move:   JCXZ moved
        PUSH AX
        PUSH BX
        PUSH CX
        PUSH DX
        DEC CX
        XCHG BX,DX
        CALL move
        XCHG BX,DX
        CALL char
        PUSH AX
        MOV AL,'-'
        CALL char
        MOV AL,DL
        CALL char
        CALL line
        POP AX
        XCHG AX,BX
        CALL move
        POP DX
        POP CX
        POP BX
        POP AX
moved:  RET

; Writes AL.
char:   PUSH AX
        PUSH DX
        MOV DL,AL
        MOV AH,2
        INT 21h
        POP DX
        POP AX
        RET

; Begins a new line.
line:   PUSH AX
        PUSH DX
        MOV AH,2
        MOV DL,13
        INT 21h
        MOV DL,10
        INT 21h
        POP DX
        POP AX
        RET
ENDS
