; Whether a key waits, before it is read.
SEGMENT MAIN AT 100h
        ORG 100h
start:  MOV AH,0Bh
        INT 21h
        CMP AL,0
        JE start
        MOV AH,8
        INT 21h
        CMP AL,13
        JE over
        MOV BL,AL
        MOV CX,3
three:  MOV AL,BL
        CALL char
        LOOP three
        JMP SHORT start
over:   INT 20h

; Writes AL.
char:   PUSH AX
        PUSH DX
        MOV DL,AL
        MOV AH,2
        INT 21h
        POP DX
        POP AX
        RET
ENDS
