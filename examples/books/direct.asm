; Keys by direct input, until a point; it counts none while it waits.
SEGMENT MAIN AT 100h
        ORG 100h
start:  MOV DL,0FFh
        MOV AH,6
        INT 21h
        JZ start
        CMP AL,'.'
        JE over
        MOV DL,AL
        MOV AH,6
        INT 21h
        JMP SHORT start
over:   INT 20h
ENDS
