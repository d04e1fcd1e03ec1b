; A sign that the arrows move, until Enter.
SEGMENT MAIN AT 100h
        ORG 100h
start:  MOV AX,7
        INT 10h
        MOV DX,0C28h
place:  MOV AH,2
        MOV BH,0
        INT 10h
        MOV AX,0A2Ah
        MOV CX,1
        INT 10h
        MOV AH,0
        INT 16h
        CMP AL,13
        JE over
        CMP AH,48h
        JNE not_up
        DEC DH
not_up: CMP AH,50h
        JNE not_down
        INC DH
not_down: CMP AH,4Bh
        JNE not_left
        DEC DL
not_left: CMP AH,4Dh
        JNE place
        INC DL
        JMP SHORT place
over:   INT 20h
ENDS
