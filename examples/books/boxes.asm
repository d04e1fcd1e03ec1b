; Two boxes, by the BIOS.
SEGMENT MAIN AT 100h
        ORG 100h
start:  MOV AX,7
        INT 10h
        MOV CX,050Ah
        MOV DX,0A28h
        CALL box
        MOV CX,0C1Eh
        MOV DX,1346h
        CALL box
        INT 20h

; A box from CH, CL to DH, DL.
box:    MOV [first],CX
        MOV [last],DX
        MOV DH,CH
row:    MOV DL,BYTE [first]
        MOV AH,2
        MOV BH,0
        INT 10h
        MOV CL,BYTE [last]
        SUB CL,DL
        INC CX
        XOR CH,CH
        MOV AX,0923h
        MOV BL,70h
        CMP DH,BYTE [first+1]
        JE whole
        CMP DH,BYTE [last+1]
        JE whole
        MOV CX,1
        INT 10h
        MOV DL,BYTE [last]
        MOV AH,2
        INT 10h
        MOV AX,0923h
whole:  INT 10h
        INC DH
        CMP DH,BYTE [last+1]
        JBE row
        RET

first:  DW 0
last:   DW 0
ENDS
