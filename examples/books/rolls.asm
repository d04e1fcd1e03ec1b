; A window of 25 lines that rolls up, and one that rolls down.
SEGMENT MAIN AT 100h
        ORG 100h
start:  MOV AX,7
        INT 10h
        XOR DX,DX
rows:   MOV AH,2
        MOV BH,0
        INT 10h
        MOV AL,DH
        ADD AL,'A'
        MOV AH,0Ah
        MOV CX,60
        INT 10h
        INC DH
        CMP DH,25
        JB rows
        MOV AX,0603h
        MOV BH,7
        MOV CX,0205h
        MOV DX,0C18h
        INT 10h
        MOV AX,0702h
        MOV CX,0A1Eh
        MOV DX,1732h
        INT 10h
        MOV AX,0600h
        MOV CX,0338h
        MOV DX,083Bh
        INT 10h
        MOV DX,0
        MOV AH,2
        INT 10h
        INT 20h
ENDS
