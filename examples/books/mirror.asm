; Reads the screen back, cell by cell.
SEGMENT MAIN AT 100h
        ORG 100h
start:  MOV AX,7
        INT 10h
        MOV DX,words
        MOV AH,9
        INT 21h
        XOR DX,DX
next:   MOV AH,2
        MOV BH,0
        INT 10h
        MOV AH,8
        INT 10h
        PUSH DX
        NEG DL
        ADD DL,25
        INC DH
        MOV AH,2
        INT 10h
        MOV AH,0Ah
        MOV CX,1
        INT 10h
        POP DX
        INC DL
        CMP DL,25
        JBE next
        INT 20h

words:  DB 'Was it a rat that I saw?$'
ENDS
