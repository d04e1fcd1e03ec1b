; Texts by INT 10h, function 13h.
SEGMENT MAIN AT 100h
        ORG 100h
start:  MOV AX,7
        INT 10h
        MOV AX,1301h
        MOV BX,7
        MOV CX,6
        MOV DX,0305h
        MOV BP,words
        INT 10h
        MOV AX,1300h
        MOV DX,0510h
        INT 10h
        MOV AX,1303h
        MOV CX,3
        MOV DX,0720h
        MOV BP,pairs
        INT 10h
        MOV AX,0E21h
        INT 10h
        INT 20h

words:  DB 'Golden'
pairs:  DB 'A',7,'B',70h,'C',0Fh
ENDS
