; Text by the BIOS in each of the attributes of a monochrome screen.
SEGMENT MAIN AT 100h
        ORG 100h
start:  MOV AX,7
        INT 10h
        MOV SI,kinds
        XOR DX,DX
next:   LODSB
        CMP AL,0FFh
        JE over
        MOV BL,AL
        MOV BH,0
        MOV AH,2
        INT 10h
        MOV AX,0941h
        MOV CX,20
        INT 10h
        INC DH
        JMP SHORT next
over:   MOV AH,2
        INT 10h
        INT 20h

kinds:  DB 7,0Fh,1,9,70h,0FFh
ENDS
