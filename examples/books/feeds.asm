; Line feeds by the BIOS, from column to column.
SEGMENT MAIN AT 100h
        ORG 100h
start:  MOV CX,40
        MOV BL,'A'
next:   MOV AL,BL
        CALL tty
        MOV AL,10
        CALL tty
        INC BX
        CMP BL,'Z'
        JBE same
        MOV BL,'A'
same:   LOOP next
        INT 20h

; Writes AL by the BIOS.
tty:    PUSH AX
        PUSH BX
        MOV AH,0Eh
        MOV BX,7
        INT 10h
        POP BX
        POP AX
        RET
ENDS
