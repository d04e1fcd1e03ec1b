; Three thousand characters without a line end.
SEGMENT MAIN AT 100h
        ORG 100h
start:  MOV CX,3000
        MOV DL,'0'
next:   MOV AH,2
        INT 21h
        INC DL
        CMP DL,'9'
        JBE same
        MOV DL,'0'
same:   LOOP next
        MOV AX,4C00h
        INT 21h
ENDS
