; Lines by handles, until a blank one.
SEGMENT MAIN AT 100h
        ORG 100h
start:  MOV AH,3Fh
        MOV BX,0
        MOV CX,80
        MOV DX,buffer
        INT 21h
        JC over
        CMP AX,2
        JBE over
        MOV CX,AX
        MOV AH,40h
        MOV BX,1
        MOV DX,buffer
        INT 21h
        JMP SHORT start
over:   MOV AH,40h
        MOV BX,2
        MOV CX,4
        MOV DX,end
        INT 21h
        MOV AX,4C00h
        INT 21h

end:    DB 'End.'
buffer: DB 80 DUP(0)
ENDS
