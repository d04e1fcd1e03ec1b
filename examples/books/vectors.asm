; An interrupt of its own.
SEGMENT MAIN AT 100h
        ORG 100h
start:  MOV AX,2560h
        MOV DX,own
        INT 21h
        MOV CX,3
next:   INT 60h
        LOOP next
        MOV AX,3560h
        INT 21h
        CMP BX,own
        JNE over
        MOV AL,'!'
        CALL char
over:
        MOV AX,4C00h
        INT 21h

own:    MOV AL,'i'
        CALL char
        IRET

; Writes AL.
char:   PUSH AX
        PUSH DX
        MOV DL,AL
        MOV AH,2
        INT 21h
        POP DX
        POP AX
        RET
ENDS
