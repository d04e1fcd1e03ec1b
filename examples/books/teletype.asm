; A text by the BIOS, a character at a time.
SEGMENT MAIN AT 100h
        ORG 100h
start:  MOV SI,words
next:   LODSB
        TEST AL,AL
        JZ over
        CALL tty
        JMP SHORT next
over:   INT 20h

; Writes AL by the BIOS.
tty:    PUSH AX
        PUSH BX
        MOV AH,0Eh
        MOV BX,7
        INT 10h
        POP BX
        POP AX
        RET

words:  DB 'One line',13,10,'another',8,8,8,'XYZ',13,'Over',10,'below',0
ENDS
