; A text in the middle of the screen, and the cursor where it was.
SEGMENT MAIN AT 100h
        ORG 100h
start:  MOV AH,3
        MOV BH,0
        INT 10h
        PUSH DX
        MOV DX,0C22h
        MOV AH,2
        INT 10h
        MOV DX,words
        CALL text
        POP DX
        MOV AH,2
        INT 10h
        MOV AL,'*'
        CALL tty
        INT 20h

; Writes the text at DX, which ends with a dollar sign.
text:   PUSH AX
        MOV AH,9
        INT 21h
        POP AX
        RET

; Writes AL by the BIOS.
tty:    PUSH AX
        PUSH BX
        MOV AH,0Eh
        MOV BX,7
        INT 10h
        POP BX
        POP AX
        RET

words:  DB 'In the middle$'
ENDS
