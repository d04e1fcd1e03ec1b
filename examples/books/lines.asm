; A hundred lines, of which the last are seen.
SEGMENT MAIN AT 100h
        ORG 100h
start:  MOV AX,1
next:   MOV DX,words
        CALL text
        CALL number
        CALL line
        INC AX
        CMP AX,100
        JBE next
        MOV AX,4C00h
        INT 21h

; Writes AX in decimal.
number: PUSH AX
        PUSH BX
        PUSH CX
        PUSH DX
        XOR CX,CX
        MOV BX,10
digits: XOR DX,DX
        DIV BX
        PUSH DX
        INC CX
        TEST AX,AX
        JNZ digits
write:  POP DX
        ADD DL,'0'
        MOV AH,2
        INT 21h
        LOOP write
        POP DX
        POP CX
        POP BX
        POP AX
        RET

; Writes the text at DX, which ends with a dollar sign.
text:   PUSH AX
        MOV AH,9
        INT 21h
        POP AX
        RET

; Begins a new line.
line:   PUSH AX
        PUSH DX
        MOV AH,2
        MOV DL,13
        INT 21h
        MOV DL,10
        INT 21h
        POP DX
        POP AX
        RET

words:  DB 'Line $'
ENDS
