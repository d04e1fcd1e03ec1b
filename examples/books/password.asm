; A word that is typed unseen.
SEGMENT MAIN AT 100h
        ORG 100h
start:  MOV DX,prompt
        CALL text
        MOV DI,word1
next:   MOV AH,8
        INT 21h
        CMP AL,13
        JE typed
        STOSB
        MOV AL,'*'
        CALL char
        JMP SHORT next
typed:  CALL line
        MOV SI,word1
        MOV CX,DI
        SUB CX,SI
        CMP CX,4
        JNE wrong
        MOV DI,right
        REPE CMPSB
        JNE wrong
        MOV DX,welcome
        CALL text
        MOV AX,4C00h
        INT 21h

wrong:  MOV DX,no
        CALL text
        MOV AX,4C01h
        INT 21h

; Writes the text at DX, which ends with a dollar sign.
text:   PUSH AX
        MOV AH,9
        INT 21h
        POP AX
        RET

; Writes AL.
char:   PUSH AX
        PUSH DX
        MOV DL,AL
        MOV AH,2
        INT 21h
        POP DX
        POP AX
        RET

; Begins a new line.
line:   PUSH AX
        PUSH DX
        MOV AH,2
        MOV DL,13
        INT 21h
        MOV DL,10
        INT 21h
        POP DX
        POP AX
        RET

prompt: DB 'Password: $'
welcome: DB 'Welcome.$'
no:     DB 'No.$'
right:  DB 'open'
word1:  DB 40 DUP(0)
ENDS
