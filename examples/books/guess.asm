; A digit to be guessed.
SEGMENT MAIN AT 100h
        ORG 100h
start:  MOV DX,prompt
        CALL text
        MOV AH,1
        INT 21h
        CALL line
        CMP AL,'6'
        JE right
        MOV DX,less
        JA told
        MOV DX,more
told:   CALL text
        JMP SHORT start
right:  MOV DX,yes
        CALL text
        MOV AX,4C00h
        INT 21h

; Writes the text at DX, which ends with a dollar sign.
text:   PUSH AX
        MOV AH,9
        INT 21h
        POP AX
        RET

; Begins a new line.
line:   PUSH AX
        PUSH DX
        MOV AH,2
        MOV DL,13
        INT 21h
        MOV DL,10
        INT 21h
        POP DX
        POP AX
        RET

prompt: DB 'A digit? $'
less:   DB 'less',13,10,'$'
more:   DB 'more',13,10,'$'
yes:    DB 'yes',13,10,'$'
ENDS
