; Two numbers are typed, and added.
SEGMENT MAIN AT 100h
        ORG 100h
start:  CALL ask
        MOV BX,AX
        CALL ask
        ADD AX,BX
        MOV DX,sum
        CALL text
        CALL number
        CALL line
        MOV AX,4C00h
        INT 21h

; AX, a number that is typed.
ask:    PUSH BX
        MOV DX,prompt
        CALL text
        MOV DX,buffer
        MOV AH,0Ah
        INT 21h
        CALL line
        XOR AX,AX
        MOV SI,buffer+2
        MOV CL,[buffer+1]
        XOR CH,CH
        JCXZ asked
figure: MOV BX,10
        MUL BX
        MOV BL,[SI]
        INC SI
        SUB BL,'0'
        XOR BH,BH
        ADD AX,BX
        LOOP figure
asked:  POP BX
        RET

; Writes AX in decimal.
number: PUSH AX
        PUSH BX
        PUSH CX
        PUSH DX
        XOR CX,CX
        MOV BX,10
digits: XOR DX,DX
        DIV BX
        PUSH DX
        INC CX
        TEST AX,AX
        JNZ digits
write:  POP DX
        ADD DL,'0'
        MOV AH,2
        INT 21h
        LOOP write
        POP DX
        POP CX
        POP BX
        POP AX
        RET

; Writes the text at DX, which ends with a dollar sign.
text:   PUSH AX
        MOV AH,9
        INT 21h
        POP AX
        RET

; Begins a new line.
line:   PUSH AX
        PUSH DX
        MOV AH,2
        MOV DL,13
        INT 21h
        MOV DL,10
        INT 21h
        POP DX
        POP AX
        RET

prompt: DB 'Number: $'
sum:    DB 'Sum: $'
buffer: DB 6,0,6 DUP(0)
ENDS
