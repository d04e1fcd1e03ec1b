; A line that is typed, backwards.
SEGMENT MAIN AT 100h
        ORG 100h
start:  MOV DX,prompt
        CALL text
        MOV DX,buffer
        MOV AH,0Ah
        INT 21h
        CALL line
        MOV CL,[buffer+1]
        XOR CH,CH
        JCXZ over
        MOV SI,buffer+1
        ADD SI,CX
        STD
next:   LODSB
        CALL char
        LOOP next
        CLD
over:   CALL line
        MOV AX,4C00h
        INT 21h

; Writes AL.
char:   PUSH AX
        PUSH DX
        MOV DL,AL
        MOV AH,2
        INT 21h
        POP DX
        POP AX
        RET

; Writes the text at DX, which ends with a dollar sign.
text:   PUSH AX
        MOV AH,9
        INT 21h
        POP AX
        RET

; Begins a new line.
line:   PUSH AX
        PUSH DX
        MOV AH,2
        MOV DL,13
        INT 21h
        MOV DL,10
        INT 21h
        POP DX
        POP AX
        RET

prompt: DB 'A line: $'
buffer: DB 30,0,30 DUP(0)
ENDS
