; What was typed before the question is forgotten.
SEGMENT MAIN AT 100h
        ORG 100h
start:  MOV AH,1
        INT 21h
        MOV DX,prompt
        CALL text
        MOV AX,0C06h
        MOV DL,0FFh
        INT 21h
        MOV DX,nothing
        JZ told
        MOV DX,something
told:   CALL text
        MOV AX,4C00h
        INT 21h

; Writes the text at DX, which ends with a dollar sign.
text:   PUSH AX
        MOV AH,9
        INT 21h
        POP AX
        RET

prompt: DB ' and now? $'
nothing: DB 'nothing$'
something: DB 'something$'
ENDS
