; The first 64 bytes of the program, in hexadecimal.
SEGMENT MAIN AT 100h
        ORG 100h
start:  MOV SI,100h
        MOV CH,4
row:    MOV CL,16
byte1:  LODSB
        CALL hex
        MOV AL,' '
        CALL char
        DEC CL
        JNZ byte1
        CALL line
        DEC CH
        JNZ row
        MOV AX,4C00h
        INT 21h

; Writes AL in hexadecimal.
hex:    PUSH CX
        MOV AH,AL
        MOV CL,4
        SHR AL,CL
        CALL nibble
        MOV AL,AH
        AND AL,0Fh
        POP CX
nibble: ADD AL,90h
        DAA
        ADC AL,40h
        DAA

; Writes AL.
char:   PUSH AX
        PUSH DX
        MOV DL,AL
        MOV AH,2
        INT 21h
        POP DX
        POP AX
        RET

; Begins a new line.
line:   PUSH AX
        PUSH DX
        MOV AH,2
        MOV DL,13
        INT 21h
        MOV DL,10
        INT 21h
        POP DX
        POP AX
        RET
ENDS
