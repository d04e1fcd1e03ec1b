; Numbers in binary.
SEGMENT MAIN AT 100h
        ORG 100h
start:  MOV SI,numbers
        MOV CX,6
next:   LODSW
        PUSH CX
        MOV CX,16
bits:   SHL AX,1
        PUSH AX
        MOV AL,'0'
        ADC AL,0
        CALL char
        POP AX
        LOOP bits
        CALL line
        POP CX
        LOOP next
        MOV AX,4C00h
        INT 21h

; Writes AL.
char:   PUSH AX
        PUSH DX
        MOV DL,AL
        MOV AH,2
        INT 21h
        POP DX
        POP AX
        RET

; Begins a new line.
line:   PUSH AX
        PUSH DX
        MOV AH,2
        MOV DL,13
        INT 21h
        MOV DL,10
        INT 21h
        POP DX
        POP AX
        RET

numbers: DW 0,1,255,8086,32768,65535
ENDS
