; The factorials of 1 to 8, by recursion.
SEGMENT MAIN AT 100h
        ORG 100h
start:  MOV CX,1
next:   MOV AX,CX
        CALL number
        MOV DX,sign
        CALL text
        MOV BX,CX
        CALL factor
        CALL number
        CALL line
        INC CX
        CMP CX,8
        JBE next
        MOV AX,4C00h
        INT 21h

; AX, the factorial of BX.
factor: MOV AX,1
        CMP BX,1
        JBE done
        PUSH BX
        DEC BX
        CALL factor
        POP BX
        MUL BX
done:   RET

; Writes AX in decimal.
number: PUSH AX
        PUSH BX
        PUSH CX
        PUSH DX
        XOR CX,CX
        MOV BX,10
digits: XOR DX,DX
        DIV BX
        PUSH DX
        INC CX
        TEST AX,AX
        JNZ digits
write:  POP DX
        ADD DL,'0'
        MOV AH,2
        INT 21h
        LOOP write
        POP DX
        POP CX
        POP BX
        POP AX
        RET

; Writes the text at DX, which ends with a dollar sign.
text:   PUSH AX
        MOV AH,9
        INT 21h
        POP AX
        RET

; Begins a new line.
line:   PUSH AX
        PUSH DX
        MOV AH,2
        MOV DL,13
        INT 21h
        MOV DL,10
        INT 21h
        POP DX
        POP AX
        RET

sign:   DB '! = $'
ENDS
