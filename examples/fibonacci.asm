; Loops, procedures and the stack: prints the Fibonacci numbers up to 65,535.
TEXT EQU 0B000h                 ; the paragraph of text memory

SEGMENT MAIN AT 0F600h
start:  MOV AX,0
        MOV SS,AX
        MOV SP,AX               ; the stack grows down from the end of segment 0
        MOV AX,TEXT
        MOV ES,AX
        MOV DI,0                ; where the next character goes
        MOV DX,3B8h             ; the text card: bit 0 first, then its MC6845, then the video
        MOV AL,1
        OUT DX,AL
        MOV DX,3B4h
        MOV BX,15
card:   MOV AL,BL               ; the register's number goes to 3B4h
        MOV AH,CS:[BX+mc6845]   ; and its value to 3B5h
        OUT DX,AX
        DEC BX
        JNS card
        MOV DX,3B8h
        MOV AL,9                ; video on
        OUT DX,AL
        MOV SI,1                ; F(1)
        MOV BX,1                ; F(2)
again:  MOV AX,SI
        CALL number
        CALL blank
        ADD SI,BX               ; F(n) + F(n+1)
        XCHG SI,BX
        JNC again               ; until a sum has 17 bits
        MOV AX,SI
        CALL number
        HLT

; Prints AX in decimal: pushes the digits from the last one on, and pops them from the first one on.
number: PUSH BX
        MOV BX,10
        MOV CX,0
digit:  MOV DX,0
        DIV BX                  ; AX = DX:AX / 10, DX the digit
        PUSH DX
        INC CX
        TEST AX,AX
        JNZ digit
print:  POP AX
        ADD AL,'0'
        CALL char
        LOOP print
        POP BX
        RET

blank:  MOV AL,' '
char:   MOV AH,7                ; white on black
        STOSW
        RET

; The MC6845's registers for 25 lines of 80 characters.
mc6845: DB 61h,50h,52h,0Fh,19h,6,19h,19h,2,0Dh,0Bh,0Ch,0,0,0,0
ENDS

SEGMENT RESET AT 0FFFFh
        JMP FAR start
ENDS
