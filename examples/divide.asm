; Multiplies and divides, and meets a quotient that doesn't fit: the processor then enters interrupt 0.
SEGMENT MAIN AT 0F600h
start:  MOV AX,0
        MOV SS,AX
        MOV SP,AX               ; the stack grows down from the end of segment 0
        MOV DS,AX
        MOV WORD [0],fault      ; the vector of interrupt 0: offset
        MOV [2],CS              ; and segment
        MOV AX,0B000h
        MOV ES,AX
        MOV DI,0
        MOV DX,3B8h             ; the text card: bit 0 first, then its MC6845, then the video
        MOV AL,1
        OUT DX,AL
        MOV DX,3B4h
        MOV BX,15
card:   MOV AL,BL               ; the register's number goes to 3B4h
        MOV AH,CS:[BX+mc6845]   ; and its value to 3B5h
        OUT DX,AX
        DEC BX
        JNS card
        MOV DX,3B8h
        MOV AL,9                ; video on
        OUT DX,AL
        MOV AL,200
        MOV BL,25
        MUL BL                  ; AX = 5,000
        CALL hexword
        MOV BL,60
        DIV BL                  ; AL = 83, AH = 20
        CALL hexword
        MOV AX,-100
        MOV BL,7
        IDIV BL                 ; AL = -14, AH = -2: it rounds toward 0
        CALL hexword
        MOV AX,1000h
        MOV BL,10h
        DIV BL                  ; 100h has no room in AL: interrupt 0
        CALL hexword               ; AX as the handler left it
        HLT

; Prints AX as four hexadecimal digits and a blank.
hexword: MOV CX,4
nibble: ROL AX,1                ; the highest digit comes first
        ROL AX,1
        ROL AX,1
        ROL AX,1
        PUSH AX
        AND AL,0Fh
        ADD AL,90h              ; to a character: the adjustments do what a comparison would
        DAA
        ADC AL,40h
        DAA
        MOV AH,7
        STOSW
        POP AX
        LOOP nibble
        MOV WORD ES:[DI],0720h
        INC DI
        INC DI
        RET

; Entered in the midst of DIV. The address that it returns to is the next instruction's.
fault:  MOV AX,0EEEEh
        IRET

; The MC6845's registers for 25 lines of 80 characters.
mc6845: DB 61h,50h,52h,0Fh,19h,6,19h,19h,2,0Dh,0Bh,0Ch,0,0,0,0
ENDS

SEGMENT RESET AT 0FFFFh
        JMP FAR start
ENDS
