; A monitor in ROM: at the prompt a person types an offset of four hexadecimal digits, and it shows the eight bytes
; that stand there in segment F000h. It asks the keyboard's latch again and again, and needs no interrupt.
SEGMENT MAIN AT 0F600h
start:  MOV AX,0
        MOV SS,AX
        MOV SP,AX               ; the stack grows down from the end of segment 0
        MOV AX,0B000h
        MOV ES,AX
        MOV AX,0F000h           ; the ROM begins at 6000 there, and at FFF0 the processor
        MOV DS,AX
        CLD
        MOV DX,3B8h             ; the text card: bit 0 first, then its MC6845, then the video
        MOV AL,1
        OUT DX,AL
        MOV DX,3B4h
        MOV BX,15
card:   MOV AL,BL               ; the register's number goes to 3B4h
        MOV AH,CS:[BX+mc6845]   ; and its value to 3B5h
        OUT DX,AX
        DEC BX
        JNS card
        MOV DX,3B8h
        MOV AL,9                ; video on
        OUT DX,AL
        MOV AL,99h              ; the parallel port: B is an output
        OUT 63h,AL
        MOV AL,40h              ; the keyboard may send
        OUT 61h,AL
        MOV BP,0                ; where the line begins

prompt: MOV DI,BP
        ADD BP,160
        MOV AL,'>'
        CALL char
        MOV SI,0                ; the offset
        MOV DL,4                ; so many digits
digits: CALL getkey
        CMP AL,'0'
        JB digits
        CMP AL,'9'
        JBE number
        CMP AL,'A'
        JB digits
        CMP AL,'F'
        JA digits
number: CALL char               ; echo
        SUB AL,'0'
        CMP AL,10
        JB join
        SUB AL,7                ; A follows 9
join:   MOV CL,4
        SHL SI,CL
        CBW
        OR SI,AX
        DEC DL
        JNZ digits

        MOV AL,':'
        CALL char
        MOV DH,8
bytes:  MOV AL,' '
        CALL char
        LODSB                   ; from DS:SI
        MOV AH,AL
        MOV CL,4
        SHR AL,CL
        CALL digit
        MOV AL,AH
        AND AL,0Fh
        CALL digit
        DEC DH
        JNZ bytes
        JMP SHORT prompt

; The character of the next key that goes down.
getkey: IN AL,60h               ; 0 where the latch is empty
        TEST AL,AL
        JZ getkey
        MOV AH,AL
        MOV AL,0C0h             ; empty the latch
        OUT 61h,AL
        MOV AL,40h
        OUT 61h,AL
        MOV AL,AH
        TEST AL,80h             ; a key that comes up
        JNZ getkey
        MOV BX,codes
        CS: XLAT
        RET

; Prints AL, 0 to 15, as a digit, and the character AL. Both keep AX.
digit:  PUSH AX
        ADD AL,90h
        DAA
        ADC AL,40h
        DAA
        CALL char
        POP AX
        RET
char:   PUSH AX
        MOV AH,7
        STOSW
        POP AX
        RET

; The characters of the scan codes, by the keyboard of the IBM PC.
codes:  DB '..1234567890-=..'
        DB 'QWERTYUIOP[]..AS'
        DB 'DFGHJKL;....ZXCV'
        DB 'BNM,./.*. ......'
        DB 32 DUP('.')

; The MC6845's registers for 25 lines of 80 characters.
mc6845: DB 61h,50h,52h,0Fh,19h,6,19h,19h,2,0Dh,0Bh,0Ch,0,0,0,0
ENDS

SEGMENT RESET AT 0FFFFh
        JMP FAR start
ENDS
