; Keys by polling: echoes typed keys, asking the keyboard's latch again and again.
SEGMENT MAIN AT 50h
start:  MOV AX,CS
        MOV DS,AX
        MOV SS,AX
        MOV SP,top
        MOV AX,0B000h
        MOV ES,AX
        MOV DX,3B8h             ; the text card: bit 0 first, then its MC6845, then the video
        MOV AL,1
        OUT DX,AL
        MOV DX,3B4h
        MOV BX,15
card:   MOV AL,BL               ; the register's number goes to 3B4h
        MOV AH,CS:[BX+mc6845]   ; and its value to 3B5h
        OUT DX,AX
        DEC BX
        JNS card
        MOV DX,3B8h
        MOV AL,9                ; video on
        OUT DX,AL
        MOV AL,99h              ; the parallel port: B is an output
        OUT 63h,AL
        MOV AL,40h              ; line 6: the keyboard may send
        OUT 61h,AL
        CLD
        MOV DI,0
next:   CALL getkey
        MOV AH,7
        STOSW
        JMP SHORT next

; Waits for a key that goes down; its character is in AL.
getkey: IN AL,60h               ; 0 while the latch is empty
        TEST AL,AL
        JZ getkey
        MOV AH,AL
        MOV AL,0C0h             ; line 7 up: the latch is emptied
        OUT 61h,AL
        MOV AL,40h              ; and down: the next code may come
        OUT 61h,AL
        MOV AL,AH
        TEST AL,80h             ; a key that comes up
        JNZ getkey
        MOV BX,codes
        XLAT                    ; the byte at BX + AL
        RET

; The characters of the scan codes, by the keyboard of the IBM PC.
codes:  DB '..1234567890-=..'
        DB 'QWERTYUIOP[]..AS'
        DB 'DFGHJKL;....ZXCV'
        DB 'BNM,./.*. ......'
        DB 64 DUP('.')

; The MC6845's registers for 25 lines of 80 characters.
mc6845: DB 61h,50h,52h,0Fh,19h,6,19h,19h,2,0Dh,0Bh,0Ch,0,0,0,0

        DW 64 DUP(0)            ; room for the stack
top:
ENDS

SEGMENT RESET AT 0FFFFh
        JMP FAR start
ENDS
