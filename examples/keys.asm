; The keyboard through the interrupt controller: echoes stamped keys on the screen.
SEGMENT MAIN AT 0F600h
start:  MOV AX,0
        MOV SS,AX
        MOV SP,AX               ; the stack grows down from the end of segment 0
        MOV DS,AX
        MOV WORD [24h],key      ; the vector of interrupt 9, at 4 times 9: offset
        MOV [26h],CS            ; and segment
        MOV AL,13h              ; 8259A: edges, no slaves, ICW4 comes
        OUT 20h,AL
        MOV AL,8                ; IR0 is interrupt 8, and so IR1 is interrupt 9
        OUT 21h,AL
        MOV AL,1                ; 8086 mode
        OUT 21h,AL
        MOV AL,0FDh             ; all masked but IR1, the keyboard
        OUT 21h,AL
        MOV DX,3B8h             ; the text card: bit 0 first, then its MC6845, then the video
        MOV AL,1
        OUT DX,AL
        MOV DX,3B4h
        MOV BX,15
card:   MOV AL,BL               ; the register's number goes to 3B4h
        MOV AH,CS:[BX+mc6845]   ; and its value to 3B5h
        OUT DX,AX
        DEC BX
        JNS card
        MOV DX,3B8h
        MOV AL,9                ; video on
        OUT DX,AL
        MOV AX,0B000h
        MOV ES,AX
        MOV DI,0
        MOV AX,CS
        MOV DS,AX
        MOV BX,codes
        MOV AL,99h              ; the parallel port: B is an output
        OUT 63h,AL
        MOV AL,40h              ; line 6: the keyboard may send
        OUT 61h,AL
        CLD
        STI
idle:   HLT
        JMP SHORT idle

key:    PUSH AX
        IN AL,60h               ; the code
        MOV AH,AL
        MOV AL,0C0h             ; line 7 up: the latch is emptied
        OUT 61h,AL
        MOV AL,40h              ; and down: the next code may come
        OUT 61h,AL
        TEST AH,80h             ; a key that comes up is no character
        JNZ done
        MOV AL,AH
        XLAT                    ; the byte at BX + AL
        MOV AH,7
        STOSW
done:   MOV AL,20h              ; the end of the interrupt
        OUT 20h,AL
        POP AX
        IRET

; The characters of the scan codes, by the keyboard of the IBM PC.
codes:  DB '..1234567890-=..'
        DB 'QWERTYUIOP[]..AS'
        DB 'DFGHJKL;....ZXCV'
        DB 'BNM,./.*. ......'
        DB 32 DUP('.')

; The MC6845's registers for 25 lines of 80 characters.
mc6845: DB 61h,50h,52h,0Fh,19h,6,19h,19h,2,0Dh,0Bh,0Ch,0,0,0,0
ENDS

SEGMENT RESET AT 0FFFFh
        JMP FAR start
ENDS
