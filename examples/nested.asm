; Interrupts of two levels: a slow handler of the keyboard is interrupted by the timer, which has the higher priority,
; and writes what happens to the screen: k and K where the keyboard's handler begins and ends, t for the timer.
SEGMENT MAIN AT 0F600h
start:  MOV AX,0
        MOV SS,AX
        MOV SP,AX               ; the stack grows down from the end of segment 0
        MOV DS,AX
        MOV WORD [20h],tick     ; the vectors of interrupts 8 and 9: offset and segment
        MOV [22h],CS
        MOV WORD [24h],key
        MOV [26h],CS
        MOV AL,13h              ; 8259A: edges, no slaves, ICW4 comes
        OUT 20h,AL
        MOV AL,8                ; IR0 is interrupt 8
        OUT 21h,AL
        MOV AL,1                ; 8086 mode
        OUT 21h,AL
        MOV AL,0FCh             ; all masked but IR0 and IR1
        OUT 21h,AL
        MOV AX,0B000h
        MOV ES,AX
        MOV DI,0
        MOV DX,3B8h             ; the text card: bit 0 first, then its MC6845, then the video
        MOV AL,1
        OUT DX,AL
        MOV DX,3B4h
        MOV BX,15
card:   MOV AL,BL               ; the register's number goes to 3B4h
        MOV AH,CS:[BX+mc6845]   ; and its value to 3B5h
        OUT DX,AX
        DEC BX
        JNS card
        MOV DX,3B8h
        MOV AL,9                ; video on
        OUT DX,AL
        MOV AL,34h              ; counter 0: mode 2
        OUT 43h,AL
        MOV AL,250              ; a tick each 1,000 clocks
        OUT 40h,AL
        MOV AL,0
        OUT 40h,AL
        MOV AL,99h              ; the parallel port: B is an output
        OUT 63h,AL
        MOV AL,40h              ; the keyboard may send
        OUT 61h,AL
        CLD
        STI
idle:   HLT
        JMP SHORT idle

tick:   PUSH AX
        MOV AL,'t'
        JMP SHORT last

key:    PUSH AX
        PUSH CX
        MOV AX,076Bh            ; k
        STOSW
        MOV AL,0C0h             ; empty the latch
        OUT 61h,AL
        MOV AL,40h
        OUT 61h,AL
        STI                     ; levels of higher priority may come; IR1 itself waits for its end of interrupt
        MOV CX,100
slow:   LOOP slow               ; some 1,700 clocks
        POP CX
        MOV AL,'K'
last:   MOV AH,7
        STOSW
        CLI
        MOV AL,20h              ; the end of the highest level in service
        OUT 20h,AL
        POP AX
        IRET

; The MC6845's registers for 25 lines of 80 characters.
mc6845: DB 61h,50h,52h,0Fh,19h,6,19h,19h,2,0Dh,0Bh,0Ch,0,0,0,0
ENDS

SEGMENT RESET AT 0FFFFh
        JMP FAR start
ENDS
