; The timer's tick through the interrupt controller: counts nine ticks on the screen.
SEGMENT MAIN AT 50h
start:  MOV AX,CS
        MOV DS,AX
        MOV SS,AX
        MOV SP,top
        MOV AX,0B000h
        MOV ES,AX
        MOV DX,3B8h             ; the text card: bit 0 first, then its MC6845, then the video
        MOV AL,1
        OUT DX,AL
        MOV DX,3B4h
        MOV BX,15
card:   MOV AL,BL               ; the register's number goes to 3B4h
        MOV AH,CS:[BX+mc6845]   ; and its value to 3B5h
        OUT DX,AX
        DEC BX
        JNS card
        MOV DX,3B8h
        MOV AL,9                ; video on
        OUT DX,AL
        MOV WORD ES:[0],0730h   ; the digit 0
        MOV AL,34h              ; counter 0: low byte, high byte, mode 2
        OUT 43h,AL
        MOV AL,100              ; a tick each 100 counts, that is 400 clocks
        OUT 40h,AL
        MOV AL,0
        OUT 40h,AL
        MOV AL,13h              ; 8259A: edges, no slaves, ICW4 comes; forgets the rise that the mode word made
        OUT 20h,AL
        MOV AL,8                ; IR0 is interrupt 8
        OUT 21h,AL
        MOV AL,1                ; 8086 mode
        OUT 21h,AL
        MOV AL,0FEh             ; all masked but IR0, the timer
        OUT 21h,AL
        STI
idle:   HLT
        JMP SHORT idle

tick:   PUSH AX                 ; a handler keeps what it changes
        INC BYTE ES:[0]
        MOV AL,20h              ; the end of the interrupt
        OUT 20h,AL
        POP AX
        IRET

; The MC6845's registers for 25 lines of 80 characters.
mc6845: DB 61h,50h,52h,0Fh,19h,6,19h,19h,2,0Dh,0Bh,0Ch,0,0,0,0

        DW 64 DUP(0)            ; room for the stack
top:
ENDS

SEGMENT VECTORS AT 0
        ORG 20h                 ; 4 times 8
        DW tick,SEG tick
ENDS

SEGMENT RESET AT 0FFFFh
        JMP FAR start
ENDS
