; Counts the timer's ticks on the screen, one too many: a mistake to find.
SEGMENT MAIN AT 0F600h
start:  MOV AX,0
        MOV SS,AX
        MOV SP,AX               ; the stack grows down from the end of segment 0
        MOV DS,AX
        MOV WORD [20h],tick     ; the vector of interrupt 8, at 4 times 8: offset
        MOV [22h],CS            ; and segment
        MOV AL,13h              ; 8259A: edges, no slaves, ICW4 comes
        OUT 20h,AL
        MOV AL,8                ; IR0 is interrupt 8
        OUT 21h,AL
        MOV AL,1                ; 8086 mode
        OUT 21h,AL
        MOV DX,3B8h             ; the text card: bit 0 first, then its MC6845, then the video
        MOV AL,1
        OUT DX,AL
        MOV DX,3B4h
        MOV BX,15
card:   MOV AL,BL               ; the register's number goes to 3B4h
        MOV AH,CS:[BX+mc6845]   ; and its value to 3B5h
        OUT DX,AX
        DEC BX
        JNS card
        MOV DX,3B8h
        MOV AL,9                ; video on
        OUT DX,AL
        MOV AX,0B000h           ; text memory
        MOV ES,AX
        MOV WORD ES:[0],0730h   ; the digit 0, attribute 07
        MOV AL,34h              ; counter 0: low byte, high byte, mode 2
        OUT 43h,AL
        MOV AL,100              ; a tick each 100 counts, that is 400 clocks
        OUT 40h,AL
        MOV AL,0
        OUT 40h,AL
        STI
idle:   HLT
        JMP SHORT idle

tick:   INC BYTE ES:[0]
        MOV AL,20h              ; the end of the interrupt
        OUT 20h,AL
        IRET

; The MC6845's registers for 25 lines of 80 characters.
mc6845: DB 61h,50h,52h,0Fh,19h,6,19h,19h,2,0Dh,0Bh,0Ch,0,0,0,0
ENDS

SEGMENT RESET AT 0FFFFh
        JMP FAR start
ENDS
