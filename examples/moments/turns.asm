; Makes twenty turns and then shows T, the 20th letter; keys may come meanwhile, and their handler only empties the latch.
; It is wrong on purpose: is there a clock at which a key makes the letter another one?
SEGMENT MAIN AT 50h
start:  MOV AX,CS
        MOV DS,AX
        MOV SS,AX
        MOV SP,top
        MOV DX,3B8h             ; the text card: bit 0 first, then its MC6845, then the video
        MOV AL,1
        OUT DX,AL
        MOV DX,3B4h
        MOV BX,15
card:   MOV AL,BL               ; the register's number goes to 3B4h
        MOV AH,CS:[BX+mc6845]   ; and its value to 3B5h
        OUT DX,AX
        DEC BX
        JNS card
        MOV DX,3B8h
        MOV AL,9                ; video on
        OUT DX,AL
        MOV AL,13h              ; 8259A: edges, no slaves, ICW4 comes
        OUT 20h,AL
        MOV AL,8                ; IR0 is interrupt 8, and so IR1 is interrupt 9
        OUT 21h,AL
        MOV AL,1                ; 8086 mode
        OUT 21h,AL
        MOV AL,0FDh             ; all masked but IR1, the keyboard
        OUT 21h,AL
        MOV AL,99h              ; the parallel port: B is an output
        OUT 63h,AL
        MOV AL,40h              ; line 6: the keyboard may send
        OUT 61h,AL
        STI
turn:   MOV CX,20
delay:  LOOP delay
        MOV AX,[turns]
        INC AX
        MOV [turns],AX
        CMP WORD [turns],20
        JB turn
        MOV BX,0B000h
        MOV ES,BX
        MOV AL,BYTE [turns]
        ADD AL,40h              ; 41h is A
        MOV AH,7
        MOV ES:[0],AX
idle:   HLT
        JMP SHORT idle

key:    IN AL,60h               ; the code
        MOV AL,0C0h             ; line 7 up: the latch is emptied
        OUT 61h,AL
        MOV AL,40h              ; and down: the next code may come
        OUT 61h,AL
        MOV AL,20h              ; the end of the interrupt
        OUT 20h,AL
        IRET

; The MC6845's registers for 25 lines of 80 characters.
mc6845: DB 61h,50h,52h,0Fh,19h,6,19h,19h,2,0Dh,0Bh,0Ch,0,0,0,0
turns:  DW 0
        DW 32 DUP(0)
top:
ENDS

SEGMENT VECTORS AT 0
        ORG 24h                 ; 4 times 9
        DW key,SEG key
ENDS

SEGMENT RESET AT 0FFFFh
        JMP FAR start
ENDS
