; Scrolling without moving a byte: the text adapter begins its screen at a word that the 6845's registers 12 and 13 name.
SEGMENT MAIN AT 0F600h
start:  CLD
        MOV DX,3B8h             ; the text card: bit 0 first, then its MC6845, then the video
        MOV AL,1
        OUT DX,AL
        MOV DX,3B4h
        MOV BX,15
card:   MOV AL,BL               ; the register's number goes to 3B4h
        MOV AH,CS:[BX+mc6845]   ; and its value to 3B5h
        OUT DX,AX
        DEC BX
        JNS card
        MOV DX,3B8h
        MOV AL,9                ; video on
        OUT DX,AL
        MOV AX,0B000h
        MOV ES,AX
        MOV DI,0                ; 25 lines, A to Y, and then three more: text memory has 2,048 words
        MOV AX,0741h
lines:  MOV CX,80
        REP STOSW
        INC AX
        CMP DI,4000             ; 25 lines of 160 bytes
        JB lines
        MOV DX,3B4h             ; the start address, in words, is 80: the second line
        MOV AX,000Ch            ; register 12 has its high six bits
        OUT DX,AX
        MOV AX,500Dh            ; register 13 its low eight
        OUT DX,AX
        MOV CX,80               ; what was the first line's place in memory isn't seen now; the new last line
        MOV DI,4000             ; begins at word 2,000, and goes on at word 0 behind word 2,047
        MOV AX,072Ah            ; *
fill:   STOSW
        AND DI,0FFFh            ; the screen wraps at 2,048 words
        LOOP fill
        HLT

; The MC6845's registers for 25 lines of 80 characters.
mc6845: DB 61h,50h,52h,0Fh,19h,6,19h,19h,2,0Dh,0Bh,0Ch,0,0,0,0
ENDS

SEGMENT RESET AT 0FFFFh
        JMP FAR start
ENDS
