; A first program: code, data and stack in one segment of RAM. It writes a text to the screen.
SEGMENT MAIN AT 50h             ; from 00500h on; below lie the vectors of interrupts
start:  MOV AX,CS
        MOV DS,AX               ; the data stand behind the code
        MOV SS,AX
        MOV SP,top              ; the stack grows down from its room's end
        MOV AX,0B000h
        MOV ES,AX               ; text memory
        MOV DX,3B8h             ; the text card: bit 0 first, then its MC6845, then the video
        MOV AL,1
        OUT DX,AL
        MOV DX,3B4h
        MOV BX,15
card:   MOV AL,BL               ; the register's number goes to 3B4h
        MOV AH,CS:[BX+mc6845]   ; and its value to 3B5h
        OUT DX,AX
        DEC BX
        JNS card
        MOV DX,3B8h
        MOV AL,9                ; video on
        OUT DX,AL
        CLD                     ; strings go upward
        MOV SI,text
        MOV DI,0                ; the upper left
        CALL print
        HLT

; Writes the text at DS:SI, up to a 0, to ES:DI, and counts its characters.
print:  LODSB
        TEST AL,AL
        JZ done
        MOV AH,7                ; normal, not bright
        STOSW                   ; a character and its attribute
        INC BYTE [count]
        JMP SHORT print
done:   RET

text:   DB 'Hello from RAM',0
count:  DB 0
; The MC6845's registers for 25 lines of 80 characters.
mc6845: DB 61h,50h,52h,0Fh,19h,6,19h,19h,2,0Dh,0Bh,0Ch,0,0,0,0
        DW 64 DUP(0)            ; room for the stack
top:
ENDS

SEGMENT RESET AT 0FFFFh         ; where the processor begins
        JMP FAR start
ENDS
