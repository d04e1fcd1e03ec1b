; Reads a running counter of an 8254 back: a count that waits to be loaded shows in the status as null count, and one word
; latches status and count of the same moment. An 8253 ignores the words from C0h on.
KEPT EQU 400h                   ; where the bytes that are read are kept

SEGMENT MAIN AT 0F600h
start:  MOV AX,0
        MOV SS,AX
        MOV SP,AX               ; the stack grows down from the end of segment 0
        MOV DS,AX
        MOV ES,AX
        MOV DI,KEPT
        MOV AL,36h              ; counter 0: low byte, high byte, mode 3, binary
        OUT 43h,AL
        CALL status             ; no count yet: null count
        MOV AL,101              ; an odd count, which an 8254 loads as 100: 51 ticks high, 50 low
        OUT 40h,AL
        MOV AL,0
        OUT 40h,AL
        CALL status             ; the next tick has loaded it
        MOV AL,40               ; a new count, while the first one runs
        OUT 40h,AL
        MOV AL,0
        OUT 40h,AL
        CALL status             ; null count again: it waits for the end of the half
again:  MOV AL,0E2h
        OUT 43h,AL
        IN AL,40h
        TEST AL,40h             ; null count
        JNZ again
        MOV AL,0C2h             ; bits 5 and 4 are 0: the count and the status, of counter 0
        OUT 43h,AL
        OUT 43h,AL              ; ignored, since nothing is read yet
        IN AL,40h               ; the status comes first
        STOSB
        IN AL,40h               ; low byte
        STOSB
        IN AL,40h               ; high byte
        STOSB

        MOV DX,3B8h             ; the text card: bit 0 first, then its MC6845, then the video
        MOV AL,1
        OUT DX,AL
        MOV DX,3B4h
        MOV BX,15
card:   MOV AL,BL               ; the register's number goes to 3B4h
        MOV AH,CS:[BX+mc6845]   ; and its value to 3B5h
        OUT DX,AX
        DEC BX
        JNS card
        MOV DX,3B8h
        MOV AL,9                ; video on
        OUT DX,AL
        MOV AX,0B000h           ; text memory
        MOV ES,AX
        MOV SI,KEPT
        MOV DI,0
        MOV BX,digits
        MOV CL,4
next:   LODSB
        MOV DL,AL
        SHR AL,CL
        CALL digit
        MOV AL,DL
        AND AL,0Fh
        CALL digit
        INC DI                  ; a blank
        INC DI
        CMP SI,KEPT+6
        JNE next
        HLT

; Reads counter 0's status, and keeps it.
status: MOV AL,0E2h             ; bit 4 is 0: the status; bit 1: of counter 0
        OUT 43h,AL
        IN AL,40h
        STOSB
        RET

; Writes AL, 0 to 15, as a hexadecimal digit.
digit:  CS: XLAT
        MOV AH,7
        STOSW
        RET
digits: DB '0123456789ABCDEF'

; The MC6845's registers for 25 lines of 80 characters.
mc6845: DB 61h,50h,52h,0Fh,19h,6,19h,19h,2,0Dh,0Bh,0Ch,0,0,0,0
ENDS

SEGMENT RESET AT 0FFFFh
        JMP FAR start
ENDS
