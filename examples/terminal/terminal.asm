; A small terminal in ROM: a tick each millisecond, which also drives the speaker by pulses, a ring for keys, and a main loop that
; shows each character and how many ticks there were. It is wrong on purpose: is there a clock at which a key is lost?
TOP     EQU 2000h
SIZE    EQU 16
PERIOD  EQU 1193                ; of the timer's ticks in a millisecond
FIRST   EQU 1193                ; up to the first interrupt: another number moves the others against the main loop
SEGMENT DATA AT 50h
ticks:  DW 0,0
head:   DW 0
tail:   DW 0
count:  DW 0
ring:   DB SIZE DUP(0)
shift:  DB 0                    ; bit 0: shift, bit 6: caps
pwm:    DB 3                    ; of eight ticks so many give the speaker a pulse
phase:  DB 0
cursor: DW 160
lost:   DW 0
ENDS
SEGMENT ROM AT 0F000h
start:  CLI
        CLD
        MOV AX,SEG ticks
        MOV DS,AX
        MOV SS,AX
        MOV SP,TOP
        CALL inits
        STI
main:   CALL getc
        JZ idle
        CALL putc
        JMP SHORT main
idle:   MOV AX,[ticks]
        MOV DI,140
        CALL show
        HLT
        JMP SHORT main

inits:  XOR AX,AX
        MOV ES,AX
        MOV WORD ES:[32],tick
        MOV ES:[34],CS
        MOV WORD ES:[36],key
        MOV ES:[38],CS
        MOV AL,34h              ; counter 0, again and again
        OUT 43h,AL
        MOV AX,FIRST
        OUT 40h,AL
        MOV AL,AH
        OUT 40h,AL
        MOV AX,PERIOD           ; which it takes once that count is over
        OUT 40h,AL
        MOV AL,AH
        OUT 40h,AL
        MOV AL,99h              ; the parallel port: B is an output
        OUT 63h,AL
        MOV AL,40h              ; line 6: the keyboard may send
        OUT 61h,AL
        MOV AL,13h              ; 8259A: edges, no slaves, ICW4 comes
        OUT 20h,AL
        MOV AL,8                ; IR0 is interrupt 8, and so IR1 is interrupt 9
        OUT 21h,AL
        MOV AL,1                ; 8086 mode
        OUT 21h,AL
        MOV AL,0FCh             ; all masked but IR0 and IR1
        OUT 21h,AL
        MOV DX,3B8h
        MOV AL,8                ; video on
        OUT DX,AL
        MOV AX,0B000h
        MOV ES,AX
        RET

putc:   MOV DI,[cursor]
        MOV AH,7
        MOV ES:[DI],AX
        ADD WORD [cursor],2
        RET

show:   MOV BX,10               ; AX in decimal, its last digit at DI
digit:  XOR DX,DX
        DIV BX
        ADD DL,'0'
        MOV DH,7
        MOV ES:[DI],DX
        SUB DI,2
        TEST AX,AX
        JNZ digit
        RET

; AL: the next character; ZF if there is none. It reads, changes and writes count with interrupts on.
getc:   MOV AX,[count]
        TEST AX,AX
        JZ none
        MOV BX,[tail]
        MOV DL,[BX+ring]
        INC BX
        AND BX,SIZE-1
        MOV [tail],BX
        DEC AX
        MOV [count],AX
        MOV AL,DL
        OR DL,1
none:   RET

tick:   PUSH AX
        PUSH DS
        MOV AX,SEG ticks
        MOV DS,AX
        ADD WORD [ticks],1
        ADC WORD [ticks+2],0
        MOV AL,[phase]
        INC AX
        AND AL,7
        MOV [phase],AL
        MOV AH,40h
        CMP AL,[pwm]
        JAE low
        MOV AH,42h
low:    MOV AL,AH
        OUT 61h,AL
        MOV AL,20h
        OUT 20h,AL
        POP DS
        POP AX
        IRET

key:    PUSH AX
        PUSH BX
        PUSH DS
        MOV AX,SEG ticks
        MOV DS,AX
        IN AL,60h
        MOV BL,AL
        IN AL,61h
        OR AL,80h
        OUT 61h,AL
        AND AL,7Fh
        OUT 61h,AL
        XOR BH,BH
        MOV AL,BL
        AND AL,7Fh
        CMP AL,2Ah
        JE shifts
        CMP AL,36h
        JE shifts
        CMP AL,3Ah
        JE caps
        TEST BL,80h
        JNZ ended
        CMP BL,60
        JAE ended
        TEST BYTE [shift],41h
        JZ plain
        MOV AL,CS:[BX+upper]
        JMP SHORT have
plain:  MOV AL,CS:[BX+lower]
have:   TEST AL,AL
        JZ ended
        CMP WORD [count],SIZE
        JAE full
        MOV BX,[head]
        MOV [BX+ring],AL
        INC BX
        AND BX,SIZE-1
        MOV [head],BX
        INC WORD [count]
        JMP SHORT ended
full:   INC WORD [lost]
        JMP SHORT ended
shifts: TEST BL,80h
        JNZ up
        OR BYTE [shift],1
        JMP SHORT ended
up:     AND BYTE [shift],0FEh
        JMP SHORT ended
caps:   TEST BL,80h
        JNZ ended
        XOR BYTE [shift],40h
ended:  MOV AL,20h
        OUT 20h,AL
        POP DS
        POP BX
        POP AX
        IRET

lower:  DB 0,27,'1234567890-=',8,9,'qwertyuiop[]',13,0,'asdfghjkl;',39,'`',0,'\zxcvbnm,./',0,'*',0,' ',6 DUP(0)
upper:  DB 0,27,'!@#$%^&*()_+',8,9,'QWERTYUIOP{}',13,0,'ASDFGHJKL:"~',0,'|ZXCVBNM<>?',0,'*',0,' ',6 DUP(0)
ENDS
SEGMENT RESET AT 0FFFFh
        JMP FAR start
ENDS
