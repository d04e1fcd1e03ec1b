; A tone: counter 2 of the timer as a square wave, let through to the speaker.
SEGMENT MAIN AT 0F600h
start:  MOV AL,0B6h             ; counter 2: low byte, high byte, mode 3, binary
        OUT 43h,AL
        MOV AX,10               ; the timer counts each 4 clocks: half a period is 5 counts, 20 clocks
        OUT 42h,AL              ; low byte
        MOV AL,AH
        OUT 42h,AL              ; high byte
        MOV AL,99h              ; the parallel port: A and C are inputs, B is an output
        OUT 63h,AL
        MOV AL,3                ; line 0 is the gate of counter 2, line 1 lets it through to the speaker
        OUT 61h,AL
        MOV CX,12               ; for a while
pause:  LOOP pause
        MOV AL,0                ; silence
        OUT 61h,AL
        HLT
ENDS

SEGMENT RESET AT 0FFFFh
        JMP FAR start
ENDS
