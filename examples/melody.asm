; A melody: notes from a table, each a number of counts of the timer and a length; a rest has no count.
SEGMENT MAIN AT 0F600h
start:  MOV AX,CS
        MOV DS,AX
        MOV AL,99h              ; the parallel port: B is an output
        OUT 63h,AL
        MOV SI,notes
        CLD
next:   LODSW                   ; the counts of a period
        MOV BX,AX
        LODSW                   ; how long
        MOV CX,AX
        JCXZ end                ; a length of 0 ends the melody
        TEST BX,BX
        JZ rest
        MOV AL,0B6h             ; counter 2: mode 3
        OUT 43h,AL
        MOV AX,BX
        OUT 42h,AL
        MOV AL,AH
        OUT 42h,AL
        MOV AL,3                ; sound
        OUT 61h,AL
        JMP SHORT hold
rest:   MOV AL,0                ; silence
        OUT 61h,AL
hold:   LOOP hold
        JMP SHORT next
end:    MOV AL,0
        OUT 61h,AL
        HLT

; The tones of a chord, 4 : 5 : 6. The real ones have thousands of counts; these are short, so that the list of the
; speaker's changes can be read.
notes:  DW 60,40,48,40,40,40,0,20,40,20,48,20,60,40,0,0
ENDS

SEGMENT RESET AT 0FFFFh
        JMP FAR start
ENDS
