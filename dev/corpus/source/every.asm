; labels, data, strings, segments
SEGMENT MAIN AT 0F000h
COUNT   EQU 5
start:  CLI
        MOV AX,0B000h
        MOV ES,AX
        MOV CX,COUNT*2-1
more:   REP STOSW
        LOOP more
        CALL sub
        JMP FAR other
sub:    PUSH AX
        POP BX
        RET
text:   DB 'Hello',0, 3 DUP(0FFh)
words:  DW 1,2,start
        DD 12345678h
ENDS
SEGMENT DATA AT 50h
ORG 10h
other:  INT 21h
        OUT 61h,AL
        HLT
ENDS
SEGMENT RESET AT 0FFFFh
        JMP FAR start
ENDS
