; Flags, one instruction at a time: to be stepped through with the debugger.
SEGMENT MAIN AT 0F600h
start:  MOV AL,7Fh
        ADD AL,1                ; 80h: no carry, but past the greatest signed byte: OF, SF, AF
        ADD AL,80h              ; 00h with a carry: CF, ZF, PF, and OF again
        ADC AL,0                ; 01h: the carry comes in
        SUB AL,2                ; FFh: a borrow, CF
        CMP AL,0FFh             ; equal: ZF; AL stays
        INC AL                  ; 00h: ZF, and INC leaves CF as it is
        STC
        RCR AL,1                ; 80h: the carry turns in at the top
        NEG AL                  ; 80h is its own negative: OF
        HLT
ENDS

SEGMENT RESET AT 0FFFFh
        JMP FAR start
ENDS
