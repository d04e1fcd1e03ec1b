; What a .COM program finds at its start under DOS, as far as a board without DOS has it: to load it at 0100:0100.
SEGMENT BEFORE AT 0F600h
start:  MOV AX,100h             ; the program's segment, in CS, DS, ES and SS
        MOV DS,AX
        MOV ES,AX
        MOV SS,AX
        MOV SP,0FFFEh           ; a word 0 stands there, so that a RET ends it
        XOR AX,AX
        XOR BX,BX
        MOV CX,0FFh
        MOV DX,100h
        MOV SI,100h
        MOV DI,0FFFEh
        STI
        JMP FAR 100h:100h

ended:  CLI                     ; INT 20h
        HLT
        JMP SHORT ended
ENDS

SEGMENT PREFIX AT 100h
        INT 20h                 ; the first bytes of the program segment prefix, to which a RET leads
ENDS

SEGMENT VECTORS AT 0
        ORG 80h                 ; 4 times 20h
        DW ended,SEG ended
ENDS

SEGMENT RESET AT 0FFFFh
        JMP FAR start
ENDS
