; Strings: REP MOVS, REPNE SCAS and REPE CMPS.
SEGMENT MAIN AT 0F600h
start:  MOV AX,CS
        MOV DS,AX               ; the texts stand behind the code
        MOV AX,0
        MOV ES,AX               ; RAM
        CLD                     ; upward
        MOV SI,first
        MOV DI,400h
        MOV CX,second-first
        REP MOVSB               ; a copy at 0:400h

        MOV DI,400h
        MOV CX,second-first
        MOV AL,'b'
        REPNE SCASB             ; the first b; DI stands behind it
        MOV BX,DI
        SUB BX,401h             ; its place, from 0 on

        MOV SI,second
        MOV DI,400h
        MOV CX,second-first
        REPE CMPSB              ; up to the first difference
        MOV DX,SI
        SUB DX,second+1         ; its place

        STD                     ; downward: a text that overlaps itself is moved from its end
        MOV AX,ES
        MOV DS,AX
        MOV SI,400h+second-first-1
        MOV DI,SI
        ADD DI,4
        MOV CX,second-first
        REP MOVSB
        HLT

first:  DB 'a table of bytes'
second: DB 'a table of words'
ENDS

SEGMENT RESET AT 0FFFFh
        JMP FAR start
ENDS
