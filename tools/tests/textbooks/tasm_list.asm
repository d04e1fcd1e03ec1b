%TITLE  "Sum of a list, with a local word below BP"
nl      EQU     13,10
        .MODEL  SMALL
        .STACK  100h
        .DATA
primes  DB      2,3,5,
                7,11
msg     DB      'The sum of ', \
                'five primes:', nl, '$'
packed  DT      1234567890
        .CODE
; The sum of CX bytes at SI.
sum     PROC    NEAR
        PUSH    BP
        MOV     BP,SP
        SUB     SP,2
        MOV     WORD PTR -2[BP],0
repeat: LODSB
        CBW
        ADD     -2[BP],AX
        LOOP    repeat
        MOV     AX,-2[BP]
        MOV     SP,BP
        POP     BP
        RET
sum     ENDP
start:  MOV     AX,@DATA
        MOV     DS,AX
        MOV     DX,OFFSET msg
        MOV     AH,9
        INT     21h
        MOV     SI,OFFSET primes
        MOV     CX,LENGTHOF primes
        CALL    sum
        AAM
        OR      AX,3030h
        XCHG    AL,AH
        PUSH    AX
        MOV     DL,AL
        MOV     AH,2
        INT     21h
        JMP     $+2             ; waits a little
        POP     AX
        MOV     DL,AH
        MOV     AH,2
        INT     21h
        MOV     AL,BYTE PTR packed+1
        MOV     AH,4Ch
        INT     21h
        END     start
