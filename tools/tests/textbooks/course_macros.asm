; recursive and conditional macros
.MODEL SMALL
.STACK 100h
PUSHALL MACRO R1,R2,R3,R4
        IFNB    <R1>
        PUSH    R1
        PUSHALL R2,R3,R4
        ENDIF
        ENDM
POPALL  MACRO   REGS
        IRP     R,<REGS>
        POP     R
        ENDM
        ENDM
SAY     MACRO   TXT
        LOCAL   S,OVER
        JMP     SHORT OVER
S       DB      TXT,'$'
OVER:   PUSHALL AX,DX,DS
        PUSH    CS
        POP     DS
        MOV     DX,OFFSET S
        MOV     AH,9
        INT     21h
        POPALL  <DS,DX,AX>
        ENDM
MAKE    MACRO   N
        V&N     DW N*N
        ENDM
MAKES   MACRO   COUNT
        K = 0
        REPT    COUNT
        MAKE    %K
        K = K+1
        ENDM
        ENDM
MIN     MACRO   A,B
        LOCAL   L
        IFDIF   <A>,<AX>
        MOV     AX,A
        ENDIF
        CMP     AX,B
        JLE     L
        MOV     AX,B
L:
        ENDM
DIGIT   MACRO
        MOV     DL,AL
        OR      DL,30h
        MOV     AH,2
        INT     21h
        ENDM
.DATA
        MAKES   4
.CODE
START:  MOV     AX,@DATA
        MOV     DS,AX
        SAY     'Squares: '
        MOV     AX,V2
        DIGIT
        MOV     AX,V3
        DIGIT
        SAY     <13,10,'min: '>
        MIN     V3,5
        DIGIT
        MOV     AX,3
        MIN     AX,V1
        DIGIT
        MOV     AX,4C00h
        INT     21h
        END     START
