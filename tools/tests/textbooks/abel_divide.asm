TITLE   A22MACR3 (EXE)  Use of LOCAL, IFDEF, conditional macros
;-------------------------------
INIT    MACRO   DSNAME
        ASSUME  CS:CSEG,DS:DSNAME,SS:SSEG;ES:DSNAME
        PUSH    DS
        SUB     AX,AX
        PUSH    AX
        MOV     AX,DSNAME
        MOV     DS,AX
        MOV     ES,AX
        ENDM
DIVIDE  MACRO   DIVIDEND,DIVISOR,QUOTIENT
        LOCAL   COMP
        LOCAL   OUT
        CNTR    = 0
;                AX = dividend, BX = divisor, CX = quotient
        IFNDEF  DIVIDEND
;               Dividend not defined
        CNTR    = CNTR + 1
        ENDIF
        IFNDEF  DIVISOR
        CNTR    = CNTR + 1
        ENDIF
        IF      CNTR
;               Macro expansion terminated
        EXITM
        ENDIF
        MOV     AX,DIVIDEND
        MOV     BX,DIVISOR
        SUB     CX,CX
COMP:
        CMP     AX,BX
        JB      OUT
        SUB     AX,BX
        INC     CX
        JMP     COMP
OUT:
        MOV     QUOTIENT,CX
        ENDM
SSEG    SEGMENT PARA STACK 'Stack'
        DW      32 DUP (?)
SSEG    ENDS
DSEG    SEGMENT PARA 'Data'
DIVDND  DW      150
DIVSOR  DW      27
QUOTNT  DW      ?
DSEG    ENDS
CSEG    SEGMENT PARA 'Code'
BEGIN   PROC    FAR
        .XLIST
        INIT    DSEG
        .LALL
        DIVIDE  DIVDND,DIVSOR,QUOTNT
        DIVIDE  DIDND,DIVSOR,QUOT
        MOV     DL,BYTE PTR QUOTNT
        ADD     DL,30H
        MOV     AH,2
        INT     21H
        RET
BEGIN   ENDP
CSEG    ENDS
        END     BEGIN
