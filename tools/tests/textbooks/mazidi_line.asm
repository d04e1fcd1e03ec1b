TITLE  PROG4-4 (EXE) CURSOR, MACROS AND A KEYBOARD
.XLIST
CURSOR  MACRO ROW,COLUMN
        MOV AH,02H
        MOV BH,00
        MOV DH,ROW
        MOV DL,COLUMN
        INT 10H
        ENDM
CLEAR   MACRO
        MOV AX,0600H
        MOV BH,07
        MOV CX,0000
        MOV DX,184FH
        INT 10H
        ENDM
DISPLAY MACRO STRING
        MOV AH,09
        MOV DX,OFFSET STRING
        INT 21H
        ENDM
REGSAVE MACRO
        IRP R,<AX,BX,CX,DX>
        PUSH R
        ENDM
        ENDM
.LIST
        .MODEL SMALL
        .STACK 64
        .DATA
MESS1   DB 'Type a line',0DH,0AH,'$'
MESS2   DB 'You typed: $'
ROW     EQU 08
COLUMN  EQU 05
        ORG 0030H
BUFFER  DB 22,?,22 DUP (?)
BCD1    DB 49H,86H
BCD2    DB 73H,02H
BCDS    DB 2 DUP(?)
        .CODE
START   PROC FAR
        MOV AX,@DATA
        MOV DS,AX
        CLEAR
        CURSOR ROW,COLUMN
        DISPLAY MESS1
        MOV AH,0AH
        MOV DX,OFFSET BUFFER
        INT 21H
        SUB BX,BX
        MOV BL,BUFFER+1
        MOV BUFFER[BX]+2,'$'
        CURSOR ROW+2,COLUMN
        DISPLAY MESS2
        DISPLAY BUFFER+2
        CLC
        MOV SI,1
        MOV CX,2
BACK:   MOV AL,BCD1[SI]
        ADC AL,BCD2[SI]
        DAA
        MOV BCDS[SI],AL
        DEC SI
        LOOP BACK
        REGSAVE
        MOV AH,4CH
        INT 21H
START   ENDP
        END START
