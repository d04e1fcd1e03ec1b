; hooks the tick's interrupt, and counts, with its data in the code segment
CSEG    SEGMENT
        ASSUME CS:CSEG,DS:CSEG
        ORG 100H
ENTPT:  JMP SHORT INITZE
OLDVEC  DD ?
TICKS   DW 0
NEWINT  PROC FAR
        INC CS:TICKS
        PUSHF
        CALL CS:OLDVEC
        IRET
NEWINT  ENDP
INITZE: MOV AX,351CH
        INT 21H
        MOV WORD PTR OLDVEC,BX
        MOV WORD PTR OLDVEC[2],ES
        LEA DX,NEWINT
        MOV AX,251CH
        INT 21H
WAIT1:  CMP TICKS,3
        JB WAIT1
        LDS DX,OLDVEC
        MOV AX,251CH
        INT 21H
        PUSH CS
        POP DS
        MOV DX,OFFSET DONE
        MOV AH,9
        INT 21H
        INT 20H
DONE    DB 'three ticks$'
CSEG    ENDS
        END ENTPT
