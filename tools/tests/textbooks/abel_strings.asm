          page 60,132
TITLE     A12STRNG (EXE)  Compare, scan and store strings
STACKSG   SEGMENT PARA STACK 'Stack'
          DW      32 DUP(?)
STACKSG   ENDS
DATASG    SEGMENT PARA 'Data'
HEADG1    DB      'CYBERUSERS'
HEADG2    DB      10 DUP(20H)
HEADG3    DB      10 DUP(?)
          DB      '$'
NL        DB      0DH,0AH,'$'
DATASG    ENDS
CODESG    SEGMENT PARA 'Code'
MAIN      PROC    FAR
          ASSUME  CS:CODESG,DS:DATASG,SS:STACKSG,ES:DATASG
          MOV     AX,DATASG
          MOV     DS,AX
          MOV     ES,AX
          CALL    B10MVSB
          CALL    C10MVSW
          CALL    D10LODS
          CALL    E10CMPS
          CALL    F10SCAS
          MOV     AX,4C00H
          INT     21H
MAIN      ENDP
B10MVSB   PROC    NEAR
          CLD
          MOV     CX,10
          LEA     SI,HEADG1
          LEA     DI,HEADG2
          REP MOVSB
          RET
B10MVSB   ENDP
C10MVSW   PROC    NEAR
          CLD
          MOV     CX,05
          LEA     SI,HEADG2
          LEA     DI,HEADG3
          REP MOVS WORD PTR [DI],[SI]
          RET
C10MVSW   ENDP
D10LODS   PROC    NEAR               ; reversed into HEADG3
          CLD
          MOV     CX,10
          LEA     SI,HEADG1
          LEA     DI,HEADG3+9
D20:      LODSB
          MOV     [DI],AL
          DEC     DI
          LOOP    D20
          MOV     AH,09H
          LEA     DX,HEADG3
          INT     21H
          LEA     DX,NL
          INT     21H
          RET
D10LODS   ENDP
E10CMPS   PROC    NEAR
          CLD
          MOV     CX,10
          LEA     SI,HEADG1
          LEA     DI,HEADG2
          REPE CMPSB
          JNE     E20
          MOV     DL,'='
          MOV     AH,02
          INT     21H
E20:      RET
E10CMPS   ENDP
F10SCAS   PROC    NEAR
          CLD
          MOV     AL,'U'
          MOV     CX,10
          LEA     DI,HEADG1
          REPNE SCAS HEADG1
          JNE     F20
          SUB     CX,10
          NEG     CX
          MOV     DL,CL
          ADD     DL,30H
          MOV     AH,02
          INT     21H
F20:      RET
F10SCAS   ENDP
CODESG    ENDS
          END     MAIN
