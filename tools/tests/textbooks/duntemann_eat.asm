;---------------------------------------------------------------
;                          EAT.ASM
;---------------------------------------------------------------
MyStack   SEGMENT STACK   ; STACK word ensures loading of SS by DOS
          DB      64 DUP ('STACK!!!') ; This reserves 512 bytes
MyStack   ENDS

MyData    SEGMENT
Eat1      DB      "Eat at Joe's!",'$'
Eat2      DB      "Ten million flies can't ALL be wrong!",'$'
CRLF      DB      0DH,0AH,'$'
MyData    ENDS

MyProg    SEGMENT
          assume CS:MyProg,DS:MyData
Main      PROC
Start:    mov  AX,MyData
          mov  DS,AX
          lea  DX,Eat1
          call Writeln
          lea  DX,Eat2
          call Writeln
          mov  AH,4CH
          mov  AL,0
          int  21H
Main      ENDP
;
Write     PROC
          mov  AH,09H
          int  21H
          ret
Write     ENDP
Writeln   PROC
          call Write
          mov  DX,OFFSET CRLF
          call Write
          ret
Writeln   ENDP
MyProg    ENDS
          END Start
