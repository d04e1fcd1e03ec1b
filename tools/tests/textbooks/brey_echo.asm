; Echo of keys up to an @, by macros (after Brey)
.MODEL TINY
.CODE
DISP MACRO A
     MOV DL,A
     MOV AH,6
     INT 21H
     ENDM
KEY  MACRO
     LOCAL KEY1
KEY1:
     MOV AH,6
     MOV DL,0FFH
     INT 21H
     JE  KEY1
     ENDM
.STARTUP
MAIN1:
     KEY
     CMP AL,'@'
     JE  MAIN2
     DISP AL
     JMP MAIN1
MAIN2:
.EXIT
END
