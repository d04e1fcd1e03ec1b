; Writes 256 bytes to port B of the 8255, and reads each back.
SEGMENT M AT 0F000h
go: MOV AL,99h
 OUT 63h,AL
 MOV BL,0
next: MOV AL,BL
 OUT 61h,AL
 IN AL,61h
 INC BL
 JNZ next
 HLT
ENDS
SEGMENT R AT 0FFFFh
 JMP FAR go
ENDS
