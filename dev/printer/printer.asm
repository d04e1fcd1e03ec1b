; Writes 5Ah to the data latch at 378h, and reads it back: AX is 005A then, and 00FF on a board without it.
SEGMENT M AT 0F000h
go: MOV DX,378h
 MOV AL,5Ah
 OUT DX,AL
 MOV AL,0
 IN AL,DX
 HLT
ENDS
SEGMENT R AT 0FFFFh
 JMP FAR go
ENDS
