; What the first sector of a diskette finds at its start: the BIOS has loaded it at 0000:7C00, by a read into ES:BX of
; cylinder 0, sector 1 (CX), head 0, drive 0 (DX). There is no BIOS here, so INT 10h, 13h and the like lead nowhere.
SEGMENT BEFORE AT 0F600h
start:  MOV AX,30h              ; the BIOS's stack
        MOV SS,AX
        MOV SP,100h
        XOR AX,AX
        MOV DS,AX
        MOV ES,AX
        MOV BX,7C00h
        MOV CX,1
        XOR DX,DX
        STI
        JMP FAR 0:7C00h
ENDS

SEGMENT RESET AT 0FFFFh
        JMP FAR start
ENDS
