; A routine to be tried by itself: the square root of AX, rounded down, in AX.
; test_root.py beside this file calls it with each number there is.

SEGMENT MAIN AT 0F600h

start:  MOV AX,0
        MOV SS,AX
        MOV SP,400h
        HLT                     ; nothing else is to be done: the test calls root

; A bit after the other, from the highest on, is kept if the square isn't too large then. Changes BX and CX.
root:   MOV BX,AX
        MOV CX,80h              ; CH: the root so far, CL: the next bit
bit:    MOV AL,CH
        OR AL,CL
        MUL AL
        CMP AX,BX
        JA over
        OR CH,CL
over:   SHR CL,1
        JNZ bit
        MOV AL,CH
        MOV AH,0
        RET

ENDS

SEGMENT RESET AT 0FFFFh
        JMP FAR start
ENDS
