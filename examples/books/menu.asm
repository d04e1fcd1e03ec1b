; A menu, until q.
SEGMENT MAIN AT 100h
        ORG 100h
start:  MOV DX,menu
        CALL text
again:  MOV AH,7
        INT 21h
        CMP AL,'q'
        JE over
        CMP AL,'1'
        JB again
        CMP AL,'3'
        JA again
        SUB AL,'1'
        XOR AH,AH
        ADD AX,AX
        MOV BX,AX
        MOV DX,[BX+answers]
        CALL text
        JMP SHORT again
over:   MOV DX,bye
        CALL text
        MOV AX,4C00h
        INT 21h

; Writes the text at DX, which ends with a dollar sign.
text:   PUSH AX
        MOV AH,9
        INT 21h
        POP AX
        RET

menu:   DB '1 Time  2 Place  3 Weather  q Quit',13,10,'$'
answers: DW time1,place,weather
time1:  DB 'Now',13,10,'$'
place:  DB 'Here',13,10,'$'
weather: DB 'Rain',13,10,'$'
bye:    DB 'Bye$'
ENDS
