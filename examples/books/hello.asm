; The first program of every course.
SEGMENT MAIN AT 100h
        ORG 100h
start:  MOV DX,hello
        MOV AH,9
        INT 21h
        MOV AX,4C00h
        INT 21h

hello:  DB 'Hello, world!',13,10,'$'
ENDS
