; A character of each attribute that the monochrome display knows, the display's start moved by 80 words.
SEGMENT MAIN AT 0F000h
start:  MOV AX,0B000h
        MOV ES,AX
        CLD
        MOV DI,160
        MOV AX,0741h            ; normal
        STOSW
        MOV AX,0F42h            ; bright
        STOSW
        MOV AX,0143h            ; underlined
        STOSW
        MOV AX,0944h            ; both
        STOSW
        MOV AX,7045h            ; reverse
        STOSW
        MOV AX,7846h            ; reverse and bright
        STOSW
        MOV DX,3B4h
        MOV AL,13               ; the start address, its low part
        OUT DX,AL
        MOV DX,3B5h
        MOV AL,80
        OUT DX,AL
        MOV DX,3B8h
        MOV AL,8                ; video on
        OUT DX,AL
        HLT
ENDS
SEGMENT RESET AT 0FFFFh
        JMP FAR start
ENDS
