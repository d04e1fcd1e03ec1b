; Forms of MASM 6: SWORD, STRUCT, braces, REPEAT, FOR
        .MODEL SMALL, C
        OPTION CASEMAP:NONE
        .STACK 256
point   STRUCT
x       SWORD 3
y       SWORD -4
point   ENDS
        .DATA
p1      point <>
p2      point {10, 20}
bytes   SBYTE 'a', -1
        ALIGN 2
total   DWORD 70000
text    BYTE "done", 0Dh, 0Ah, "$"
        .CODE
        .STARTUP
        REPEAT 3
        inc p1.x
        ENDM
        FOR reg, <ax,bx,cx>
        push reg
        ENDM
        FOR reg, <cx,bx,ax>
        pop reg
        ENDM
        mov ax, p1.x
        add ax, p2.y
        mov bx, WORD PTR total+2
        mov dx, OFFSET text
        mov ah, 9
        int 21h
        mov al, BYTE PTR p1.x
        mov ah, 4Ch
        int 21h
        END
