; multi-segment executable file template.

data segment
    ; add your data here!
    pkey db "press any key...$"
    num1 dw 1234h
    a db 7
    b db 6
ends

stack segment
    dw   128  dup(0)
ends

code segment
start:
; set segment registers:
    mov ax, data
    mov ds, ax
    mov es, ax

    ; add your code here
    mov al, a
    mul b
    aam
    or ax, 3030h
    push ax
    mov dl, ah
    mov ah, 2
    int 21h
    pop ax
    mov dl, al
    mov ah, 2
    int 21h
    lea dx, pkey
    mov ah, 9
    int 21h        ; output string at ds:dx

    ; wait for any key....
    mov ah, 1
    int 21h

    mov ax, 4c00h ; exit to operating system.
    int 21h
ends

end start ; set entry point and stop the assembler.
