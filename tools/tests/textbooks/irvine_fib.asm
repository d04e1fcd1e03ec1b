TITLE Fibonacci numbers                 (Fib.asm)
INCLUDE Irvine16.inc
.data
array WORD 12 DUP(?)
msg BYTE "Fibonacci: ",0
.code
main PROC
    mov ax,@data
    mov ds,ax
    mov dx,OFFSET msg
    call WriteString
    mov si,OFFSET array
    mov WORD PTR [si],1
    mov WORD PTR [si+TYPE array],1
    mov cx,LENGTHOF array - 2
L1: mov ax,[si]
    add ax,[si+2]
    mov [si+4],ax
    add si,TYPE array
    loop L1
    mov si,0
    mov cx,LENGTHOF array
L2: mov ax,array[si]
    call WriteDec
    mov al,' '
    call WriteChar
    add si,TYPE WORD
    loop L2
    call Crlf
    exit
main ENDP
END main
