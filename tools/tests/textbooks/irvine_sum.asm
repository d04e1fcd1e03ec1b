TITLE Calling procedures              (Sum.asm)
; Two procedures, both with a label L1, as MASM 6 takes them
INCLUDE Irvine16.inc
COUNT = 4
.data
array WORD 10,20,30,40
sum   WORD ?
names BYTE "Sum: ",0
.code
main PROC
    mov ax,@data
    mov ds,ax
    mov si,OFFSET array
    mov cx,LENGTHOF array
    call ArraySum
    mov sum,ax
    mov dx,OFFSET names
    call WriteString
    call WriteInt
    call Crlf
    mov cx,COUNT
L1: mov al,'*'
    call WriteChar
    loop L1
    call Crlf
    exit
main ENDP
ArraySum PROC USES si cx
    mov ax,0
L1: add ax,[si]
    add si,TYPE WORD
    loop L1
    ret
ArraySum ENDP
END main
