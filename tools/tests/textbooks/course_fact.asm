; A factorial by recursion, whose argument has a name on the stack
.model small
.stack 100h
.data
n   equ 5
msg db 'Factorial: $'
.code
num equ word ptr [bp+4]
fact proc near
    push bp
    mov bp,sp
    push bx
    mov ax,num
    cmp ax,1
    jbe done
    dec ax
    push ax
    call fact
    mul num
    jmp short exit
done: mov ax,1
exit: pop bx
    pop bp
    ret 2
fact endp
prnum proc near
    mov cx,0
    mov bx,10
next: xor dx,dx
    div bx
    push dx
    inc cx
    or ax,ax
    jnz next
out1: pop dx
    add dl,'0'
    mov ah,2
    int 21h
    loop out1
    ret
prnum endp
main proc
    mov ax,@data
    mov ds,ax
    mov ah,9
    lea dx,msg
    int 21h
    mov ax,n
    push ax
    call fact
    call prnum
    mov ah,4ch
    int 21h
main endp
end main
