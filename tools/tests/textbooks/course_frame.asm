; A table of procedures, one of ways, and a frame on the stack by a structure
frame struc
oldbp dw ?
retad dw ?
arg2  dw ?
arg1  dw ?
frame ends
code segment para public 'code'
assume cs:code,ds:code,ss:nothing
org 100h
start: jmp begin
table dw offset first, offset second, third
text1 db 'one',13,10,'$'
text2 db 'two',13,10,'$'
text3 db 'three',13,10,'$'
begin: mov si,0
again: call table[si]
add si,2
cmp si,6
jb again
mov ax,7
push ax
mov ax,5
push ax
call sum
add sp,4
add al,'0'-3
mov dl,al
mov ah,2
int 21h
mov bx,2
jmp word ptr ways[bx]
ways dw bad,good
bad: mov dl,'-'
jmp short show
good: mov dl,'+'
show: mov ah,2
int 21h
int 20h
first proc near
mov dx,offset text1
jmp short write
first endp
second: mov dx,offset text2
jmp write
third: lea dx,text3
write: mov ah,9
int 21h
ret
sum proc near
push bp
mov bp,sp
mov ax,[bp].arg1
add ax,[bp].arg2
pop bp
ret
sum endp
code ends
end start
