; A handler that stays in memory
cseg segment
assume cs:cseg,ds:cseg
org 100h
begin: jmp install
old dd ?
count dw 0
handler proc far
push ds
push cs
pop ds
inc count
pop ds
jmp cs:[old]
handler endp
install: mov ax,351Ch
int 21h
mov word ptr old,bx
mov word ptr old[2],es
mov dx,offset handler
mov ax,251Ch
int 21h
mov dx,offset install
int 27h
cseg ends
end begin
