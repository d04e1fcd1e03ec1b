#make_com#
; A sort by swaps, in an emu8086 program of an older version
org 100h
jmp start
vec1 db 5, 3, 9, 1
msg db "vector: ", 24h
start:
mov cx, 3
outer:
mov si, 0
inner:
mov al, vec1[si]
mov bl, vec1[si+1]
cmp al, bl
jbe ok
mov vec1[si+1], al
mov vec1[si], bl
ok: inc si
cmp si, 3
jb inner
loop outer
lea dx, msg
mov ah, 9
int 21h
mov si, offset vec1
mov cx, 4
p: lodsb
add al, 30h
mov ah, 0eh
int 10h
loop p
mov ah, 0
int 16h
ret
