#make_com#
name "calc2"
; simple calculator, after the samples
include "emu8086.inc"
org 100h
jmp start
msg0 db "note: calculator works with integer values only.",0Dh,0Ah,'$'
msg1 db 0Dh,0Ah,"enter first number: $"
msg2 db 0Dh,0Ah,'enter the operator: +  -  *  /     :  $'
opr db '?'
num1 dw ?
num2 dw ?
vec1 db 1, 2, 5, 6
vec2 db 3 dup(9)
start:
mov dx, offset msg0
mov ah, 9
int 21h
lea dx, msg1
mov ah, 09h
int 21h
call scan_num
mov num1, cx
lea dx, msg2
mov ah, 09h
int 21h
mov ah, 1
int 21h
mov opr, al
putc 0Dh
putc 0Ah
call scan_num
mov num2, cx
printn
cmp opr, '+'
je do_plus
cmp opr, '*'
je do_mult
jmp exit
do_plus:
mov ax, num1
add ax, num2
call print_num
jmp exit
do_mult:
mov ax, num1
imul num2
call print_num
jmp exit
exit:
print " thank you"
mov al, vec1[2]
mov si, 1
add al, vec1[si]
add al, b.vec2
mov bl, al
mov cx, 8
prn: mov ah, 2
mov dl, '0'
test bl, 10000000b
jz zero
mov dl, '1'
zero: int 21h
shl bl, 1
loop prn
mov dl, 'b'
int 21h
ret
DEFINE_SCAN_NUM
DEFINE_PRINT_NUM
DEFINE_PRINT_NUM_UNS
END
