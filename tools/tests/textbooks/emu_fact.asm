; emu8086's sample of its library
name "fact"
include "emu8086.inc"
org     100h
jmp start
result dw ?
start:
; get first number:
mov dx, offset msg1
mov ah, 9
int 21h
jmp n1
msg1 db 0Dh,0Ah, 'enter the number: $'
n1:
call    scan_num
; factorial of 0 = 1:
mov     ax, 1
cmp     cx, 0
je      print_result
; move the number to bx:
mov     bx, cx
mov     ax, 1
mov     bx, 1
calc_it:
mul     bx
cmp     dx, 0
jne     overflow
inc     bx
loop    calc_it
mov result, ax
print_result:
mov dx, offset msg2
mov ah, 9
int 21h
jmp n2
msg2 db 0Dh,0Ah, 'factorial: $'
n2:
mov ax, result
call    print_num_uns
jmp exit
overflow:
printn "  the result is too big!"
printn "  use values from 0 to 8."
jmp     start
exit:
mov ah, 0
int 16h
ret
DEFINE_SCAN_NUM
DEFINE_PRINT_NUM_UNS
end
