; Two strings are compared, over two segments of data and SEG
data segment
str1 db 'HELLO'
len1 dw $-str1
str2 db 'HELLO'
len2 dw $-str2
same db 'strings are equal$'
diff db 'strings are not equal$'
data ends
extra segment
buf db 20 dup('$')
extra ends
code segment
assume cs:code,ds:data,es:extra
start: mov ax,seg data
mov ds,ax
mov ax,extra
mov es,ax
mov cx,len1
cmp cx,len2
jne no
lea si,str1
lea di,buf
cld
rep movsb
push ds
pop es
assume es:data
lea si,str1
lea di,str2
mov cx,len1
repe cmpsb
jne no
mov dx,offset same
jmp go
no: lea dx,diff
go: mov ah,09
int 21h
assume ds:extra
mov ax,extra
mov ds,ax
lea dx,buf
mov ah,9
int 21h
mov ah,4ch
int 21h
code ends
end start
