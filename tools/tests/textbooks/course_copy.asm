; A file is copied by handles
.model small
.stack 200h
.data
inname  db 'IN.TXT',0
outname db 'OUT.TXT',0
handle1 dw ?
handle2 dw ?
buffer  db 64 dup(?)
errmsg  db 'Cannot open$'
okmsg   db 'copied$'
.code
start:
    mov ax,@data
    mov ds,ax
    mov ax,3D00h
    mov dx,offset inname
    int 21h
    jc  error
    mov handle1,ax
    mov ah,3Ch
    xor cx,cx
    mov dx,offset outname
    int 21h
    jc  error
    mov handle2,ax
again:
    mov ah,3Fh
    mov bx,handle1
    mov cx,size buffer
    mov dx,offset buffer
    int 21h
    or ax,ax
    jz done
    mov cx,ax
    mov ah,40h
    mov bx,handle2
    int 21h
    jmp again
done:
    mov ah,3Eh
    mov bx,handle1
    int 21h
    mov ah,3Eh
    mov bx,handle2
    int 21h
    mov dx,offset okmsg
    jmp short tell
error:
    mov dx,offset errmsg
tell:
    mov ah,9
    int 21h
    mov ax,4C00h
    int 21h
end start
