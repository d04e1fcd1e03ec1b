TITLE Stack parameters (AddTwo)
.model small
.stack 100h
.386
.data
Rectangle STRUC
  ulx WORD 1
  uly WORD 2
  lrx WORD ?
  lry WORD ?
Rectangle ENDS
rc Rectangle <,,30,40>
list Rectangle 3 DUP(<5,6>)
res WORD ?
.code
x_parm EQU [bp+6]
y_parm EQU [bp+4]
AddTwo PROC
    push bp
    mov  bp,sp
    mov  ax,x_parm
    add  ax,y_parm
    pop  bp
    ret  4
AddTwo ENDP
main PROC
    mov ax,@data
    mov ds,ax
    push rc.lrx
    push rc.uly
    call AddTwo
    mov res,ax
    mov bx,TYPE Rectangle
    add ax,bx
    mov si,OFFSET list
    add ax,(Rectangle PTR [si]).uly
    add ax,[si].ulx
    add ax,SIZEOF Rectangle
    add ax,list[8].lrx
    add ax,SIZEOF list
    mov bl,10
    div bl
    add ax,3030h
    mov dl,al
    mov bh,ah
    mov ah,2
    int 21h
    mov dl,bh
    mov ah,2
    int 21h
    mov ax,4C00h
    int 21h
main ENDP
END main
