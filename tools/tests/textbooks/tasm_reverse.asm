; counted string reversal, after the Turbo Assembler's user guide
        .MODEL SMALL
        .STACK 100h
        .DATA
MAXIMUM_STRING_LENGTH EQU 1000
StringToReverse DB MAXIMUM_STRING_LENGTH DUP(?)
ReverseString   DB MAXIMUM_STRING_LENGTH DUP(?)
        .CODE
        mov  ax,@data
        mov  ds,ax
        mov  ah,3fh
        mov  bx,0
        mov  cx,MAXIMUM_STRING_LENGTH
        mov  dx,OFFSET StringToReverse
        int  21h
        and  ax,ax
        jz   Done
        mov  cx,ax
        push cx
        mov  bx,OFFSET StringToReverse
        mov  si,OFFSET ReverseString
        add  si,cx
        dec  si
ReverseLoop:
        mov  al,[bx]
        mov  [si],al
        inc  bx
        dec  si
        loop ReverseLoop
        pop  cx
        mov  ah,40h
        mov  bx,1
        mov  dx,OFFSET ReverseString
        int  21h
Done:
        mov  ah,4ch
        int  21h
        END
