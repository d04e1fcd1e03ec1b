        INCLUDE print.inc
        .MODEL  SMALL
        .STACK  100h
        .DATA
msg     DB      'Hello!',0Dh,0Ah,'$'
        .CODE
main    PROC
        MOV     AX,@data        ; msg's segment
        MOV     DS,AX
        print   msg
        .EXIT
main    ENDP
        END     main
