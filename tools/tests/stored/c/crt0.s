! Where a C program in ROM begins: its data is copied behind the vectors, all segments but the code's are 0, the screen is on.
        .text
        entry   _start
        extern  _main, __etext
        .data
        extern  __edata
        .text
_start: cld
        mov     ax,cs
        mov     ds,ax
        xor     ax,ax
        mov     es,ax
        mov     ss,ax
        mov     sp,#$4000
        mov     si,#__etext+15
        and     si,#$FFF0
        mov     di,#$500
        mov     cx,#__edata
        sub     cx,di
        rep
        movsb
        mov     ds,ax
        mov     dx,#$3B8
        mov     al,#$29
        out     dx,al
        call    _main
_stop:  hlt
        jmp     _stop

! show(column, sign): a character in the screen's first line
        export  _show
_show:  push    bp
        mov     bp,sp
        push    di
        mov     ax,#$B000
        mov     es,ax
        mov     di,4[bp]
        shl     di,#1
        mov     al,6[bp]
        mov     ah,#7
        stosw
        pop     di
        pop     bp
        ret
