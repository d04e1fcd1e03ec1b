; SEGMENT AT for BIOS data and the vectors, after Norton and Lafore
vectors segment at 0h
        org     9h*4
kb_int  label   dword
        org     1Ch*4
tick    dd      ?
vectors ends
bios    segment at 40h
        org     17h
kbflag  db      ?
        org     49h
crtmode db      ?
cols    dw      ?
bios    ends
scr     segment at 0B000h
cells   dw      2000 dup(?)
scr     ends
code_seg segment
        assume  cs:code_seg, ds:bios
        org     100h
main    proc    near
        mov     ax, bios
        mov     ds, ax
        mov     al, crtmode
        add     al, '0'
        mov     dl, al
        mov     ah, 2
        int     21h
        mov     ax, cols
        assume  ds:nothing, es:vectors
        mov     bl, 10
        div     bl
        add     ax, 3030h
        mov     dl, al
        push    ax
        mov     ah, 2
        int     21h
        pop     ax
        mov     dl, ah
        mov     ah, 2
        int     21h
        xor     ax, ax
        mov     es, ax
        mov     ax, word ptr es:kb_int+2
        cmp     ax, word ptr tick+2
        jne     differ
        mov     dl, '='
        mov     ah, 2
        int     21h
differ: mov     ax, scr
        mov     es, ax
        assume  es:scr
        mov     cells[160], 0748h
        mov     es:cells+162, 0749h
        int     20h
main    endp
code_seg ends
        end     main
