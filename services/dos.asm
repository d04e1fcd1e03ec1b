; The first calls of DOS, over the BIOS calls of bios.asm, where a 5150 has its BASIC. docs/services.md says what each call
; does, and which calls aren't there. Programs count clocks: what is new stands at the end, so that old calls stay as they were.
;
; The block at FFFE:0000 says what begins: the paragraph of the program segment prefix (PSP), IP, CS, SP, SS, the paragraph of
; the environment, and where a program begins by way of `beside`, its IP and CS. The registers of a call's caller stand in one frame, as in bios.asm:
; [BP] AX, +2 BX, +4 CX, +6 DX, +8 DI, +10 SI, +12 DS, +14 ES, +16 BP, +18 IP, +20 CS, +22 flags.

block   EQU 9FE0h               ; as an offset here
; In the services' RAM, of which bios.asm has the rest.
phase   EQU 0FC02h
count   EQU 0FC06h              ; how many bytes were written; the first 0FC00h of them stand from offset 0 on
counthi EQU 0FC08h
psp     EQU 0FC20h
first   EQU 0FC22h              ; the first memory block's header
scan    EQU 0FC24h              ; the second byte of a key without a character, or 0
place   EQU 0FC26h              ; how much of the line that was typed has been read
dta     EQU 0FC2Ah              ; the disk transfer area, or 0: it is the one of the PSP
files   EQU 0FC2Eh              ; the paragraph of the disk of files, or 0: there is none
line    EQU 0FC30h              ; its room, its length, and itself

SEGMENT CALLS_OF_DOS AT 0F600h
; Begins the program that the block tells.
begin_it: MOV DI,0
        MOV SI,divide
        CALL set
        MOV DI,80h
        MOV SI,end20
        CALL set
        MOV SI,dos
        CALL set
        MOV SI,end20
        CALL set
        MOV SI,end23
        CALL set
        MOV SI,fails
        CALL set
        MOV SI,disk
        CALL set
        MOV SI,disk
        CALL set
        MOV SI,stays
        CALL set
        MOV SI,idle
        CALL set
        MOV SI,fast
        CALL set
        CALL own_ram
        MOV BX,CS:[block]
        MOV [psp],BX
        MOV WORD [phase],1
        MOV AX,CS:[block+10]
        DEC AX
        MOV [first],AX
        MOV ES,AX
        MOV BYTE ES:[0],'M'
        MOV ES:[1],BX
        MOV DX,BX
        SUB DX,2
        SUB DX,AX
        MOV ES:[3],DX
        MOV AX,BX
        DEC AX
        MOV ES,AX
        MOV BYTE ES:[0],'Z'
        MOV ES:[1],BX
        MOV DX,DS
        SUB DX,BX
        MOV ES:[3],DX
        MOV ES,BX
        MOV ES:[2],DS           ; the end of memory
        MOV SS,CS:[block+8]
        MOV SP,CS:[block+6]
        MOV DS,BX
        MOV DX,BX
        MOV SI,CS:[block+2]
        MOV DI,SP
        MOV BP,91Ch
        MOV CX,0FFh
        XOR AX,AX
        XOR BX,BX
        STI
        JMP FAR CS:[block+2]

; Lets the vector at DI lead to SI, if the program's image hasn't set it, and steps to the next.
set:    XOR AX,AX
        MOV ES,AX
        CMP WORD ES:[DI+2],0FE00h
        JNE own
        MOV ES:[DI],SI
        MOV ES:[DI+2],CS
own:    ADD DI,4
        RET

own_ram: PUSH BX
        MOV BX,40h
        MOV DS,BX
        MOV DS,[0EEh]
        POP BX
        RET

; -- The ends: INT 20h, 22h, 23h, 27h, and a division without a quotient

end20:  MOV AX,20h
end:    JMP FAR 0FE00h:6
end23:  MOV AX,23h
        JMP SHORT end
stays:  MOV AX,27h
        JMP SHORT end
divide: PUSH CS
        POP DS
        MOV SI,overflow
        CLD
told:   LODSB
        OR AL,AL
        JZ is_told
        CALL show
        JMP SHORT told
is_told: MOV AX,0FF00h
        JMP SHORT end
overflow: DB 13,10,'Divide overflow',13,10,0

; INT 24h: a call that failed, fails. INT 25h and 26h: there is no disk; they leave the flags on the stack. INT 28h: nothing.
fails:  MOV AL,3
idle:   IRET
disk:   MOV AX,8002h
        STC
        RETF
; INT 29h: shows AL.
fast:   PUSH AX
        PUSH BX
        CALL raw
        POP BX
        POP AX
        IRET

; -- INT 21h

dos:    STI
        CLD
        PUSH BP
        PUSH ES
        PUSH DS
        PUSH SI
        PUSH DI
        PUSH DX
        PUSH CX
        PUSH BX
        PUSH AX
        MOV BP,SP
serve:  MOV AX,CS
        MOV ES,AX
        MOV DI,numbers
        MOV CX,calls-numbers
        MOV AL,[BP+1]
        REPNE SCASB
        JNE unserved
        SUB DI,numbers+1
        ADD DI,DI
        MOV AX,[BP]
        MOV BX,[BP+2]
        MOV CX,[BP+4]
        MOV DX,[BP+6]
        MOV DS,[BP+12]
        MOV ES,[BP+14]
        JMP WORD CS:[DI+calls]
numbers: DB 0,1,2,6,7,8,9,0Ah,0Bh,0Ch,19h,25h,2Ah,2Ch,30h,35h,3Fh,40h,44h,48h,49h,4Ah,4Ch
calls:  DW end20,read_shown,write_char,direct,read_plain,read_char,write_text,read_line,is_typed,flush,drive,set_vector
        DW date,time,version,get_vector,read,write,device,allocate,free,resize,exit

; A function of the second table, or none: carry and AX 1.
unserved: MOV DI,other_numbers
        PUSH CS
        JMP others
no_such: MOV AX,1
wrong:  OR BYTE [BP+22],1
        JMP SHORT answer
right:  AND BYTE [BP+22],0FEh
answer: MOV [BP],AX
done:   POP AX
        POP BX
        POP CX
        POP DX
        POP DI
        POP SI
        POP DS
        POP ES
        POP BP
        IRET

; 4Ch, with the exit code AL.
exit:   MOV AH,AL
        MOV AL,4Ch
        JMP end

; -- Characters

; 01h reads a character and shows it, 07h and 08h don't show it. By 01h and 08h Ctrl-C ends the program.
read_shown: CALL get
        CALL check
        CALL show
        JMP SHORT answer_al
read_char: CALL get
        CALL check
        JMP SHORT answer_al
read_plain: CALL get
answer_al: MOV [BP],AL
        JMP done

; 02h shows DL, 09h the text at DS:DX up to a dollar sign.
write_char: MOV AL,DL
        CALL put
        CMP AL,9                ; DOS answers with what it showed last
        JNE answer_al
        MOV AL,' '
        JMP SHORT answer_al
write_text: MOV SI,DX
text:   LODSB
        CMP AL,'$'
        JE answer_al
        CALL put
        JMP SHORT text

; 06h shows DL as it is; by 0FFh it reads: ZF where nothing is typed.
direct: CMP DL,0FFh
        JE direct_read
        MOV AL,DL
        CALL record
        CALL raw
        JMP SHORT answer_al
direct_read: OR BYTE [BP+22],40h
        CALL typed
        MOV AL,0
        JZ answer_al
        AND BYTE [BP+22],0BFh
        CALL get
        JMP SHORT answer_al

; 0Bh
is_typed: CALL typed
        MOV AL,0
        JZ answer_al
        MOV AL,0FFh
        JMP SHORT answer_al

; 0Ch forgets what is typed, and reads by the function AL.
flush:  CALL typed
        JZ flushed
        CALL get
        JMP SHORT flush
flushed: MOV AL,[BP]
        CMP AL,1
        JE by
        CMP AL,6
        JB only
        CMP AL,8
        JBE by
        CMP AL,0Ah
        JNE only
by:     MOV [BP+1],AL
        JMP serve
only:   XOR AL,AL
        JMP SHORT answer_al

; The next character in AL: a key without one gives 0, and then its scan code. Break is Ctrl-C.
get:    PUSH DS
        CALL own_ram
        MOV AL,[scan]
        MOV BYTE [scan],0
        OR AL,AL
        JNZ got
        XOR AH,AH
        INT 16h
        OR AL,AL
        JNZ got
        MOV [scan],AH
        OR AH,AH
        JNZ got
        MOV AL,3
got:    POP DS
        RET

; ZF where nothing is typed.
typed:  PUSH DS
        CALL own_ram
        CMP BYTE [scan],0
        POP DS
        JNZ is_there
        MOV AH,1
        INT 16h
is_there: RET

; Ctrl-C goes to INT 23h, which ends the program; a handler of its own that returns begins the call again.
check:  CMP AL,3
        JE ctrl_c
        RET
ctrl_c: MOV AL,'^'
        CALL show
        MOV AL,'C'
        CALL show
        CALL new_line
        INT 23h
        MOV SP,BP
        JMP serve

; Shows AL, tabs by blanks up to a multiple of 8; put notes it too, as what the program wrote.
put:    CALL record
show:   PUSH AX
        CMP AL,9
        JNE plain
tab:    MOV AL,' '
        CALL raw
        PUSH DS
        MOV AX,40h
        MOV DS,AX
        TEST BYTE [50h],7
        POP DS
        JNZ tab
        POP AX
        RET
plain:  CALL raw
        POP AX
        RET
raw:    MOV AH,0Eh
        MOV BX,7
        INT 10h
        RET
new_line: MOV AL,13
        CALL show
        MOV AL,10
        JMP SHORT show

record: PUSH DS
        PUSH BX
        CALL own_ram
        MOV BX,[count]
        CMP WORD [counthi],0
        JNE no_room
        CMP BX,0FC00h
        JAE no_room
        MOV [BX],AL
no_room: ADD WORD [count],1
        ADC WORD [counthi],0
        POP BX
        POP DS
        RET

; -- Lines

; 0Ah: a line at DS:DX, whose first byte says how much room there is with the return; the second gets its length.
read_line: MOV SI,DX
        CALL edit
        JMP done

; Reads a line to DS:SI. Backspace takes back, Esc all.
edit:   MOV CL,[SI]
        OR CL,CL
        JZ edited
        DEC CX
begin:  XOR CH,CH
        LEA DI,[SI+2]
key:    CALL get
        CALL check
        OR AL,AL
        JZ without
        CMP AL,13
        JE entered
        CMP AL,8
        JE back
        CMP AL,27
        JE anew
        CMP AL,10
        JE key
        CMP CH,CL
        JE full
        MOV [DI],AL
        INC DI
        INC CH
        CALL echo
        JMP SHORT key
without: CALL get
        JMP SHORT key
full:   MOV AL,7
        CALL show
        JMP SHORT key
anew:   MOV AL,92
        CALL show
        CALL new_line
        JMP SHORT begin
back:   OR CH,CH
        JZ key
        DEC CH
        DEC DI
        CALL erase
        CMP BYTE [DI],' '
        JAE key
        CMP BYTE [DI],9
        JE key
        CALL erase
        JMP SHORT key
entered: MOV [DI],AL
        MOV [SI+1],CH
        JMP show
edited: RET
erase:  MOV AL,8
        CALL show
        MOV AL,' '
        CALL show
        MOV AL,8
        JMP show

; Shows AL as it is typed: Ctrl with A as ^A.
echo:   CMP AL,' '
        JAE shows
        CMP AL,9
        JE shows
        PUSH AX
        MOV AL,'^'
        CALL show
        POP AX
        ADD AL,'@'
shows:  JMP show

; 3Fh: up to CX bytes of what is typed, a line at a time, each with a return and a line feed behind it.
read:   CMP BX,2
        JBE handle
        JMP no_handle
handle: XOR AX,AX
        JCXZ was_read
        CALL own_ram
        MOV SI,[place]
        OR SI,SI
        JNZ rest
        MOV SI,line
        MOV BYTE [SI],80h
        CALL edit
        CALL new_line_feed
        MOV BL,[line+1]
        XOR BH,BH
        MOV WORD [BX+line+2],0A0Dh
        ADD BYTE [line+1],2
        CMP BYTE [line+2],1Ah   ; Ctrl-Z at the beginning is the end
        MOV AX,0
        JE was_read
        MOV SI,0
rest:   MOV CX,[BP+4]
        MOV AL,[line+1]
        XOR AH,AH
        SUB AX,SI
        CMP CX,AX
        JBE enough
        MOV CX,AX
enough: MOV AX,CX
        MOV ES,[BP+12]
        MOV DI,[BP+6]
        LEA BX,[SI+line+2]
        ADD SI,CX
        XCHG BX,SI
        REP MOVSB
        CMP BL,[line+1]
        JNE keep
        XOR BX,BX
keep:   MOV [place],BX
was_read: JMP right
new_line_feed: MOV AL,10
        JMP show

; 40h: CX bytes from DS:DX on.
write:  CMP BX,2
        JA no_handle
        MOV SI,DX
        JCXZ was_written
bytes:  LODSB
        CALL put
        LOOP bytes
was_written: MOV AX,[BP+4]
        JMP right
no_handle: MOV AX,6
        JMP file_call

; 44h, AL 0: what a handle leads to: the console.
device: OR AL,AL
        JZ asked
        JMP unserved
asked:  CMP BX,2
        JA no_handle
        MOV AX,80D3h
        MOV [BP+6],AX
        JMP right

; -- The system

; 19h: drive A. 25h and 35h: the vector AL is set to DS:DX, or told in ES:BX.
drive:  XOR AL,AL
        JMP answer_al
set_vector: CALL vector
        CLI
        MOV ES:[BX],DX
        MOV ES:[BX+2],DS
        JMP done
get_vector: CALL vector
        LES BX,ES:[BX]
        MOV [BP+2],BX
        MOV [BP+14],ES
        JMP done
vector: XOR AH,AH
        ADD AX,AX
        ADD AX,AX
        MOV BX,AX
        XOR AX,AX
        MOV ES,AX
        RET

; 2Ah: it is always Thursday, 1 January 1981.
date:   MOV WORD [BP+4],1981
        MOV WORD [BP+6],101h
        MOV AL,4
        JMP answer_al

; 2Ch: hours, minutes, seconds and hundredths, from the ticks since midnight: 22459 hundredths in 4089 of them.
time:   MOV AX,40h
        MOV DS,AX
        CLI
        MOV BX,[6Ch]
        MOV AX,[6Eh]
        STI
        MOV CX,22459
        MUL CX
        PUSH DX
        XCHG AX,BX              ; BX from bit 16 on
        MUL CX
        ADD DX,BX
        MOV BX,AX
        MOV AX,DX
        POP DX
        ADC DX,0                ; DX:AX:BX
        MOV CX,4089
        DIV CX
        XCHG AX,BX              ; BX:AX hundredths
        DIV CX
        MOV CX,100
        XCHG AX,BX
        XOR DX,DX
        DIV CX
        XCHG AX,BX              ; BX:AX seconds
        DIV CX
        MOV [BP+6],DL
        MOV DX,BX
        MOV CX,60
        DIV CX
        MOV [BP+7],DL
        XOR DX,DX
        DIV CX
        MOV [BP+4],DL
        MOV [BP+5],AL
        JMP done

; 30h: 3.30.
version: MOV AX,1E03h
        MOV [BP],AX
        XOR AX,AX
        MOV [BP+2],AX
        MOV [BP+4],AX
        JMP done

; -- Memory: blocks with a header of a paragraph before each, 'M' or for the last 'Z', its owner or 0, its paragraphs

; 48h: BX paragraphs in the first block that has them.
allocate: CALL own_ram
        MOV AX,[first]
        XOR DX,DX               ; the largest
walk:   MOV ES,AX
        CMP WORD ES:[1],0
        JNE taken
        CALL join
        CMP ES:[3],BX
        JAE take
        CMP ES:[3],DX
        JBE taken
        MOV DX,ES:[3]
taken:  CMP BYTE ES:[0],'Z'
        JE none
        ADD AX,ES:[3]
        INC AX
        JMP SHORT walk
none:   MOV [BP+2],DX
        MOV AX,8
        JMP wrong
take:   CALL split
        MOV BX,[psp]
        MOV ES:[1],BX
        INC AX
        JMP right

; 49h: the block ES is free.
free:   CALL find
        JNE no_block
        MOV WORD ES:[1],0
        MOV AX,[BP]
        JMP right
no_block: MOV AX,9
        JMP wrong

; 4Ah: the block ES has BX paragraphs from now on, or else BX tells how many it may have.
resize: CALL find
        JNE no_block
        CALL join
        CMP ES:[3],BX
        JB too_few
        CALL split
        MOV AX,[BP]
        JMP right
too_few: MOV DX,ES:[3]
        JMP SHORT none

; ES, the header of the block ES; ZF where there is such a block.
find:   CALL own_ram
        MOV AX,ES
        DEC AX
        MOV DX,[first]
each:   MOV ES,DX
        CMP AX,DX
        JE found
        CMP BYTE ES:[0],'Z'
        JE last
        ADD DX,ES:[3]
        INC DX
        JMP SHORT each
last:   OR AL,1                 ; no ZF
found:  RET

; Joins the free blocks behind the block with the header ES to it.
join:   PUSH DS
        PUSH AX
joins:  CMP BYTE ES:[0],'Z'
        JE joined
        MOV AX,ES
        ADD AX,ES:[3]
        INC AX
        MOV DS,AX
        CMP WORD [1],0
        JNE joined
        MOV AL,[0]
        MOV ES:[0],AL
        MOV AX,[3]
        INC AX
        ADD ES:[3],AX
        JMP SHORT joins
joined: POP AX
        POP DS
        RET

; Leaves BX paragraphs to the block with the header ES; the rest is a free block.
split:  CMP ES:[3],BX
        JE as_is
        PUSH DS
        PUSH AX
        MOV AX,ES
        ADD AX,BX
        INC AX
        MOV DS,AX
        MOV AL,ES:[0]
        MOV [0],AL
        MOV BYTE ES:[0],'M'
        MOV WORD [1],0
        MOV AX,ES:[3]
        SUB AX,BX
        DEC AX
        MOV [3],AX
        MOV ES:[3],BX
        POP AX
        POP DS
as_is:  RET

; -- Files

; The disk of files is the memory below the services' RAM. Its first two KB have a byte for each cluster of 1 KB, which names
; the file's next one (0: it is free, 0FFh: the file ends); the handles; a name; and the directory, whose entries are those of DOS.
beneath EQU 3000h               ; the disk's paragraphs
opened  EQU 100h                ; the handles from 5 on, of 16 bytes: the entry or 0, the mode, whether it has written, the position
sought  EQU 1F0h                ; a name without its dot, in which ? is any character
entries EQU 200h
after   EQU 800h                ; where the last entry ends

; Begins the program beside the disk: memory ends before it.
beside: CALL own_ram
        MOV DX,[psp]
        MOV AX,DS
        SUB AX,beneath
        MOV [files],AX
        MOV ES,DX
        MOV ES:[2],AX
        SUB AX,DX
        DEC DX
        MOV DS,DX
        MOV [3],AX
        MOV AX,40h
        MOV DS,AX
        SUB WORD [13h],0C0h
        XOR AX,AX
        MOV DX,ES
        MOV DS,DX
        MOV SI,CS:[block+12]
        JMP FAR CS:[block+12]

others: POP ES
        MOV CX,other_calls-other_numbers
        MOV AL,[BP+1]
        REPNE SCASB
        JNE not_there
        SUB DI,other_numbers+1
        CALL own_ram
        CMP DI,9                ; so many want the disk
        JAE has_disk
        CMP WORD [files],0
        JE not_there
has_disk: ADD DI,DI
        MOV ES,[files]
        MOV DS,[BP+12]
        MOV AX,[BP]
        MOV BX,[BP+2]
        MOV CX,[BP+4]
        MOV DX,[BP+6]
        MOV SI,DX
        JMP WORD CS:[DI+other_calls]
other_numbers: DB 3Ch,3Dh,3Eh,41h,42h,43h,4Eh,4Fh,56h,1Ah,2Fh,31h
other_calls: DW create,open,close,delete,seek,attribute,find_first,find_next,rename,set_area,get_area,leaves

; What isn't there is noted. Calls by file control blocks answer that they fail, by AL.
not_there: MOV AL,21h
        CALL FAR 0FE00h:3
        MOV AL,[BP+1]
        CMP AL,0Fh
        JB is_none
        CMP AL,17h
        JBE by_block
        CMP AL,21h
        JB is_none
        CMP AL,24h
        JBE by_block
        CMP AL,27h
        JB is_none
        CMP AL,29h
        JA is_none
by_block: MOV AL,0FFh
        JMP answer_al
is_none: JMP no_such

; 1Ah and 2Fh: the disk transfer area is at DS:DX, or told in ES:BX. 31h ends the program.
set_area: CALL own_ram
        MOV [dta],DX
        MOV AX,[BP+12]
        MOV [dta+2],AX
        JMP done
get_area: CALL area
        MOV [BP+2],BX
        MOV [BP+14],ES
        JMP done
area:   CALL own_ram
        LES BX,[dta]
        MOV AX,ES
        OR AX,BX
        JNZ has_area
        MOV ES,[psp]
        MOV BX,80h
has_area: RET
leaves: MOV AH,AL
        MOV AL,31h
        JMP end

; 3Ch: the file DS:DX with the attribute CX is there, and empty.
create: CALL plain_name
        JC refused
        TEST BYTE [BP+4],18h
        JNZ denied
        CALL free_handle
        JC refused
        CALL look
        JC makes
        TEST BYTE ES:[BX+11],1
        JNZ denied
        CALL empty
        JMP SHORT made
makes:  MOV BX,entries
unused: CMP BYTE ES:[BX],0
        JE enters
        ADD BX,32
        CMP BX,after
        JB unused
denied: MOV AX,5
refused: JMP wrong
enters: CALL named
        MOV WORD ES:[BX+26],0FFh
        MOV WORD ES:[BX+22],0
        MOV WORD ES:[BX+24],221h ; 1 January 1981
made:   MOV AL,[BP+4]
        AND AL,27h
        OR AL,20h
        MOV ES:[BX+11],AL
        MOV AL,2
; The handle DI is of the entry BX from now on, with the mode AL.
opens:  MOV ES:[DI],BX
        XOR AH,AH
        MOV ES:[DI+2],AX
        XOR AX,AX
        MOV ES:[DI+4],AX
        MOV ES:[DI+6],AX
        MOV AX,DI
        SUB AX,opened-50h
        MOV CL,4
        SHR AX,CL
        JMP right

; 3Dh: opens the file DS:DX to read (AL 0), write (1) or both (2).
open:   AND AL,7
        CMP AL,2
        JA no_access
        CALL plain_name
        JC refused
        CALL free_handle
        JC refused
        CALL look
        JC no_file
        MOV AL,[BP]
        AND AL,7
        JZ opens
        TEST BYTE ES:[BX+11],1
        JNZ denied
        JMP SHORT opens
no_file: JMP wrong                ; tools stop here
no_access: MOV AX,12
        JMP wrong

; 3Eh
close:  CMP BX,2
        JBE closed
        CALL handle_of
        JC not_closed
        MOV WORD ES:[DI],0
closed: MOV AX,[BP]
        JMP right
kept:   MOV AX,5
not_closed: JMP wrong

; 41h deletes the file DS:DX, if no handle is of it.
delete: CALL existing
        JC not_closed
        TEST BYTE ES:[BX+11],1
        JNZ kept
        MOV DI,opened
in_use: CMP ES:[DI],BX
        JE kept
        ADD DI,16
        CMP DI,sought
        JB in_use
        CALL empty
        MOV BYTE ES:[BX],0
        JMP SHORT closed

; 42h: the position is CX:DX from the beginning (AL 0), from where it is (1), or from the end (2).
seek:   CALL handle_of
        JC not_done
        MOV CX,[BP+4]
        CMP BYTE [BP],1
        JB sought_at
        JE from_here
        CMP BYTE [BP],2
        JA no_function
        ADD DX,ES:[BX+28]
        ADC CX,ES:[BX+30]
        JMP SHORT sought_at
from_here: ADD DX,ES:[DI+4]
        ADC CX,ES:[DI+6]
sought_at: MOV ES:[DI+4],DX
        MOV ES:[DI+6],CX
        MOV [BP+6],CX
        MOV AX,DX
        JMP right
no_function: JMP no_such

; 43h: the attribute of the file DS:DX is told in CX (AL 0) or set (1).
attribute: CMP AL,1
        JA no_function
        CALL existing
        JC not_done
        CMP BYTE [BP],1
        JE sets
        MOV AL,ES:[BX+11]
        XOR AH,AH
        MOV [BP+4],AX
        JMP closed
sets:   MOV AX,[BP+4]
        TEST AL,18h
        JNZ not_so
        AND AL,27h
        MOV ES:[BX+11],AL
        JMP closed
not_so: MOV AX,5
not_done: JMP wrong

; 56h: the file DS:DX is ES:DI from now on.
rename: CALL existing
        JC not_done
        MOV DX,BX
        MOV DS,[BP+14]
        MOV SI,[BP+8]
        CALL plain_name
        JC not_done
        CALL look
        JNC not_so
        MOV BX,DX
        CALL named
        JMP closed

; 4Eh: the first file that DS:DX means; 4Fh: the next one. Both write it to the disk transfer area, whose first bytes are theirs.
find_first: CALL parse
        JC not_done
        MOV BX,entries
        MOV DX,[BP+4]
        CMP DX,8                ; a label alone
        JNE finds
no_more: MOV AX,18
        JMP wrong
find_next: PUSH ES
        CALL area
        PUSH ES
        POP DS
        POP ES
        LEA SI,[BX+1]
        MOV DI,sought
        MOV CX,11
        REP MOVSB
        LODSB
        MOV DL,AL
        LODSW
        MOV BX,AX
        TEST BL,1Fh
        JNZ no_more
        CMP BX,entries
        JB no_more
finds:  CALL match
        JC no_more
        MOV AL,DL
        NOT AL
        AND AL,6                ; hidden, system
        TEST ES:[BX+11],AL
        JZ finds_it
        ADD BX,32
        JMP SHORT finds
finds_it: MOV SI,BX
        PUSH ES
        CALL area
        POP DS
        MOV DI,BX
        XOR AL,AL
        STOSB
        PUSH SI
        MOV SI,sought
        MOV CX,11
        REP MOVSB
        POP SI
        MOV AL,DL
        STOSB
        LEA AX,[SI+32]
        STOSW
        ADD DI,6
        MOV AL,[SI+11]
        STOSB
        PUSH SI
        ADD SI,22
        MOVSW
        MOVSW
        INC SI
        INC SI
        MOVSW
        MOVSW
        POP SI
        MOV CX,8
        CALL signs
        CMP BYTE [SI],' '
        JE no_ending
        MOV AL,'.'
        STOSB
        MOV CX,3
        CALL signs
no_ending: XOR AL,AL
        STOSB
        JMP closed
signs:  LODSB
        CMP AL,' '
        JE no_sign
        STOSB
no_sign: LOOP signs
        RET

; 3Fh, 40h and 44h of a handle that isn't the console. AX is 6, which stays if it is none of a file.
file_call: CALL own_ram
        CMP WORD [files],0
        JE not_open
        MOV ES,[files]
        MOV BX,[BP+2]
        CALL handle_of
        JC not_open
        MOV AL,[BP+1]
        MOV CX,[BP+4]
        CMP AL,40h
        JB file_read
        JE file_write
        MOV AX,40h
        CMP BYTE ES:[DI+3],0
        JE tells
        XOR AX,AX
tells:  MOV [BP+6],AX
        JMP right
not_open: JMP wrong

file_read: CMP BYTE ES:[DI+2],1
        JE no_way
        MOV WORD [BP],0
        MOV AX,ES:[BX+28]
        MOV DX,ES:[BX+30]
        SUB AX,ES:[DI+4]
        SBB DX,ES:[DI+6]
        JC all_done
        JNZ reads
        CMP CX,AX
        JBE reads
        MOV CX,AX
reads:  JCXZ all_done
        CALL piece
        PUSH CX
        PUSH DI
        PUSH ES
        MOV CX,AX
        MOV ES,[BP+12]
        MOV DI,[BP+6]
        ADD DI,[BP]
        REP MOVSB
        POP ES
        POP DI
        POP CX
        CALL forward
        JMP SHORT reads
no_way: MOV AX,5
        JMP wrong

file_write: CMP BYTE ES:[DI+2],0
        JE no_way
        MOV BYTE ES:[DI+3],1
        MOV WORD [BP],0
        JCXZ ends_here
writes: CALL piece
        JC is_full
        PUSH CX
        PUSH DI
        PUSH ES
        MOV CX,AX
        PUSH DS
        POP ES
        MOV DI,SI
        MOV DS,[BP+12]
        MOV SI,[BP+6]
        ADD SI,[BP]
        REP MOVSB
        POP ES
        POP DI
        POP CX
        CALL forward
        CALL longer
        OR CX,CX
        JNZ writes
        JMP SHORT all_done
is_full: CALL cut               ; what the file grew in vain
all_done: MOV AX,[BP]
        JMP right

; No byte to write: the file ends at the position.
ends_here: MOV AX,ES:[DI+4]
        OR AX,ES:[DI+6]
        JZ ends_so
        SUB WORD ES:[DI+4],1
        SBB WORD ES:[DI+6],0
        CALL piece
        PUSHF
        ADD WORD ES:[DI+4],1
        ADC WORD ES:[DI+6],0
        POPF
        JC is_full
ends_so: MOV AX,ES:[DI+4]
        MOV DX,ES:[DI+6]
        CALL so_long
        CALL cut
        JMP SHORT all_done

; Of CX bytes AX are done.
forward: SUB CX,AX
        ADD [BP],AX
        ADD ES:[DI+4],AX
        ADC WORD ES:[DI+6],0
        RET
; The file ends at the position, or behind it.
longer: MOV AX,ES:[DI+4]
        MOV DX,ES:[DI+6]
        CMP DX,ES:[BX+30]
        JB long_enough
        JA so_long
        CMP AX,ES:[BX+28]
        JB long_enough
so_long: MOV ES:[BX+28],AX
        MOV ES:[BX+30],DX
long_enough: RET

; DS:SI, where the position of the handle DI, of the entry BX, is on the disk, and AX, how many of CX bytes stand there. The file
; gets clusters up to there; CF if none is free.
piece:  PUSH CX
        PUSH BX
        MOV AX,ES:[DI+4]
        MOV DX,ES:[DI+6]
        CMP DX,3
        JAE no_cluster
        MOV SI,AX
        AND SI,3FFh
        MOV AL,AH
        MOV AH,DL
        SHR AX,1
        SHR AX,1
        MOV CX,AX               ; so many clusters come before it
        ADD BX,26
passes: MOV AL,ES:[BX]
        CMP AL,0FFh
        JE grows
passed: MOV BL,AL
        XOR BH,BH
        DEC CX
        JNS passes
        MOV CL,6
        SHL BX,CL
        MOV AX,ES
        ADD AX,BX
        MOV DS,AX
        POP BX
        POP CX
        MOV AX,400h
        SUB AX,SI
        CMP AX,CX
        JB has_piece
        MOV AX,CX
has_piece: CLC
        RET
grows:  PUSH CX
        PUSH DI
        MOV DI,2
        MOV CX,190
        XOR AL,AL
        REPNE SCASB
        LEA AX,[DI-1]
        POP DI
        POP CX
        JNE no_cluster
        MOV ES:[BX],AL
        MOV BL,AL
        XOR BH,BH
        MOV BYTE ES:[BX],0FFh
        JMP SHORT passed
no_cluster: POP BX
        POP CX
        STC
        RET

; The entry BX has no bytes; cut: no clusters behind its end.
empty:  XOR AX,AX
        MOV ES:[BX+28],AX
        MOV ES:[BX+30],AX
cut:    PUSH BX
        MOV AX,ES:[BX+28]
        MOV DX,ES:[BX+30]
        ADD AX,3FFh
        ADC DX,0
        MOV AL,AH
        MOV AH,DL
        SHR AX,1
        SHR AX,1
        MOV CX,AX
        ADD BX,26
        JCXZ cuts
stays_so: MOV BL,ES:[BX]
        XOR BH,BH
        LOOP stays_so
cuts:   MOV AL,0FFh
        XCHG AL,ES:[BX]
frees:  CMP AL,0FFh
        JE is_cut
        MOV BL,AL
        XOR BH,BH
        XOR AL,AL
        XCHG AL,ES:[BX]
        JMP SHORT frees
is_cut: POP BX
        RET

; DI, a handle that is free, else CF and AX 4.
free_handle: MOV DI,opened
in_turn: CMP WORD ES:[DI],0
        JE is_free
        ADD DI,16
        CMP DI,sought
        JB in_turn
        MOV AX,4
        STC
is_free: RET

; DI and BX, the handle BX and its entry, else CF and AX 6.
handle_of: SUB BX,5
        CMP BX,15
        JAE is_closed
        MOV CL,4
        SHL BX,CL
        LEA DI,[BX+opened]
        MOV BX,ES:[DI]
        OR BX,BX
        JNZ is_opened
is_closed: MOV AX,6
        STC
is_opened: RET

; BX, the entry of the file whose path is at DS:SI, else CF and AX 2 or 3.
existing: CALL plain_name
        JC looked
look:   MOV BX,entries
        CALL match
        JNC looked
        MOV AX,2
looked: RET

; BX, the next entry from BX on whose name is the one that is sought; else CF.
match:  CMP BX,after
        JAE no_match
        CMP BYTE ES:[BX],0
        JE no_entry
        PUSH DI
        MOV SI,BX
        MOV DI,sought
        MOV CX,11
compares: MOV AL,ES:[DI]
        CMP AL,'?'
        JE alike
        CMP AL,ES:[SI]
        JNE differs
alike:  INC SI
        INC DI
        LOOP compares
        POP DI
        CLC
        RET
differs: POP DI
no_entry: ADD BX,32
        JMP SHORT match
no_match: STC
        RET

; The entry BX gets the name that is sought.
named:  PUSH DI
        PUSH DS
        PUSH ES
        POP DS
        MOV SI,sought
        MOV DI,BX
        MOV CX,11
        REP MOVSB
        POP DS
        POP DI
        RET

; The path at DS:SI becomes the name that is sought: CF and AX 3 if it leads through a folder, 2 if it is no name, and in
; plain_name, if it has * or ?.
plain_name: CALL parse
        JC is_parsed
        MOV DI,sought
        MOV CX,11
        MOV AL,'?'
        REPNE SCASB
        CLC
        JNE is_parsed
        MOV AX,2
        STC
is_parsed: RET
parse:  CMP BYTE [SI+1],':'
        JNE no_drive
        INC SI
        INC SI
no_drive: CMP BYTE [SI],92
        JE root
        CMP BYTE [SI],'/'
        JNE no_root
root:   INC SI
no_root: MOV DI,sought
        MOV CX,11
        MOV AX,' '
        REP STOSB
        MOV DI,sought
        MOV CX,8
sign:   LODSB
        OR AL,AL
        JZ path_ends
        CMP AL,'.'
        JE dot
        CMP AL,'*'
        JE star
        CMP AL,92
        JE folder
        CMP AL,'/'
        JE folder
        CALL fitting
        JC no_name
        JCXZ sign
        STOSB
        DEC CX
        JMP SHORT sign
dot:    OR AH,AH                ; one alone
        JNZ no_name
        INC AH
        MOV DI,sought+8
        MOV CX,3
        JMP SHORT sign
star:   MOV AL,'?'
        REP STOSB
        JMP SHORT sign
folder: MOV AX,3
        STC
        RET
path_ends: CMP BYTE ES:[sought],' '
        CLC
        JNE is_parsed
no_name: MOV AX,2
        STC
        RET

; AL as a capital letter; CF if no name has it.
fitting: CMP AL,'a'
        JB is_capital
        CMP AL,'z'
        JA is_capital
        SUB AL,20h
is_capital: CMP AL,21h
        JB no_letter
        CMP AL,7Fh
        CMC
        JC no_letter
        PUSH CX
        PUSH DI
        PUSH ES
        PUSH CS
        POP ES
        MOV DI,odd
        MOV CX,11
        REPNE SCASB
        POP ES
        POP DI
        POP CX
        CLC
        JNE no_letter
        STC
no_letter: RET
odd:    DB 34,'+,:;<=>[]|'
ENDS
