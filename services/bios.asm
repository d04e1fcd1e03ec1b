; The BIOS calls that text programs use, in the place of a 5150's BIOS. docs/services.md says what each call does, and which
; calls aren't there. At its end the program begins: by its block at FFFE:0000, through dos.asm, or as a sector at 0000:7C00.
;
; Every call saves the registers of its caller in one frame, so that it reads and answers them there:
; [BP] AX, +2 BX, +4 CX, +6 DX, +8 DI, +10 SI, +12 DS, +14 ES, +16 BP, +18 IP, +20 CS, +22 flags.

; The services' RAM is the upper 64 KB, whose paragraph 0040:00EE holds. From offset 0 on stands what DOS calls wrote.
mark    EQU 0FC00h              ; 5A53h once it is set up
phase   EQU 0FC02h              ; 0 before the program, 1 while it runs, 2 after its end
how     EQU 0FC04h              ; by which interrupt it ended
code    EQU 0FC05h              ; its exit code
notes   EQU 0FC0Ah              ; how many calls weren't served, and of the first its number, AX, IP, CS
lostkeys EQU 0FC14h             ; how many keys found the buffer full
list    EQU 0FE00h              ; 24 calls that weren't served, of 10 bytes: their number, 0, AX, IP, CS, how often from there
listend EQU 0FEF0h

SEGMENT BIOS AT 0FE00h
        JMP begin
        JMP note_far            ; FE00:0003
over:   JMP finish              ; FE00:0006
        DB 'services of Zebludor'

begin:  CLI
        CLD
        MOV AL,99h              ; of the parallel port A and C are inputs, B is an output
        OUT 63h,AL
        MOV AL,0CCh             ; empties the keyboard's latch
        OUT 61h,AL
        MOV AL,4Ch
        OUT 61h,AL
        MOV BX,400h             ; RAM is there as long as a word can be changed
more:   MOV DS,BX
        MOV AX,[0]
        NOT WORD [0]
        NOT AX
        CMP AX,[0]
        JNE end_of_ram
        NOT WORD [0]
        ADD BX,400h
        CMP BX,0A000h
        JB more
end_of_ram:
        SUB BX,1000h
        MOV SS,BX               ; at its end is room for the beginning's stack
        XOR SP,SP
        CALL set_vectors
        CALL set_data
        MOV AX,7
        INT 10h
        MOV AL,36h              ; counter 0 divides by 65,536: 18.2 ticks a second
        OUT 43h,AL
        XOR AL,AL
        OUT 40h,AL
        OUT 40h,AL
        MOV AL,13h              ; behind the counter's mode, whose rise isn't a tick
        OUT 20h,AL
        MOV AL,8
        OUT 21h,AL
        MOV AL,9
        OUT 21h,AL
        MOV AL,0FCh             ; timer and keyboard alone
        OUT 21h,AL
        STI
        INT 19h

; Each vector that the program's image hasn't set leads to what isn't there, or to a service.
set_vectors:
        XOR AX,AX
        MOV ES,AX
        XOR DI,DI
        XOR BX,BX
vector: MOV AX,ES:[DI]
        OR AX,ES:[DI+2]
        JNZ is_set
        MOV WORD ES:[DI],nothing
        MOV ES:[DI+2],CS
        MOV AX,BX
        SUB AX,5
        CMP AX,1Ah
        JA is_set
        MOV SI,AX
        ADD SI,SI
        MOV AX,CS:[SI+vectors]
        MOV ES:[DI],AX
is_set: ADD DI,4
        INC BX
        CMP BX,100h
        JB vector
        RET

; The data area at 0040:0000, where programs read it, and the services' RAM.
set_data:
        MOV AX,40h
        MOV DS,AX
        MOV [0EEh],SS
        MOV AX,SS
        MOV CL,6
        SHR AX,CL
        MOV [13h],AX            ; KB below the services' RAM
        MOV WORD [10h],3Ch      ; a monochrome adapter, 64 KB on the board, nothing else
        MOV WORD [1Ah],1Eh      ; the keyboard's buffer
        MOV WORD [1Ch],1Eh
        MOV WORD [80h],1Eh
        MOV WORD [82h],3Eh
        MOV WORD [72h],1234h
        PUSH SS
        POP DS
        MOV WORD [mark],5A53h
        RET

; The adapter's registers for 25 rows of 80 (IBM PC Technical Reference, "IBM Monochrome Display and Parallel Printer Adapter").
parameters:
        DB 38h,28h,2Dh,0Ah,1Fh,6,19h,1Ch,2,7,6,7,0,0,0,0
        DB 71h,50h,5Ah,0Ah,1Fh,6,19h,1Ch,2,7,6,7,0,0,0,0
        DB 38h,28h,2Dh,0Ah,7Fh,6,64h,70h,2,1,6,7,0,0,0,0
monochrome:
        DB 61h,50h,52h,0Fh,19h,6,19h,19h,2,0Dh,0Bh,0Ch,0,0,0,0
; What a diskette's controller would be given.
diskette: DB 0DFh,2,25h,2,8,2Ah,0FFh,50h,0F6h,19h,4

; The vectors 05h to 1Fh.
vectors: DW ignored,nothing,nothing,tick,press,nothing,nothing,nothing,nothing,nothing,nothing
        DW video,equipment,memory,no_diskette,no_serial,no_cassette,keyboard,no_printer
        DW no_rom,again,time,ignored,ignored,parameters,diskette,nothing

; -- What isn't there

ignored: IRET

; An interrupt without a handler. One by INT is noted.
nothing: PUSH BP
        PUSH ES
        PUSH DS
        PUSH SI
        PUSH DI
        PUSH DX
        PUSH CX
        PUSH BX
        PUSH AX
        MOV BP,SP
        LDS BX,[BP+18]
        CMP BYTE [BX-2],0CDh
        JNE no_note
        MOV AL,[BX-1]
        CALL note
no_note: JMP breaks

; Notes that the call AL, with the caller's AX, isn't served.
note:   PUSH DS
        PUSH BX
        CALL own_ram
        INC WORD [notes]
        CMP WORD [notes],1
        JNE noted
        XOR AH,AH
        MOV [notes+2],AX
        MOV BX,[BP]
        MOV [notes+4],BX
        MOV BX,[BP+18]
        MOV [notes+6],BX
        MOV BX,[BP+20]
        MOV [notes+8],BX
noted:  JMP listed
note_far: CALL note
        RETF

own_ram: MOV BX,40h
        MOV DS,BX
        MOV DS,[0EEh]
        RET

; The end of the program, by interrupt AL with exit code AH. Nothing wakes the processor.
finish: CLI
        CALL own_ram
        MOV [how],AX
        MOV WORD [phase],2
ended:  HLT

; -- The beginning

; INT 19h. The first time the program begins; later there is no diskette to begin from.
again:  CALL own_ram
        CMP WORD [phase],0
        JNE no_more
        MOV AX,0FFFEh
        MOV DS,AX
        CMP WORD [0],0FFFFh     ; without a block it is a sector
        JNE no_rom
        XOR AX,AX
        MOV DS,AX
        MOV ES,AX
        CMP WORD [7DFEh],0AA55h
        JNE no_rom
        PUSH DS
        CALL own_ram
        MOV WORD [phase],1
        POP DS
        MOV BX,7C00h            ; as a read left it: cylinder 0, sector 1, head 0, drive 0
        MOV CX,1
        XOR DX,DX
        MOV AX,30h
        MOV SS,AX
        MOV SP,100h
        MOV AX,1
        STI
        JMP FAR 0:7C00h
no_more: MOV AX,19h
        JMP over

; INT 18h, where a 5150 without diskettes begins its BASIC at F600:0000.
no_rom: CALL own_ram
        CMP WORD [phase],0
        JNE no_basic
        MOV AX,0F600h
        MOV DS,AX
        CMP WORD [0],0FFFFh
        JE no_basic
        JMP FAR 0F600h:0
no_basic: MOV AX,18h
        JMP over

; -- INT 10h, the screen

video:  STI
        CLD
        PUSH BP
        PUSH ES
        PUSH DS
        PUSH SI
        PUSH DI
        PUSH DX
        PUSH CX
        PUSH BX
        PUSH AX
        MOV BP,SP
        MOV SI,40h
        MOV DS,SI
        MOV SI,0B000h
        MOV ES,SI
        CMP AH,13h
        JA no_video
        PUSH AX
        MOV AL,AH
        XOR AH,AH
        ADD AX,AX
        MOV SI,AX
        POP AX
        JMP WORD CS:[SI+videos]
no_video: MOV AL,10h
        CALL note
done:   POP AX
        POP BX
        POP CX
        POP DX
        POP DI
        POP SI
        POP DS
        POP ES
        POP BP
        IRET
videos: DW mode,shape,put_cursor,get_cursor,no_video,page,scroll_up,scroll_down,read_cell,write_cell,write_char
        DW no_video,no_video,no_video,teletype,get_mode,no_video,no_video,no_video,write_string

; 00h: every mode is 7, as on a 5150 with this adapter.
mode:   MOV DX,3B8h
        MOV AL,1                ; high resolution, video off
        OUT DX,AL
        MOV SI,monochrome
        XOR AH,AH
        MOV DX,3B4h
set_6845: MOV AL,AH
        OUT DX,AL
        INC DX
        CS: LODSB
        OUT DX,AL
        DEC DX
        INC AH
        CMP AH,16
        JB set_6845
        XOR DI,DI
        MOV AX,720h
        MOV CX,2048
        REP STOSW
        MOV BYTE [49h],7
        MOV WORD [4Ah],80
        MOV WORD [4Ch],1000h
        MOV WORD [4Eh],0
        PUSH DS
        POP ES
        MOV DI,50h
        XOR AX,AX
        MOV CX,8
        REP STOSW
        MOV WORD [60h],0B0Ch
        MOV BYTE [62h],0
        MOV WORD [63h],3B4h
        MOV WORD [65h],29h
        MOV DX,3B8h
        MOV AL,29h              ; video and blinking on
        OUT DX,AL
        JMP done

; 01h: the cursor's first and last row.
shape:  MOV [60h],CX
        MOV BX,CX
        MOV AH,10
        CALL pair
        JMP done

; 02h and 03h: the cursor's place. There is one page, so BH isn't read.
put_cursor: MOV [50h],DX
        CALL show_cursor
        JMP done
get_cursor: MOV AX,[50h]
        MOV [BP+6],AX
        MOV AX,[60h]
        MOV [BP+4],AX
        JMP done

; 05h: page 0 is there alone.
page:   JMP done

; 06h and 07h: the window from CH, CL to DH, DL moves by AL rows, and BH fills what is new. All of it is blank by 0.
scroll_down: CALL window
        JC scrolled
        PUSH AX
        MOV AL,160
        MUL CH
        ADD DI,AX               ; from the last row
        POP AX
        MOV BX,-160
        JMP SHORT scroll
scroll_up: CALL window
        JC scrolled
        MOV BX,160
scroll: MOV DH,CH
        INC DH                  ; DH rows
        OR AL,AL
        JZ blanks
        CMP AL,DH
        JAE blanks
        MOV DL,DH
        SUB DL,AL               ; DL of them stay
        PUSH AX
        XOR AH,AH
        MOV SI,AX
        MOV AX,160
        PUSH DX
        MUL SI
        POP DX
        OR BX,BX
        JNS upward
        NEG AX
upward: MOV SI,DI
        ADD SI,AX
        POP AX
        MOV DH,AL
        XOR CH,CH
        PUSH ES
        POP DS
stay:   PUSH CX
        PUSH SI
        PUSH DI
        REP MOVSW
        POP DI
        POP SI
        POP CX
        ADD SI,BX
        ADD DI,BX
        DEC DL
        JNZ stay
blanks: MOV AH,[BP+3]
        MOV AL,' '
        XOR CH,CH
blank:  PUSH CX
        PUSH DI
        REP STOSW
        POP DI
        POP CX
        ADD DI,BX
        DEC DH
        JNZ blank
scrolled: JMP done

; Of a window: DI its upper left in text memory, CL its columns, CH its rows less 1; CF where it has none.
window: CMP DH,24
        JBE rows
        MOV DH,24
rows:   CMP DL,79
        JBE columns
        MOV DL,79
columns: CMP DH,CH
        JB no_window
        SUB DL,CL
        JB no_window
        SUB DH,CH
        PUSH AX
        XCHG AX,CX              ; AH the first row, AL the first column
        CALL cell
        MOV DI,AX
        POP AX
        MOV CX,DX
        INC CX                  ; CL is below 80
        CLC
        RET
no_window: STC
        RET

; AX, row and column, as a place in text memory.
cell:   PUSH BX
        MOV BL,AL
        MOV AL,80
        MUL AH
        XOR BH,BH
        ADD AX,BX
        ADD AX,AX
        POP BX
        RET

; DI, the cursor's place in text memory.
at_cursor: PUSH AX
        MOV AX,[50h]
        CALL cell
        MOV DI,AX
        POP AX
        RET

; 08h: the character and the attribute at the cursor.
read_cell: CALL at_cursor
        MOV AX,ES:[DI]
        MOV [BP],AX
        JMP done

; 09h and 0Ah: the character AL, CX times from the cursor on, with the attribute BL or with those that are there.
write_cell: CALL at_cursor
        MOV AH,BL
        CALL no_further
        REP STOSW
        JMP done
write_char: CALL at_cursor
        CALL no_further
        JCXZ written
char:   STOSB
        INC DI
        LOOP char
written: JMP done

; CX, so that text memory isn't passed.
no_further: MOV BX,4096
        SUB BX,DI
        JA room
        XOR BX,BX
room:   SHR BX,1
        CMP CX,BX
        JBE fits
        MOV CX,BX
fits:   RET

; 0Eh: the character AL at the cursor, as a teletype.
teletype: XOR BH,BH
        CALL type
        JMP done

; 0Fh
get_mode: MOV AL,[49h]
        MOV AH,[4Ah]
        MOV [BP],AX
        MOV AL,[62h]
        MOV [BP+3],AL
        JMP done

; 13h: CX characters from ES:BP on; bit 1 of AL: each with its attribute behind it, else with BL; bit 0: the cursor moves.
write_string: MOV SI,[BP+16]
        MOV DI,[50h]
        PUSH DI
        MOV [50h],DX
        JCXZ shown
string: PUSH CX
        MOV AX,[BP+14]
        PUSH DS
        MOV DS,AX
        LODSB
        MOV BL,[BP+2]
        TEST BYTE [BP],2
        JZ one
        MOV BL,[SI]
        INC SI
one:    POP DS
        MOV BH,1
        CALL type
        POP CX
        LOOP string
shown:  POP DI
        TEST BYTE [BP],1
        JNZ moved
        MOV [50h],DI
moved:  CALL show_cursor
        JMP done

; Types AL. BH is 1 where BL is its attribute, else the cell keeps its own. It changes AX, BX, CX, DX and DI.
type:   MOV DX,[50h]
        CMP AL,13
        JE return
        CMP AL,10
        JE feed
        CMP AL,8
        JE left
        CMP AL,7
        JE bell
        CALL at_cursor
        STOSB
        OR BH,BH
        JZ next
        MOV ES:[DI],BL
next:   INC DX
        CMP DL,80
        JB typed
        XOR DL,DL
feed:   CMP DH,24
        JB down
        PUSH SI                 ; the last row: all move up, and the new one has the attribute of the cell at the cursor
        PUSH DX
        CALL at_cursor
        MOV BH,ES:[DI+1]
        MOV AX,601h
        XOR CX,CX
        MOV DX,184Fh
        INT 10h
        POP DX
        POP SI
        JMP SHORT typed
down:   INC DH
        JMP SHORT typed
left:   OR DL,DL
        JZ typed
        DEC DX
        JMP SHORT typed
return: XOR DL,DL
typed:  MOV [50h],DX
; Shows the cursor where the data area has it.
show_cursor: MOV AX,[50h]
        CALL cell
        SHR AX,1
        MOV BX,AX
        MOV AH,14
; Writes BX to the adapter's registers AH and AH + 1.
pair:   MOV DX,3B4h
        MOV AL,AH
        OUT DX,AL
        INC DX
        MOV AL,BH
        OUT DX,AL
        DEC DX
        MOV AL,AH
        INC AL
        OUT DX,AL
        INC DX
        MOV AL,BL
        OUT DX,AL
        RET

; Half a second of 896 Hz.
bell:   MOV AL,0B6h
        OUT 43h,AL
        MOV AX,533h
        OUT 42h,AL
        MOV AL,AH
        OUT 42h,AL
        IN AL,61h
        PUSH AX
        OR AL,3
        OUT 61h,AL
        MOV BL,2
        XOR CX,CX
sounds: LOOP sounds
        DEC BL
        JNZ sounds
        POP AX
        OUT 61h,AL
        RET

; -- What the board has

; INT 11h and 12h
equipment: PUSH DS
        MOV AX,40h
        MOV DS,AX
        MOV AX,[10h]
        POP DS
        IRET
memory: PUSH DS
        MOV AX,40h
        MOV DS,AX
        MOV AX,[13h]
        POP DS
        IRET

; INT 13h: nothing answers (AH 80h), and no sector is read.
no_diskette: STI
        PUSH DS
        MOV AX,40h
        MOV DS,AX
        MOV BYTE [41h],80h
        POP DS
        MOV AX,8000h
; Sets the caller's carry.
failed: PUSH BP
        MOV BP,SP
        OR BYTE [BP+6],1
        POP BP
        IRET

; INT 14h and 17h: no serial port, no printer: AH says that the time is over. INT 15h: no such call.
no_serial: MOV AH,80h
        IRET
no_printer: MOV AH,1
        IRET
no_cassette: MOV AH,86h
        JMP SHORT failed

; -- INT 16h, the keyboard

keyboard: STI
        PUSH DS
        PUSH BX
        MOV BX,40h
        MOV DS,BX
        OR AH,AH
        JZ wait_key
        CMP AH,1
        JE look
        CMP AH,2
        JE shifts
        POP BX
        POP DS
        PUSH BP
        PUSH ES
        PUSH DS
        PUSH SI
        PUSH DI
        PUSH DX
        PUSH CX
        PUSH BX
        PUSH AX
        MOV BP,SP
        MOV AL,16h
        CALL note
        JMP done

; 00h: the next key. The processor halts until there is one.
wait_key: CLI
        MOV BX,[1Ah]
        CMP BX,[1Ch]
        JNE has_key
        STI
        HLT
        JMP SHORT wait_key
has_key: MOV AX,[BX]
        CALL after
        MOV [1Ah],BX
        STI
        POP BX
        POP DS
        IRET

; 01h: the next key stays; ZF where there is none.
look:   CLI
        MOV BX,[1Ah]
        CMP BX,[1Ch]
        JE no_key
        MOV AX,[BX]
no_key: STI
        POP BX
        POP DS
        PUSH BP
        MOV BP,SP
        PUSHF
        AND BYTE [BP+6],0BFh
        POPF
        JNE seen
        OR BYTE [BP+6],40h
seen:   POP BP
        IRET

; 02h: the shift keys.
shifts: MOV AL,[17h]
        POP BX
        POP DS
        IRET

; BX, the buffer's next place.
after:  INC BX
        INC BX
        CMP BX,[82h]
        JNE within
        MOV BX,[80h]
within: RET

; -- The interrupts of timer and keyboard

; INT 08h, 18.2 times a second.
tick:   STI
        PUSH DS
        PUSH AX
        MOV AX,40h
        MOV DS,AX
        ADD WORD [6Ch],1
        ADC WORD [6Eh],0
        CMP WORD [6Eh],18h
        JNE same_day
        CMP WORD [6Ch],0B0h
        JNE same_day
        XOR AX,AX
        MOV [6Ch],AX
        MOV [6Eh],AX
        MOV BYTE [70h],1
same_day: INT 1Ch
        CLI
        MOV AL,20h
        OUT 20h,AL
        POP AX
        POP DS
        IRET

; INT 1Ah: 00h the ticks since midnight, and whether it has passed since they were asked; 01h sets them. There is no other clock.
time:   STI
        PUSH DS
        PUSH BX
        MOV BX,40h
        MOV DS,BX
        CMP AH,1
        JE set_time
        JA no_time
        CLI
        MOV AL,[70h]
        MOV BYTE [70h],0
        MOV CX,[6Eh]
        MOV DX,[6Ch]
        JMP SHORT told
set_time: CLI
        MOV [6Ch],DX
        MOV [6Eh],CX
        MOV BYTE [70h],0
told:   STI
        POP BX
        POP DS
        IRET
no_time: POP BX
        POP DS
        PUSH BP
        PUSH ES
        PUSH DS
        PUSH SI
        PUSH DI
        PUSH DX
        PUSH CX
        PUSH BX
        PUSH AX
        MOV BP,SP
        OR BYTE [BP+22],1
        MOV AL,1Ah
        CALL note
        JMP done

; INT 09h: a scan code.
press:  STI
        CLD
        PUSH AX
        PUSH BX
        PUSH CX
        PUSH DX
        PUSH DS
        MOV BX,40h
        MOV DS,BX
        IN AL,60h
        MOV DL,AL
        IN AL,61h
        MOV AH,AL
        OR AL,80h
        OUT 61h,AL              ; empties the latch
        MOV AL,AH
        AND AL,7Fh
        OUT 61h,AL
        CALL held
        JC pressed
        TEST DL,80h
        JNZ pressed
        CALL meaning
        JC pressed
        CALL keep
pressed: CLI
        MOV AL,20h              ; no earlier: the next code waits until this one is kept
        OUT 20h,AL
        POP DS
        POP DX
        POP CX
        POP BX
        POP AX
        IRET

; Puts the key AX into the buffer, if it has room.
keep:   CLI
        MOV BX,[1Ch]
        MOV CX,BX
        CALL after
        CMP BX,[1Ah]
        JE full
        XCHG BX,CX
        MOV [BX],AX
        MOV [1Ch],CX
        RET
full:   CALL own_ram
        INC WORD [lostkeys]
        RET

; Whether DL is a key that is held, or one that changes by each press, whose bits it then keeps: CF.
held:   MOV AL,DL
        AND AL,7Fh
        MOV BX,0
seek:   CMP AL,CS:[BX+holders]
        JE holder
        INC BX
        CMP BX,8
        JB seek
        CLC
        RET
holder: MOV AL,CS:[BX+bits]
        CMP BX,4
        JAE locks
        TEST DL,80h
        JNZ up
        OR [17h],AL
        STC
        RET
up:     NOT AL
        AND [17h],AL
        STC
        RET
locks:  TEST DL,80h
        JNZ released
        TEST BYTE [17h],4       ; Ctrl with scroll lock is Break
        JZ toggle
        CMP DL,46h
        JE break
toggle: TEST [18h],AL           ; a key that is held down repeats, and changes nothing
        JNZ repeats
        CMP DL,52h
        JNE turns
        TEST BYTE [17h],3       ; Ins is 0 by shift or num
        JNZ digit0
        TEST BYTE [17h],20h
        JNZ digit0
turns:  OR [18h],AL
        XOR [17h],AL
repeats: CMP DL,52h
        JE digit0               ; and a key too
        STC
        RET
digit0: CLC
        RET
released: NOT AL
        AND [18h],AL
        STC
        RET
break:  CLI
        MOV WORD [1Ah],1Eh
        MOV WORD [1Ch],1Eh
        MOV BYTE [71h],80h
        STI
        INT 1Bh
        XOR AX,AX
        CALL keep
        STC
        RET
holders: DB 36h,2Ah,1Dh,38h,46h,45h,3Ah,52h
bits:   DB 1,2,4,8,10h,20h,40h,80h

; AX, scan code and character, of the key DL; CF where it means nothing.
meaning: MOV AH,DL
        MOV BL,DL
        XOR BH,BH
        CMP DL,53h
        JA none
        TEST BYTE [17h],8
        JZ no_alt
        JMP by_alt
no_alt: TEST BYTE [17h],4
        JZ no_ctrl
        JMP by_ctrl
no_ctrl: CMP DL,37h
        JE star
        CMP DL,3Bh
        JB letter
        CMP DL,47h
        JAE pad
        XOR AL,AL
        CMP DL,44h
        JA none
        TEST BYTE [17h],3
        JZ some
        ADD AH,19h
        JMP SHORT some
letter: MOV AL,CS:[BX+plain]
        MOV CL,[17h]
        AND CL,3
        JZ lower
        MOV AL,CS:[BX+shifted]
lower:  TEST BYTE [17h],40h     ; caps exchanges small and large letters
        JZ is_char
        MOV CL,AL
        AND CL,0DFh
        CMP CL,'A'
        JB is_char
        CMP CL,'Z'
        JA is_char
        XOR AL,20h
is_char: OR AL,AL
        JNZ some
        CMP DL,0Fh              ; the tab back has no character
        JNE none
some:   CLC
        RET
none:   STC
        RET
star:   MOV AL,'*'
        TEST BYTE [17h],3
        JZ some
        INT 5                   ; print screen
        JMP SHORT none

; The keys of the pad: digits by num or shift, not by both.
pad:    MOV AL,CS:[BX+digits-47h]
        CMP AL,'-'
        JE some
        CMP AL,'+'
        JE some
        MOV CL,[17h]
        AND CL,23h
        JZ moves
        CMP CL,20h
        JE some
        TEST CL,20h
        JZ some
moves:  XOR AL,AL
        CMP DL,4Ch
        JNE some
        JMP SHORT none

by_ctrl: CMP DL,3Bh
        JAE functions
        MOV AL,CS:[BX+controls]
        CMP AL,0FFh
        JE nothing_more
        OR AL,AL
        JNZ something
        CMP DL,3                ; Ctrl with 2 is character 0
        JE something
        MOV AH,72h              ; with PrtSc
something: CLC
        RET
functions: XOR AL,AL
        ADD AH,23h
        CMP DL,45h
        JB something
        CMP DL,47h
        JB nothing_more
        MOV AH,CS:[BX+far_moves-47h]
        OR AH,AH
        JNZ something
nothing_more: STC
        RET

; With Alt: letters, digits, the blank and the functions' keys.
by_alt: XOR AL,AL
        CMP DL,2
        JB nothing_more
        ADD AH,76h
        CMP DL,0Eh
        JB something
        MOV AH,DL
        ADD AH,2Dh
        CMP DL,44h
        JA nothing_more
        CMP DL,3Bh
        JAE something
        MOV AH,DL
        MOV CL,CS:[BX+plain]
        CMP CL,'a'
        JB spaced
        CMP CL,'z'
        JBE something
spaced: CMP CL,' '
        JNE nothing_more
        MOV AL,CL
        JMP SHORT something

; The characters of the codes 0 to 3Ah: plain, with shift, with Ctrl (0FFh is none).
plain:  DB 0,27,'1234567890-=',8,9,'qwertyuiop[]',13,0,'asdfghjkl;',39,'`',0,92,'zxcvbnm,./',0,0,0,' ',0
shifted: DB 0,27,'!@#$%^&*()_+',8,0,'QWERTYUIOP{}',13,0,'ASDFGHJKL:"~',0,'|ZXCVBNM<>?',0,0,0,' ',0
controls: DB 0FFh,27,0FFh,0,0FFh,0FFh,0FFh,30,0FFh,0FFh,0FFh,0FFh,31,0FFh,127,0FFh
        DB 17,23,5,18,20,25,21,9,15,16,27,29,10,0FFh
        DB 1,19,4,6,7,8,10,11,12,0FFh,0FFh,0FFh,0FFh,28
        DB 26,24,3,22,2,14,13,0FFh,0FFh,0FFh,0FFh,0,0FFh,' ',0FFh
digits: DB '789-456+1230.'
far_moves: DB 77h,0,84h,0,73h,0,74h,0,75h,0,76h,0,0

; -- What came later stands here, so that the calls stay where they are, and take the clocks that they took

; Of a call that isn't served the list has each place.
listed: PUSH SI
        MOV SI,list
lists:  CMP WORD [SI+8],0
        JE lists_new
        CMP [SI],AL
        JNE lists_other
        MOV BH,[BP+1]
        CMP [SI+3],BH
        JNE lists_other
        MOV BX,[BP+18]
        CMP [SI+4],BX
        JNE lists_other
        MOV BX,[BP+20]
        CMP [SI+6],BX
        JE lists_one
lists_other: ADD SI,10
        CMP SI,listend
        JB lists
        JMP SHORT is_listed
lists_new: MOV [SI],AL
        MOV BX,[BP]
        MOV [SI+2],BX
        MOV BX,[BP+18]
        MOV [SI+4],BX
        MOV BX,[BP+20]
        MOV [SI+6],BX
lists_one: INC WORD [SI+8]
        JNZ is_listed
        DEC WORD [SI+8]
is_listed: POP SI
        POP BX
        POP DS
        RET

; INT 3 without a handler ends the program, by either of its forms, and is listed. A single step after a byte 0CCh is none.
breaks: TEST BYTE [BP+23],1
        JNZ goes_on
        CMP BYTE [BX-2],0CDh
        JE by_int
        CMP BYTE [BX-1],0CCh
        JNE goes_on
        MOV AL,3
        CALL note
        JMP SHORT ends_by_3
by_int: CMP BYTE [BX-1],3
        JNE goes_on
ends_by_3: MOV AX,3
        JMP over
goes_on: JMP done
ENDS

SEGMENT RESET AT 0FFFFh
        JMP FAR 0FE00h:0
        DB '01/01/81',0,0FFh    ; the date, and that it is a 5150
ENDS
