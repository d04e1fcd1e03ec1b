"""pcmasm: random instructions as MASM spells them, over all operations and forms of operands, give nasm's bytes; and our emulation of
emu8086's library does what its manual says."""
from __future__ import annotations

import pathlib
import random
import re
import subprocess
import unittest

from tests.support import TOP, ToolCase, is_there
from toolbox.program import path as program_path

SEED, COUNT = 8086, 40  # of random instructions of each kind
BYTES, WORDS = 'AL CL DL BL AH CH DH BH'.split(), 'AX CX DX BX SP BP SI DI'.split()
PLACES = ['BX', 'BP', 'SI', 'DI', 'BX SI', 'BX DI', 'BP SI', 'BP DI', '']
PLAIN = (
    'AAA AAS AAM AAD DAA DAS CBW CWD CLC CLD CLI CMC STC STD STI HLT LAHF SAHF PUSHF POPF NOP IRET INTO XLAT WAIT RET RETF'
    ' MOVSB MOVSW CMPSB CMPSW SCASB SCASW LODSB LODSW STOSB STOSW'
).split()
JUMPS = (
    'JO JNO JB JC JNAE JNB JNC JAE JZ JE JNZ JNE JBE JNA JA JNBE JS JNS JP JPE JNP JPO JL JNGE JGE JNL JLE JNG JG JNLE' ' LOOP LOOPE LOOPZ LOOPNE LOOPNZ JCXZ'
).split()
Pair = tuple[str, str]  # as MASM spells it, and as nasm does


class Maker:
    """Random instructions in both spellings."""

    def __init__(self, seed: int) -> None:
        self.chance = random.Random(seed)

    def one(self, *of: str) -> str:
        return self.chance.choice(of)

    def number(self, low: int, high: int) -> Pair:
        number = self.chance.randint(low, high)
        digits = f'{number:X}h'
        return self.one(str(number), digits if digits[0].isdigit() else f'0{digits}', f'{number:b}b'), str(number)

    def memory(self, size: str) -> Pair:
        """An operand in memory; a size of '' is left to the other operand."""
        place, over = self.one(*PLACES).split(), self.one('', '', '', 'ES', 'CS', 'SS', 'DS')
        away, there = self.number(*self.chance.choice([(0, 0), (1, 127), (256, 0x7FFF)]))
        if not place:
            masm, over = f'[{away}]', over or 'DS'
        elif there == '0':
            masm = ''.join(f'[{register}]' for register in place)
        else:
            masm = self.one(
                f'[{"+".join([*place, away])}]',
                f'{away}[{"][".join(place)}]',
                f'[{"+".join(place)}]+{away}',
                f'[{place[-1]}]{"".join(f"[{it}]" for it in place[:-1])}[{away}]',
            )
        nasm = '+'.join([*place, *([] if place and there == '0' else [there])])
        return (f'{size} PTR ' if size else '') + (f'{over}:' if over else '') + masm, f'{size} [{over + ":" if over else ""}{nasm}]'

    def register(self, size: str) -> Pair:
        name = self.one(*(BYTES if size == 'BYTE' else WORDS))
        return name, name

    def either(self, size: str) -> Pair:
        return self.memory(size) if self.chance.random() < 0.7 else self.register(size)

    def of_two(self, name: str, left: Pair, right: Pair) -> Pair:
        return f'{name} {left[0]},{right[0]}', f'{name} {left[1]},{right[1]}'

    def of_one(self, name: str, operand: Pair) -> Pair:
        return f'{name} {operand[0]}', f'{name} {operand[1]}'

    def arithmetic(self) -> Pair:
        name, size = self.one('ADD', 'ADC', 'SUB', 'SBB', 'CMP', 'AND', 'OR', 'XOR', 'MOV', 'TEST'), self.one('BYTE', 'WORD')
        kind = self.chance.randrange(3)
        if kind == 0:
            return self.of_two(name, self.either(size), self.register(size))
        if kind == 1 and name != 'TEST':
            return self.of_two(name, self.register(size), self.memory(''))
        # a small number is one byte or two, as the assembler likes, with AND, OR and XOR
        return self.of_two(name, self.either(size), self.number(*((1, 127) if size == 'BYTE' else (256, 0x7FFF))))

    def unary(self) -> Pair:
        return self.of_one(self.one('INC', 'DEC', 'NEG', 'NOT', 'MUL', 'IMUL', 'DIV', 'IDIV'), self.either(self.one('BYTE', 'WORD')))

    def shift(self) -> Pair:
        return self.of_two(self.one('SHL', 'SAL', 'SHR', 'SAR', 'ROL', 'ROR', 'RCL', 'RCR'), self.either(self.one('BYTE', 'WORD')), (self.one('1', 'CL'),) * 2)

    def stack(self) -> Pair:
        operand = self.chance.choice([self.memory('WORD'), self.register('WORD'), (self.one('ES', 'SS', 'DS'),) * 2])
        return self.of_one(self.one('PUSH', 'POP'), operand)

    def segment(self) -> Pair:
        segment, other = (self.one('ES', 'SS', 'DS'),) * 2, self.either('WORD')
        return self.of_two('MOV', *self.chance.choice([(segment, other), (other, segment)]))

    def pointer(self) -> Pair:
        there = self.memory('')
        return self.of_two(self.one('LEA', 'LES', 'LDS'), self.register('WORD'), there)

    def port(self) -> Pair:
        port, register = self.chance.choice([self.number(0, 255), ('DX', 'DX')]), (self.one('AL', 'AX'),) * 2
        return self.of_two('IN', register, port) if self.chance.random() < 0.5 else self.of_two('OUT', port, register)

    def jump(self) -> Pair:
        name = self.one('JMP', 'CALL')
        masm, nasm = self.memory(self.one('WORD', 'DWORD'))
        return f'{name} {masm}', f'{name} {nasm.replace("DWORD", "FAR")}'

    def others(self) -> Pair:
        number = self.number(0, 255)
        kind = self.one('INT', 'RET', 'RETF', 'XCHG', 'plain', 'REP', 'target', 'jump')
        if kind == 'XCHG':
            return self.of_two('XCHG', self.memory('WORD'), self.register('WORD'))
        if kind == 'plain':
            return (self.one(*PLAIN),) * 2
        if kind == 'REP':
            return (f'{self.one("REP", "REPE", "REPNE", "REPZ", "REPNZ")} {self.one("MOVSB", "SCASW", "CMPSB", "STOSW", "LODSB")}',) * 2
        if kind == 'jump':
            return (f'{self.one(*JUMPS)} $+{self.chance.randint(2, 100)}',) * 2
        if kind == 'target':
            name = self.one('JMP', 'CALL')
            return f'{name} here', f'{name}{" NEAR" if name == "JMP" else ""} here'
        return self.of_one(kind, number)

    def made(self) -> Pair:
        kinds = self.arithmetic, self.unary, self.shift, self.stack, self.segment, self.pointer, self.port, self.jump, self.others
        return self.chance.choice(kinds)()


LIBRARY = f'{TOP}/services/masm/emu8086.inc'
NUMBERS = """include 'emu8086.inc'
org 100h
PRINT 'Number: '
CALL SCAN_NUM
PRINTN
MOV AX,CX
ADD AX,AX
CALL PRINT_NUM
PRINTN '!'
CALL PTHIS
DB 'here it is',13,10,0
LEA SI,msg
CALL PRINT_STRING
LEA DI,buf
MOV DX,5
CALL GET_STRING
GOTOXY 20,10
LEA SI,buf
CALL PRINT_STRING
RET
msg DB 'a text',13,10,0
buf DB 5 DUP(?)
DEFINE_SCAN_NUM
DEFINE_PRINT_NUM
DEFINE_PRINT_NUM_UNS
DEFINE_PTHIS
DEFINE_PRINT_STRING
DEFINE_GET_STRING
END
"""

IRVINE = """INCLUDE Irvine16.inc
.data
name1 BYTE 9 DUP(?)
list  WORD 1,0ABCDh
.code
main PROC
 mov ax,@data
 mov ds,ax
 call Clrscr
 mov dx,OFFSET name1
 mov cx,SIZEOF name1 - 1
 call ReadString
 call WriteString
 call WriteDec
 call Crlf
 call ReadInt
 call WriteInt
 call Crlf
 call ReadInt
 mov ax,-2
 call WriteBin
 call Crlf
 call ReadDec
 call WriteHex
 call DumpRegs
 mov si,OFFSET list
 mov cx,LENGTHOF list
 mov bx,TYPE list
 call DumpMem
 mov dx,1414h
 call Gotoxy
 mov al,'*'
 call WriteChar
 mov ax,200
 call Delay
 exit
main ENDP
END main
"""
# What begins a source of a million lines more, these lines with their numbers, and the only refusal.
MILLION = 1_000_000
PARAMETERS = ','.join(f'a{number}' for number in range(1000))
LARGE = (
    ('', 'n{} DB 1', '200000: more than 200,000 names'),
    ('', 'n{} EQU $', '200001: more than 200,000 names'),
    ('', 'IF 1', '1000000: ENDM, ENDIF, ENDS or the end of COMMENT is missing'),
    ('', ' DB 13000 DUP(1,2 DUP(3))', '235: too much comes of this line'),
    (f'm MACRO {PARAMETERS}\nENDM\n', 'm', '1003: more than 1,000,000 lines come of macros'),
)


class Translated(ToolCase):
    """What pcmasm prints."""

    def translated(self, text: str, *included: str) -> str:
        """The dialect's text of a source of MASM."""
        path = self.file('it.asm', text)
        done = subprocess.run([program_path('pcmasm'), path, *included], capture_output=True, text=True, check=False)
        self.assertEqual((done.returncode, done.stderr), (0, ''))
        return done.stdout

    def test_the_library_of_emu8086(self) -> None:
        # after a wrong letter and a digit that is taken back, and with more letters than there is room for
        path = self.file('here.asm', self.translated(NUMBERS, LIBRARY))
        out, _ = self.tool('tools/try', path, '--services', '--keys=-x12{backspace}34{enter}abcdefg{enter}')
        self.assertEqual(out.splitlines()[:5], ['Number: -134', '-268!', 'here it is', 'a text', 'abcd'])
        self.assertIn(20 * ' ' + 'abcd', out.splitlines())

    def test_the_library_of_irvine(self) -> None:
        # a name, the smallest number with a sign, none, and the largest without
        path = self.file('it.asm', IRVINE)
        out, _ = self.tool('tools/try', path, '--keys=Anna{enter}-32768{enter}x{enter}65535{enter}')
        lines = out.splitlines()
        self.assertEqual(lines[:6], ['Anna', 'Anna4', '-32768', '-32768', 'x', ' <invalid integer>'])
        self.assertEqual(lines[6:9], ['1111 1111 1111 1110', '65535', 'FFFF'])
        self.assertRegex(lines[9], r'^  AX=FFFF  BX=[0-9A-F]{4}  CX=0008  DX=[0-9A-F]{4}$')
        self.assertRegex(lines[11], r'^  IP=[0-9A-F]{4}  FL=F[0-9A-F]{3}  CF=0  SF=[01]  ZF=[01]  OF=0$')
        self.assertRegex('\n'.join(lines[12:]), r'^Dump of offset [0-9A-F]{4}\n0001 ABCD\n {20}\*\n\(ended with exit code 0, at clock ')

    def test_a_million_lines_end_soon(self) -> None:
        # within five seconds of processor time and 300 MB
        for front, line, refusal in LARGE:
            with self.subTest(line=line):
                path = self.file('it.asm', front + '\n'.join(line.format(number) for number in range(MILLION)))
                shell = ['sh', '-c', 'ulimit -v 300000; ulimit -t 5; exec "$0" --masm "$1"', program_path('pcmasm'), path]
                done = subprocess.run(shell, capture_output=True, text=True, check=False)
                self.assertEqual((done.returncode, done.stdout, done.stderr), (1, '', f'it.asm:{refusal}\n'))

    def test_random_instructions_have_nasms_bytes(self) -> None:
        if not is_there('nasm', 'pcmasm beside nasm', 'nasm'):
            return
        maker = Maker(SEED)
        pairs = [maker.made() for _ in range(9 * COUNT)]
        path = self.file('here.asm', self.translated('.MODEL TINY\n.CODE\nORG 100h\nhere:\n' + ''.join(f'{masm}\n' for masm, _ in pairs) + 'END here\n'))
        listing = self.pcboard('asm', path, '--list')
        self.assertEqual((listing.returncode, listing.stderr), (0, ''))
        ours = [line[10:28].strip() for line in listing.stdout.splitlines() if line[:4].strip()]
        there = self.file('there.asm', 'cpu 8086\norg 100h\nhere:\n' + ''.join(f'{nasm}\n' for _, nasm in pairs))
        subprocess.run(['nasm', '-f', 'bin', '-l', f'{self.room}/it.lst', '-o', f'{self.room}/it.bin', there], check=True)
        rows = re.findall(r'^ *\d+ [0-9A-F]{8} ([0-9A-F]+)(?: +.*)?$', pathlib.Path(f'{self.room}/it.lst').read_text(encoding='ascii'), re.M)
        self.assertEqual([pair for pair, mine, theirs in zip(pairs, ours, rows, strict=True) if mine != theirs], [])


if __name__ == '__main__':
    unittest.main()
