"""What tools/why says of lines that other assemblers and languages would take: what the line means, and what to write."""
from __future__ import annotations

import unittest

from tests.support import ToolCase

from toolbox.every import refused_lines
from toolbox.hints import hint_of

# Each line, and a part of its hint that says what to write, or what it is.
LINES = {
    'len EQU $-msg': 'MOV CX,end-msg',
    'x EQU $': 'numbers and of constants',
    'len = 12': 'name EQU 5',
    'x: RESB 5': 'DB 16 DUP(0)',
    'x: DB 5 DUP 0': 'DB 5 DUP(0)',
    'DW 64 DUP ?': 'in parentheses',
    'x: TIMES 5 DB 0': 'DB 4 DUP(0)',
    '[bits 16]': 'leave the line out',
    'MOV AX,#5': 'numbers stand plain',
    'MOV AX,=5': 'numbers stand plain',
    'MOV AX,$5': 'numbers stand plain',
    'MOV AX,$B8': '0B8h for $B8',
    'movw $5,%ax': 'the result first',
    'MOV %ax,%bx': 'registers stand plain',
    "%include 'a.inc'": 'no preprocessor',
    '%define x 5': 'no preprocessor',
    '#include <stdio.h>': 'no preprocessor',
    'MACRO': 'no preprocessor',
    'MOV AX,5 // five': 'a comment begins with ;',
    'MOV AX,5 # five': 'a comment begins with ;',
    '# (a) print a string': 'a comment begins with ;',
    'MUL AX,5': 'one operand, beside AL or AX',
    'DIV AX,BX': 'one operand, beside AL or AX',
    'PUSH AL': 'PUSH AX',
    'INC ticks': 'INC BYTE [ticks]',
    'INC AX,1': 'INC takes one operand',
    'ROL BX': 'ROL BX,1',
    'SAL AL': 'by CL',
    'JMP 0FFFFh:0': 'JMP FAR 0FFFFh:0',
    'CALL FAR BX': 'FAR [BX]',
    "x: DB 'It''s'": "'It',39,'s'",
    "x: DB 'a": 'ends with a quote',
    'MOV BYTE AL,5': 'a register has its size',
    'DEC BYTE BX': 'a register has its size',
    'MOV BYTE [x] 5': 'a comma',
    'MOV AX [BX]': 'a comma',
    'JMP [BX': 'a bracket is missing',
    'IF AL < 2': 'CMP AL,2 and JB label',
    'while AX < 5': 'CMP AL,2 and JB label',
    'for i in range(5):': 'LOOP label',
    "print 'a'": 'CALL a procedure',
    'CALL a.b': 'letters, digits and _ alone',
    'MOV AL,+': "'+'",
    'SI++': 'INC SI',
    'LD A,5': 'MOV AL,5',
    'MOV AX,&x': 'its offset',
    'MOV AX,SEGMENT go': 'SEG label',
    'MOV AX,es:bx': 'ES:[BX]',
    'MOV ES:AX,5': 'ES:[BX]',
    'MOV IP,5': 'jumps, calls and returns',
    'IN BL,60h': 'data go through AL or AX: IN AL,60h',
    'OUT 20h,BL': 'MOV AL,20h and OUT 20h,AL',
    'OUT 20h,20h': 'MOV AL,20h and OUT 20h,AL',
    'LOOP CX': 'counts CX by itself',
    'LDS SI,go': 'LDS SI,[pointer]',
    'INT AX': 'INT 21h',
    'RET AX': 'RET 2',
    'JECXZ go': 'JCXZ',
    'INS': 'later processors',
    'NOP NOP': 'one instruction a line',
    'STI CLI': 'one instruction a line',
    'go2: go3: NOP': 'one label a line',
    'ORG': 'ORG 100h',
    'ENDS MAIN': 'ENDS stands alone',
    'LOCK': 'REP MOVSB',
    'JC': 'JC label',
    'MOV': 'two operands',
    'MOV AX': 'MOV AX,5',
    'ADD AX,5,6': 'two operands',
    'CMP AX,[BX],5': 'two operands',
    'XCHG AX': 'XCHG AX,BX',
    'NEG': 'NEG AX',
    'INT': 'INT 21h',
    'CBW AX': 'no operand',
    'HLT 5': 'no operand',
    'WAIT 5': 'no operand',
    'INTO 4': 'no operand',
    'AAM 16': 'no operand',
    '.model small': "MASM's",
    '.stack 100h': "MASM's",
    '.data': "MASM's",
    '.code': "MASM's",
    # What had a right hint keeps it.
    'MOV AX,FFh': '0FFh for FFh',
    'MOV AX,B800': 'ends with h: 0B800h',
    'MOV AX,msg[SI]': '[msg+SI] for msg[SI]',
    'IN AL,3B8h': 'MOV DX,3B8h',
    'LEA AX,go': 'LEA AX,[go]',
    'SHL AX,2': 'MOV CL,4',
    'INC 5': 'no number',
    'x DB 5': 'x: DB',
    'CALL sub': 'sub_1',
}


class Habits(ToolCase):
    """Over the built program, which refuses each of them."""

    def test_each_line_has_its_hint(self) -> None:
        for line, wanted in LINES.items():
            path = self.file('it.asm', f'SEGMENT MAIN AT 50h\ngo: NOP\n {line}\ntable: DB 5\nENDS\n')
            with open(path, encoding='utf-8') as file:
                source = file.read().split('\n')
            fault, _ = next(refused_lines(path, False))
            self.assertEqual(fault.line, 3, line)
            self.assertIn(wanted, hint_of(source[2], fault.number, source) or '', line)

    def test_a_line_outside_a_segment(self) -> None:
        self.assertIn('SEGMENT MAIN AT 50h', hint_of(' MOV CX,5', 11, [' MOV CX,5']) or '')


if __name__ == '__main__':
    unittest.main()
