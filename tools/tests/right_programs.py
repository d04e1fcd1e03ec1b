"""Random programs that meet their page, of which no tool may say that they are wrong. By hand: python3 -m tests.right_programs 1000 [SEED].
A program is of parts, each of which prints letters that are known beforehand; what a part is of, is its form."""
from __future__ import annotations

import contextlib
import os
import random
import sys
import tempfile
from collections import Counter
from dataclasses import dataclass, field
from typing import Callable, Iterator

from tests.support import RESET

from toolbox.expectations import Subject, page_of
from toolbox.asking import lines_of
from toolbox.command import waiting
from toolbox.guests import Guest, prepared
from toolbox.nowhere import told_of_run
from toolbox.program import Files, answer_of
from toolbox.report import report_of
from toolbox.runfile import DEFAULTS, text_of

BUDGET, SERVED_BUDGET, FIRST_SEED = 400_000, 900_000, 20_000
FORMS = ('C-like', 'tasks', 'strings', 'patching', 'jumps', 'specific ends', 'plain ends', 'INT 20h', '4Ch', '00h', 'RET')
LETTERS = 'ABCDEFGHIKLMNOPRSTUVWXYZ'


@dataclass
class Program:
    """A program, what it prints, its keys, and its forms."""

    seed: int
    text: str
    shows: str
    keys: list[list[int]]
    is_served: bool
    forms: set[str]

    @contextlib.contextmanager
    def files(self, room: str) -> Iterator[Files]:
        """It as files in a folder."""
        source, run = f'{room}/{self.seed}.asm', f'{room}/{self.seed}.json'
        fields = DEFAULTS | {'keys': self.keys, 'budget': SERVED_BUDGET if self.is_served else BUDGET}
        for path, text in ((source, self.text), (run, text_of(fields)), (f'{room}/page', f'shows = {self.shows}\n')):
            with open(path, 'w', encoding='ascii') as file:
                file.write(text)
        if not self.is_served:
            yield Files(source, run)
            return
        with prepared(Guest(source, None, True), Files(source, ''), {'keys': self.keys, 'budget': SERVED_BUDGET}) as files:
            yield files


@dataclass
class Writing:
    """A program that is being written: its main line, what is called, its data, and the vectors that it sets."""

    random: random.Random
    is_served: bool
    main: list[str] = field(default_factory=list)
    called: list[str] = field(default_factory=list)
    data: list[str] = field(default_factory=list)
    vectors: dict[int, str] = field(default_factory=dict)
    shows: str = ''
    forms: set[str] = field(default_factory=set)
    counted: int = 0
    has_interrupts: bool = False

    def name(self, stem: str) -> str:
        """A name that no other line has."""
        self.counted += 1
        return f'{stem}{self.counted}'

    def add(self, lines: str, **names: object) -> None:
        """Lines of the main line."""
        self.main += lines.format(**names).strip('\n').split('\n')

    def below(self, lines: str, **names: object) -> None:
        """Lines behind the program's end."""
        self.called += lines.format(**names).strip('\n').split('\n')

    def letters(self, most: int = 5) -> str:
        """A few letters, which the program is to print."""
        found = ''.join(self.random.choices(LETTERS, k=self.random.randint(1, most)))
        self.shows += found
        return found

    def letter(self, last: str = LETTERS[-1]) -> str:
        """One letter."""
        self.shows += self.random.choice([one for one in LETTERS if one <= last])
        return self.shows[-1]

    def maybe(self) -> bool:
        """Yes or no."""
        return self.random.random() < 0.5


STRINGS = (
    '{f}: POP SI\n{g}: LODSB\n OR AL,AL\n JZ {h}\n CALL put\n JMP {g}\n{h}: PUSH SI\n RET',
    '{f}: POP SI\n{g}: MOV AL,[SI]\n INC SI\n CMP AL,0\n JE {h}\n CALL put\n JMP SHORT {g}\n{h}: JMP SI',
    '{f}: PUSH BP\n MOV BP,SP\n PUSH AX\n MOV SI,[BP+2]\n{g}: LODSB\n CMP AL,0\n JZ {h}\n CALL put\n JMP {g}\n{h}: MOV [BP+2],SI\n POP AX\n POP BP\n RET',
    '{f}: POP SI\n PUSH AX\n PUSH SI\n{g}: LODSB\n TEST AL,AL\n JZ {h}\n CALL put\n JMP {g}\n{h}: ADD SP,2\n POP AX\n PUSH CS\n PUSH SI\n RETF',
)


def strings(to: Writing) -> None:
    """A text behind a CALL, which the routine goes through, and returns behind it."""
    f, g, h = to.name('print'), to.name('next'), to.name('done')
    to.below(to.random.choice(STRINGS), f=f, g=g, h=h)
    for _ in range(to.random.randint(1, 3)):
        to.add(" CALL {f}\n DB '{text}',0", f=f, text=to.letters())


def patching(to: Writing) -> None:
    """Code that changes itself, or is copied."""
    p, q, r = to.name('patch'), to.name('other'), to.name('room')
    times, letter, kind = to.random.randint(1, 6), to.letter('R'), to.random.randrange(5)
    to.shows = to.shows[:-1] + chr(ord(letter) + times) if kind in (0, 1) else to.shows
    if kind == 0:
        to.add(" MOV CX,{n}\n{q}: INC BYTE [{p}+1]\n LOOP {q}\n{p}: MOV AL,'{x}'\n CALL put", n=times, p=p, q=q, x=letter)
    elif kind == 1:
        to.add(" MOV BYTE [{p}+1],{n}\n MOV AL,'{x}'\n{p}: ADD AL,0\n CALL put\n MOV BYTE [{p}+1],0", n=times, p=p, x=letter)
    elif kind == 2:
        to.add(" MOV BYTE [{p}+1],{q}-{p}-2\n{p}: JMP SHORT {p}\n HLT\n{q}: MOV AL,'{x}'\n CALL put", p=p, q=q, x=letter)
    elif kind == 3:
        to.add(" MOV BYTE [{p}],0Fh\n MOV BYTE [{p}],90h\n MOV AL,'{x}'\n{p}: NOP\n CALL put\n MOV BYTE [{p}],0F4h", p=p, x=letter)
    else:
        to.add(' MOV SI,{q}\n MOV BX,{r}\n MOV CX,4\n{p}: MOV AL,[SI]\n MOV [BX],AL\n INC SI\n INC BX\n LOOP {p}\n CALL {r}\n CALL put', p=p, q=q, r=r)
        to.data += [f"{q}: MOV AL,'{letter}'\n RET\n NOP", f'{r}: DB 4 DUP(0)']


JUMPS = (
    ' MOV AX,{a}\n PUSH AX\n RET\n HLT\n{a}: ',
    ' PUSH CS\n MOV AX,{a}\n PUSH AX\n RETF\n HLT\n NOP\n{a}: ',
    ' PUSHF\n PUSH CS\n MOV AX,{a}\n PUSH AX\n IRET\n HLT\n{a}: ',
    ' CALL {b}\n HLT\n{b}: ADD SP,2\n{a}: ',
    ' CALL {b}\n DW {a}\n NOP\n{b}: POP BX\n PUSH CS:[BX]\n RET\n{a}: ',
    ' MOV BX,{b}\n ADD BX,2\n JMP [BX]\n{b}: DW 0,{a}\n{a}: ',
    ' MOV BX,{b}\n PUSH [BX]\n RET\n{b}: DW {a}+1\n{a}: NOP\n',
    ' CALL FAR 0:{b}+{base}\n JMP SHORT {a}\n{b}: CALL {c}\n RETF\n{c}: RET\n{a}: ',
    ' MOV BX,1\n CALL CS:[BX+{b}-1]\n JMP SHORT {a}\n{b}: DW {c}\n{c}: RET\n{a}: ',
)


def jumps(to: Writing) -> None:
    """PUSH and RET as a jump, and addresses that are dropped or skipped."""
    names = {one: to.name(stem) for one, stem in (('a', 'there'), ('b', 'where'), ('c', 'then'))}
    to.add(to.random.choice(JUMPS) + " MOV AL,'{x}'\n CALL put", x=to.letter(), base='1000h' if to.is_served else '500h', **names)


C_LIKE = (
    '{f}: PUSH BP\n MOV BP,SP\n SUB SP,2\n MOV AX,[BP+4]\n MOV [BP-2],AX\n CMP WORD [BP-2],1\n JBE {g}\n DEC AX\n PUSH AX\n CALL {f}\n ADD SP,2\n'
    ' ADD AX,[BP-2]\n JMP SHORT {h}\n{g}: MOV AX,[BP-2]\n{h}: MOV SP,BP\n POP BP\n RET',
    '{f}: PUSH BP\n MOV BP,SP\n PUSH SI\n PUSH CX\n MOV CX,[BP+4]\n XOR AX,AX\n{g}: ADD AX,CX\n LOOP {g}\n{h}: POP CX\n POP SI\n POP BP\n RET',
)


def c_like(to: Writing) -> None:
    """A function with a frame, which may call itself, while interrupts come; it prints a letter of its sum."""
    f, g, h, n = to.name('sum'), to.name('more'), to.name('last'), to.random.randint(1, 6)
    letter = chr(ord('A') + n * (n + 1) // 2)
    to.below(to.random.choice(C_LIKE), f=f, g=g, h=h)
    to.add(" MOV AX,{n}\n PUSH AX\n CALL {f}\n ADD SP,2\n ADD AL,'A'\n CALL put", n=n, f=f)
    to.shows += letter
    if to.has_interrupts:
        to.forms.add('C-like')
        wait = ' HLT\n' if to.maybe() else ''
        again = to.name('again')
        to.add(' MOV AX,[ticks]\n ADD AX,{n}\n{a}: ' + wait + ' CMP [ticks],AX\n JS {a}', n=1 if to.is_served else to.random.randint(1, 4), a=again)


def tasks(to: Writing) -> None:
    """Two tasks, each with a stack. The second begins by POPs and IRET, or by RET, off a frame that stands ready or is made."""
    y, t, o, p, times = to.name('yield'), to.name('task'), to.name('other'), to.name('begins'), to.random.randint(1, 4)
    first, second = to.random.choices(LETTERS, k=2)
    flags = '0F202h' if to.has_interrupts else '0F002h'
    to.data.append(f' DW 40 DUP(0)\n{p}: DW 1,2\n DW {t},SEG {t},{flags}\n{o}: DW {p}')
    if to.maybe():
        to.below('{y}: PUSH AX\n PUSH BX\n XCHG SP,[{o}]\n POP BX\n POP AX\n IRET', y=y, o=o)
        call = f' PUSHF\n PUSH CS\n CALL {y}'
    else:
        to.data[-1] = f' DW 40 DUP(0)\n{p}: DW {t}\n{o}: DW {p}'
        to.below('{y}: MOV CX,[{o}]\n MOV [{o}],SP\n MOV SP,CX\n RET', y=y, o=o)
        call = f' CALL {y}'
    to.below("{t}: MOV AL,'{x}'\n CALL put\n{call}\n JMP SHORT {t}", t=t, x=second, call=call)
    for _ in range(times):
        to.add(" MOV AL,'{x}'\n CALL put\n{call}", x=first, call=call)
        to.shows += first + second


def first_task(to: Writing) -> None:
    """The program begins with a task whose frame stands ready: POPs and IRET, as kernels do."""
    p, t = to.name('ready'), to.name('first')
    to.add(' MOV SP,{p}\n POP AX\n POP BX\n IRET\n{t}:  MOV SP,top', p=p, t=t)
    to.data.append(f' DW 20 DUP(0)\n{p}: DW 7,8\n DW {t},SEG {t},0F002h')


KEYBOARD = ' MOV AL,99h\n OUT 63h,AL\n MOV AL,0CCh\n OUT 61h,AL\n MOV AL,4Ch\n OUT 61h,AL\n'
HANDLERS = '{sti}PUSH AX\n PUSH CX\n{early} IN AL,60h\n MOV AL,0CCh\n OUT 61h,AL\n MOV AL,4Ch\n OUT 61h,AL\n{late} MOV CX,{n}\n{d}: LOOP {d}\n INC WORD [strokes]\n{end} POP CX\n POP AX\n IRET'


def interrupts(to: Writing) -> list[list[int]]:
    """Timer and keyboard, whose handlers may be interrupted, with ends of interrupt that name their level, that don't, or by itself.
    Some keys come at any time, the last ones at the run's end."""
    pick, is_specific, by_itself = to.random, to.maybe(), to.random.random() < 0.1
    to.has_interrupts = True
    to.forms.add('specific ends' if is_specific else 'plain ends')
    ends = ['' if by_itself else f' MOV AL,{0x60 + level if is_specific else 0x20}\n OUT 20h,AL\n' for level in (0, 1)]
    at = pick.randrange(3)
    sti = 'STI\n ' if to.maybe() else ''
    late = ends[1] + (' STI\n' if to.maybe() else '') if at == 1 else ''
    key = HANDLERS.format(
        sti=sti if at else '', early=ends[1] if at == 0 else '', late=late, end=ends[1] if at == 2 else '', n=pick.randint(1, 200), d=to.name('slow')
    )
    tick = to.name('tick')
    to.below('{t}: PUSH AX\n INC WORD CS:[ticks]\n{sti}{end} POP AX\n IRET', t=tick, sti=' STI\n' if to.maybe() and not by_itself else '', end=ends[0])
    to.below('key: {key}', key=key)
    to.vectors |= {0x20: tick, 0x24: 'key'}
    to.data.append('ticks: DW 0\nstrokes: DW 0')
    to.add(
        ' MOV AL,{m}\n OUT 43h,AL\n MOV AL,{low}\n OUT 40h,AL\n MOV AL,{high}\n OUT 40h,AL',
        m=pick.choice((0x34, 0x36)),
        low=pick.randrange(256),
        high=pick.randint(2, 9),
    )
    to.add(
        KEYBOARD + ' MOV AL,13h\n OUT 20h,AL\n MOV AL,8\n OUT 21h,AL\n MOV AL,{mode}\n OUT 21h,AL\n MOV AL,0FCh\n OUT 21h,AL\n STI', mode=3 if by_itself else 1
    )
    stamps = sorted(pick.randrange(5000, BUDGET) for _ in range(pick.randint(0, 6)))
    stamps += sorted(BUDGET - pick.randrange(1, 9000) for _ in range(pick.randint(0, 3)))
    return [[stamp, 30 + 128 * (at % 2)] for at, stamp in enumerate(sorted(stamps))]


ENDS = (' CLI\n HLT', '{a}: HLT\n JMP SHORT {a}', ' CLI\n{a}: HLT\n JMP {a}', '{a}: CLI\n HLT\n JMP SHORT {a}', '{a}: JMP {a}', '{a}: NOP\n JMP SHORT {a}')
EXITS = {'INT 20h': ' INT 20h', '4Ch': ' MOV AX,4C00h\n INT 21h', '00h': ' MOV AH,0\n INT 21h', 'RET': ' RET'}
PUTS = (
    'put: PUSH AX\n PUSH DX\n MOV DL,AL\n MOV AH,2\n INT 21h\n POP DX\n POP AX\n RET',
    'put: PUSH AX\n PUSH BX\n MOV AH,0Eh\n MOV BX,7\n INT 10h\n POP BX\n POP AX\n RET',
)
HEAD = ' MOV AX,CS\n MOV DS,AX\n MOV SS,AX\n MOV SP,top\n MOV AX,0B000h\n MOV ES,AX\n MOV DX,3B8h\n MOV AL,9\n OUT DX,AL\n CLD\n MOV DI,0'
PARTS: tuple[tuple[str, Callable[[Writing], None]], ...] = (
    ('', c_like),
    ('tasks', tasks),
    ('strings', strings),
    ('patching', patching),
    ('jumps', jumps),
)


def add_parts(to: Writing, among: tuple[tuple[str, Callable[[Writing], None]], ...]) -> None:
    """One to four parts."""
    for form, part in to.random.sample(among, to.random.randint(1, min(4, len(among)))):
        part(to)
        to.forms |= {form} - {''}


def bare(to: Writing) -> tuple[str, list[list[int]]]:
    """A program for the board alone."""
    to.add(HEAD)
    if to.random.random() < 0.3:
        first_task(to)
        to.forms.add('tasks')
    keys = interrupts(to) if to.random.random() < 0.8 else [[9000, 30], [12000, 158]] if to.maybe() else []
    add_parts(to, PARTS)
    to.add(to.random.choice(ENDS), a=to.name('end'))
    to.below('put: MOV AH,7\n STOSW\n RET')
    vectors = ''.join(f' ORG {at:X}h\n DW {name},SEG {name}\n' for at, name in sorted(to.vectors.items()))
    vectors = f'ENDS\nSEGMENT VECTORS AT 0\n{vectors}' if vectors else ''
    rest = '\n'.join([*to.called, *to.data])
    return 'SEGMENT MAIN AT 50h\nstart:\n{}\n{}\n DW 64 DUP(0)\ntop:\n{}{}'.format('\n'.join(to.main), rest, vectors, RESET), keys


def served(to: Writing, form: str) -> tuple[str, list[list[int]]]:
    """A .COM program that ends so. Some keys are never read."""
    to.has_interrupts = to.maybe()
    if to.has_interrupts:
        to.data.append('ticks: DW 0')
        tick = to.name('tick')
        to.below('{t}: INC WORD CS:[ticks]\n IRET', t=tick)
        to.add(' MOV AX,251Ch\n MOV DX,{t}\n INT 21h', t=tick)
    add_parts(to, tuple(one for one in PARTS if one[1] is not tasks or not to.has_interrupts))
    to.forms.add(form)
    to.add(EXITS[form])
    to.below(to.random.choice(PUTS))
    keys = [[200_000 + 20_000 * at, 30 + 128 * (at % 2)] for at in range(to.random.choice((0, 0, 1, 4, 40)))]
    return 'SEGMENT MAIN AT 100h\n ORG 100h\nstart:\n{}\n{}\nENDS\n'.format('\n'.join(to.main), '\n'.join([*to.called, *to.data])), keys


def program_of(seed: int) -> Program:
    """The program of a seed."""
    pick = random.Random(seed)
    to = Writing(pick, seed % 2 == 1)
    text, keys = served(to, tuple(EXITS)[seed // 2 % len(EXITS)]) if to.is_served else bare(to)
    return Program(seed, text, to.shows, keys, to.is_served, to.forms)


def unmarked(lines: list[str]) -> list[str]:
    """The sentences that aren't said to be guesses."""
    return [line for line in lines if not line.startswith(('perhaps', '  ', 'hint: ', 'nothing leads out but'))]


def told_of(program: Program, room: str) -> list[str]:
    """What is told of a program, once it has met its page."""
    with program.files(room) as files:
        report = report_of(answer_of(files.words('run')))
        for expectation in page_of(f'{room}/page')[0].expectations:
            outcome = expectation.outcome(Subject(report, files))
            if outcome.but is not None:
                return [f"it doesn't meet its page: {expectation.said()}: {outcome.but}"]
        return lines_of(told_of_run(report, files))


def tried(seeds: range) -> tuple[Counter[str], dict[int, list[str]], int]:
    """How many programs have each form, what was told of which, and of how many there were guesses."""
    forms, wrong, guesses = Counter[str](), dict[int, list[str]](), 0
    with tempfile.TemporaryDirectory() as room, waiting('right programs: trying them') as say:
        for seed in seeds:
            say(f'at seed {seed}')
            program = program_of(seed)
            forms.update(program.forms)
            lines = told_of(program, room)
            guesses += bool(lines)
            if unmarked(lines):
                wrong[seed] = unmarked(lines)
                print(f'seed {seed}:', *wrong[seed], sep='\n  ', flush=True)
    return forms, wrong, guesses


def main(words: list[str]) -> int:
    """Tries so many programs from a seed on."""
    count, first = int(words[0]), int(words[1]) if len(words) > 1 else FIRST_SEED
    forms, wrong, guesses = tried(range(first, first + count))
    print(f'seeds {first} to {first + count - 1}: {len(wrong)} accused, {guesses} with a guess;', ', '.join(f'{form} {forms[form]}' for form in FORMS))
    return 1 if wrong or min(forms[form] for form in FORMS) * 10 < count else 0


if __name__ == '__main__':
    os.nice(5)
    sys.exit(main(sys.argv[1:]))
