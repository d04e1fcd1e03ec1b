"""on_unicorn.py FILE: runs a COM file on Unicorn's processor up to a halt, and tells whether that is its last byte."""
import os
import sys

BEGIN = 0x10100
TOP = os.path.dirname(os.path.dirname(os.path.dirname(os.path.realpath(__file__))))
sys.path[:0] = [f'{TOP}/{folder}' for folder in ('tools', 'dev')]

from parts.outside import unicorn
from toolbox.command import Sorry, start


def main(words: list[str]) -> int:
    library = unicorn.loaded()
    if library is None:
        raise Sorry(f"Unicorn isn't there: {unicorn.PACKAGE}")
    with open(words[0], 'rb') as file:
        code = file.read()
    with unicorn.processor(library) as machine:
        machine.write(BEGIN, code)
        for name, value in (*((segment, 0x1000) for segment in ('CS', 'DS', 'ES', 'SS')), ('IP', 0x100), ('SP', 0xFFFE)):
            machine.put(name, value)
        due = machine.go()
        place = 16 * machine.get('CS') + machine.get('IP')
    print('halted at its end' if due == unicorn.NO_INTERRUPT and place == BEGIN + len(code) else f'ended at {place:05X}h')
    return 0


if __name__ == '__main__':
    start(main)
