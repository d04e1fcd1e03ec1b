"""Why the program refuses something, or a run went nowhere, as a user is told: the file, the line itself, what it means and what to
write."""
from __future__ import annotations

import json
import os
import re
from typing import Any, Optional

from zebludor import RANGES as FIELD_RANGES

from toolbox import limits, program, reading
from toolbox.command import handed_on, tool, waiting
from toolbox.faults import Fault, fault_in
from toolbox.asking import how
from toolbox.intel_hex import image_of
from toolbox.nowhere import told_of_run
from toolbox.report import Report
from toolbox.runfile import CHOICES, DEFAULTS, FIRST_CHOICES
from toolbox.shown import LONGEST_LINE, bounded, clipped

FIRST_LOST = 0xA0000
RANGES: dict[str, tuple[int, Optional[int]]] = FIELD_RANGES | {'budget': (0, None)}  # of a larger one another fault tells
TASKS = {'run': 2, 'asm': 1, 'debug': 2}


class Written(float):
    """A number that a run file may not have: with a sign, point or exponent."""


def lines_of(path: str) -> list[str]:
    """A file's lines, or none where it can't be read."""
    try:
        octets = reading.read_whole(path)
    except OSError:
        return []
    return [line.decode('utf-8', 'replace').rstrip('\r') for line in octets.split(b'\n')]


def of_a_line(path: str, fault: Fault) -> list[str]:
    """The refused line itself, and a hint by its look."""
    lines = lines_of(path)
    if not fault.line or not 1 <= fault.line <= len(lines):
        return []
    from toolbox.hints import hint_of  # which takes long to load, and few runs need

    text = lines[fault.line - 1]
    sentences = [f'  {fault.line:5} | {seen(text)}']
    hint = hint_of(text, fault.number, lines) if fault.kind.of == 'source' else of_a_record(text, fault.number)
    sentences += earlier(lines, fault) + ([f'hint: {hint}'] if hint else [])
    return sentences


def seen(text: str) -> str:
    """A line as a terminal may show it: other characters as escapes, and no more than its beginning."""
    shown = ''.join(sign if sign.isprintable() or sign == '\t' else sign.encode('unicode_escape').decode('ascii') for sign in text)
    return clipped(shown, LONGEST_LINE)


def earlier(lines: list[str], fault: Fault) -> list[str]:
    """The line that defines a name first, where it is defined twice."""
    from toolbox.messages import TWICE_DEFINED, first_definition

    first = first_definition(lines, fault.line) if fault.line and fault.number == TWICE_DEFINED else None
    return [f'  {first:5} | {seen(lines[first - 1])}   <- and here first'] if first else []


def of_a_record(text: str, number: int) -> Optional[str]:
    """A hint for a line of Intel HEX."""
    try:
        octets = bytes.fromhex(text.strip().removeprefix(':'))
    except ValueError:
        return 'a record is a colon and pairs of hexadecimal digits; is FILE a source, or a flat binary file?'
    if number == 22 and octets:
        return f'the last byte should be {-sum(octets[:-1]) % 256:02X} and is {octets[-1]:02X}, if the others are right'
    if number == 21 and octets and len(octets) != octets[0] + 5:
        return f'the record says {octets[0]} bytes of data and has {len(octets) - 5}'
    if number == 26:
        return 'RAM can be loaded below A0000h, ROM from F0000h on; srec_cat moves a file by -offset'
    return None


def signed(text: str) -> Any:
    """An integer of JSON; the board takes none with a sign."""
    return Written(text) if text.startswith('-') else int(text)


def no_number(text: str) -> Any:
    """NaN and Infinity, which Python reads and JSON hasn't."""
    raise ValueError(f'{text} is no number of JSON')


def fields_of(path: str) -> Any:
    """A run file's value, with numbers that the board doesn't take marked."""
    text = reading.read_whole(path).decode('utf-8')
    return json.loads(text, parse_int=signed, parse_float=Written, parse_constant=no_number)


def bad_fields(fields: Any) -> list[str]:
    """Each field of a run file that isn't as docs/formats.md has it."""
    if not isinstance(fields, dict):
        return ['a run file is one JSON object: {"version":1, ..}']
    version = fields.get('version', 2 if CHOICES.keys() & fields.keys() else 1)
    wanted = DEFAULTS | ({'version': 2} | FIRST_CHOICES if version == 2 else {})
    sentences = [f'the field "{name}" is missing; "{name}":{json.dumps(value)} would do' for name, value in wanted.items() if name not in fields]
    sentences += [f'the field {json.dumps(name)} is unknown' for name in fields if name not in DEFAULTS | CHOICES]
    for name, (least, most) in RANGES.items():
        sentences += bad_number(f'"{name}"', fields[name], least, most) if name in fields else []
    return sentences + bad_choices(fields) + bad_keys(fields.get('keys', []))


def bad_choices(fields: dict[str, Any]) -> list[str]:
    """Each of `timer` and `clocks` that its version hasn't, or that is none of its words."""
    named = [name for name in CHOICES if name in fields]
    if fields.get('version') == 1:
        return [f'version 1 has no field "{name}": write "version":2, which wants "timer" and "clocks"' for name in named]
    return [
        f'"{name}" is {json.dumps(fields[name])}, and has to be {" or ".join(map(json.dumps, CHOICES[name]))}'
        for name in named
        if fields[name] not in CHOICES[name]
    ]


def bad_number(name: str, value: Any, least: int, most: Optional[int]) -> list[str]:
    """Why a value is no number from least to most."""
    wanted = f'{least} to {most:,}' if most is not None else f'{least} or more'
    wanted = f'{least} or {most}' if least + 1 == most else wanted
    if isinstance(value, Written):
        return [f'{name} is written with a sign, a point or an exponent; write plain digits, {wanted}']
    if isinstance(value, bool) or not isinstance(value, int):
        return [f'{name} is {json.dumps(value)}, and no number ({wanted})']
    if value < least or most is not None and value > most:
        return [f'{name} is {value}, and has to be {wanted}']
    return []


def bad_keys(keys: Any) -> list[str]:
    """Each entry of `keys` that isn't [stamp, code]."""
    if not isinstance(keys, list):
        return ['"keys" is no list: [[500,35],[700,163]], or []']
    sentences: list[str] = []
    for place, key in enumerate(keys, 1):
        if not isinstance(key, list) or len(key) != 2:
            sentences.append(f'entry {place} of "keys", {json.dumps(key)}, is no [stamp, code]')
        else:
            sentences += bad_number(f'the stamp of entry {place} of "keys"', key[0], 0, program.LAST_CLOCK)
            sentences += bad_number(f'the code of entry {place} of "keys"', key[1], 0, None)
    return sentences


def bad_codes(keys: list[list[int]], number: int) -> list[str]:
    """The entry with no scan code, or the one whose stamp falls."""
    for place, (stamp, code) in enumerate(keys, 1):
        if number == 33 and not (1 <= code <= 83 or 129 <= code <= 211):
            return [
                f'entry {place} of "keys", [{stamp},{code}]: codes are 1 to 83 (down) and 129 to 211 (up, 128 more);' f' {tool("keys")} writes them from a text'
            ]
        if number == 34 and place > 1 and stamp < keys[place - 2][0]:
            return [f'entry {place} of "keys", [{stamp},{code}], comes behind one stamped {keys[place - 2][0]}: sort them']
    return []


def of_a_run_file(path: str, number: int) -> list[str]:
    """What is wrong in a run file, field by field."""
    try:
        fields = fields_of(path)
    except OSError as error:
        return [f"{path} can't be read again: {error.strerror}"]
    except UnicodeDecodeError as error:
        return [f'byte {error.start} is no UTF-8']
    except json.JSONDecodeError as error:
        return [
            f'line {error.lineno}, column {error.colno}: {error.msg}',
            'hint: JSON has double quotes, decimal numbers, no comments and no comma before a closing bracket',
        ]
    except RecursionError:
        return ['its brackets are nested too deep']
    except ValueError as error:
        return [str(error)]
    if number == 32:
        return bad_fields(fields)
    if number == 35:
        return [f'"budget" is {fields["budget"]:,}; the most is {program.LAST_CLOCK:,}']
    return bad_codes(fields['keys'], number) if number in (33, 34) else []


def of_ram(file: str, run_file: str, is_hex: bool) -> list[str]:
    """Whether the RAM's size is none, or the program goes past it."""
    ram = fields_of(run_file)['ram']
    if ram % 16 or not 16 <= ram <= 640:
        return [f'"ram" is {ram}; the board takes 16, 32, 48 and so on to 640']
    text = '\n'.join(lines_of(file)) if is_hex else program.run(['asm', '--', handed_on(file)]).out
    past = [address for address in image_of(text) if ram * 1024 <= address < FIRST_LOST]
    if not past:
        return []
    need = (max(past) // 16384 + 1) * 16
    return [f'"ram" is {ram}, so RAM ends at {ram * 1024 - 1:05X}h, and the program has a byte at {min(past):05X}h:' f' "ram":{need} holds it']


def of_an_opening(paths: list[str]) -> list[str]:
    """Which file can't be opened or read, and why, in the order in which the program reads them."""
    for path in paths:
        try:
            reading.read_whole(path)
        except OSError as error:
            return [f"{path} can't be opened: {error.strerror}"] + similar(path)
    return ['all files can be opened: reading standard input or writing standard output failed']


def similar(path: str) -> list[str]:
    """Other files beside one that can't be opened, with its name but for the ending."""
    folder, name = os.path.split(path)
    stem = name.partition('.')[0].lower()
    try:
        near = sorted(file for file in os.listdir(folder or '.') if file != name and file.lower().partition('.')[0] == stem)
    except OSError:
        return [f'hint: the folder {folder} is not there'] if folder and not os.path.isdir(folder) else []
    return [f'hint: there is {", ".join(os.path.join(folder, file) for file in near)}'] if near else []


def explained(fault: Fault, file: Optional[str], run_file: Optional[str], is_hex: bool) -> list[str]:
    """A fault in a person's words."""
    kind, number = fault.kind, fault.number
    path = run_file if kind.of == 'run file' else file
    where = path or f'the {kind.of}'
    where = where if kind.of not in ('board', 'debugger') else f'the {kind.of}'
    sentences = [f'{where}{f", line {fault.line}" if fault.line else ""}: {kind.meaning} (fault {number}, {kind.name})']
    if kind.of in ('source', 'hex') and file:
        sentences += of_a_line(file, fault)
        sentences += of_json_as_source(file, run_file) if number in (3, 21) else []
    elif kind.of == 'run file' and run_file and kind.name != 'Memory':
        sentences += of_a_run_file(run_file, number)
    elif number == 36 and file and run_file:
        sentences += of_ram(file, run_file, is_hex)
    return bounded(sentences) + (limits.of_memory() if kind.name == 'Memory' else [])


def of_json_as_source(file: str, run_file: Optional[str]) -> list[str]:
    """Two names that were exchanged are easily seen."""
    text = ''.join(lines_of(file)[:1]).strip()
    if text.startswith('{'):
        return ['hint: this is a run file; the source comes first: FILE RUN']
    return ['hint: this is Intel HEX; say --hex'] if re.match(r':[0-9A-F]{10}', text) else []


def of_a_report(report: Report, files: program.Files, tool: str = 'why', shown: program.Files | None = None) -> list[str]:
    """What isn't as most programs want it, as lines; if files are to be shown, under each sentence how they were asked for it."""
    with waiting(f'{tool}: looking at the run'):
        them = told_of_run(report, files)
    return bounded([line for one in them for line in (*one.text.split('\n'), *(how(one, shown) if shown else ()))])


def after_run(words: list[str], status: int, err: str) -> list[str]:
    """The explanation of a run that ended with this status."""
    given = [word for word in words[1:] if word not in ('--hex', '--list', '--')]
    fault = fault_in(err)
    if status < 0:
        return [program.refusal(status, err)]
    if status == 3:
        return of_an_opening(given)
    if status == 2:
        wanted = {'run': 'FILE RUN [--hex]', 'debug': 'FILE RUN [--hex]', 'asm': 'FILE [--list]'}[words[0]]
        return [f'the words are: {words[0]} {wanted}; here are {len(given)} names, {TASKS[words[0]]} are wanted']
    if fault:
        return explained(fault, given[0], given[1] if len(given) > 1 else None, '--hex' in words)
    return ['the program ended without a line; most likely there was no memory for it'] if status == 1 else []
