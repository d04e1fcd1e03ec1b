"""Why a run went nowhere. Each sentence is one of sentences.json, whose `when` says where it is asked for; here is found what may have
been so, by the report, by the trail, and by `events` of the run's first clocks and its last ones, and pcprobe is asked whether it is."""
from __future__ import annotations

import contextlib
import re
from functools import partial
from itertools import takewhile
from typing import Any, Iterator

from toolbox.asking import Raw, Told
from toolbox.chips import Chips, ends_before, of_chips
from toolbox.command import Sorry, tool
from toolbox.doubts import doubts
from toolbox.forms import CALLING, ends_of, ends_with_call, form_of, learn
from toolbox.later import later
from toolbox.listing import Line, Listing, code_of, listing_of, physical
from toolbox.places import Event, event_of, line_at
from toolbox.program import LAST_CLOCK, Files, ProbeSession
from toolbox.report import A_SECOND, COLUMNS, ROWS, Report, registers_of
from toolbox.runfile import read_run_file
from toolbox.scancodes import names
from toolbox.services import left_at, mark_of, ram_end_of
from toolbox.tables import tables
from toolbox.text_memory import TEXT_MEMORY, shown
from toolbox.walk import COLOUR, DATA, REACH, SERVICES, TEXT, Part, Run, done_by, go_to_end, has_pushed, is_for_good, is_short, opcode, statement_of

TRAIL, LONGEST_LOOP, ZEROS, NEAR, SOON, FEW = 32, 8, 4, 32, 40, 8
A_TICK = 300_000  # clocks, and some more, of which one comes in a program that waits
IF, TF, SPACE = 0x200, 0x100, 0x39
PORTS = {0x20, 0x21, 0x40, 0x41, 0x42, 0x60, 0x61, 0x62, 0x3B5, 0x3BA}  # those that answer a read
VECTORS_END = 0x400
BY_FORM = {0x04: 'SI', 0x05: 'DI', 0x07: 'BX'}
LOADS_AL = {0xB0, 0xB8, 0xAC, 0xAD, 0xD7, 0xA0, 0xA1}
INTO, IRET, STRINGS, DF = 0xCE, 0xCF, {0xA4, 0xA5, 0xAA, 0xAB}, 0x400
WITH_SERVICES = f'or let {tool("try")} --services put such calls into ROM (docs/services.md)'
CLAUSES: dict[str, dict[str, str]] = tables('clauses')
ADVICE = CLAUSES['advice']
CALLED = re.compile(r'\bINT\s+(10|16|1A|20|21)h', re.I)


def told_of_run(report: Report, files: Files, listing: Listing | None = None, reach: int = REACH) -> list[Told]:
    """What isn't as most programs want it. A run that is busy for more than `reach` clocks isn't made again, and this is told."""
    with ProbeSession(files) as session, ProbeSession(files) as free:
        if not is_short(free, report.clock, reach):
            text = f'nothing was asked of this run: of {report.clock:,} clocks no more than {reach:,} busy ones are made again'
            return [Told(text)]
        was_at_zero = go_to_end(session, report)
        ram_end = ram_end_of(files)
        served = left_at(session.dump, ram_end)
        trail = [event_of(line) for line in session.answers(['trail'])]
        is_ended = bool(served and served.phase == 2)
        run = Run(report, files, session, free, listing or listing_of(files), trail, ram_end, mark_of(ram_end) if served else 0, is_ended)
        remarks = served.remarks(partial(by_line, run)) if served else []
        found = [one for remark in remarks for one in run.tell('services', remark=remark, address=run.mark - 2)]
        if run.is_ended:
            ends = of_a_division(run) if served and not served.how else of_an_early_end(run)
            return found + of_calls(run) + ends + of_lost_writes(run) + of_the_source(run)
        found += of_calls(run) + of_the_end(run, was_at_zero)
        is_port_told = any(one.name == 'no port' for one in found)
        return found + [one for one in of_the_source(run) if not (is_port_told and one.name == 'unanswered port')] + of_the_chips(run)


def by_line(run: Run, place: tuple[int, int]) -> str:
    """By which line of the source, or at which place, a call was made. INT3 has one byte."""
    line = run.listing.at.get(physical(*place)) or run.listing.at.get(physical(place[0], place[1] + 1))
    return f'by line {line.number} ({code_of(line.text).strip()})' if line else 'at {:04X}:{:04X}'.format(*place)


def of_calls(run: Run) -> list[Told]:
    """Calls that ask for what isn't there, each by the first time that its place made it."""
    if not run.mark:
        return []
    from toolbox.asked_calls import doubtful  # and below following, which few runs need

    found = dict[str, list[Told]]()
    for at, place, says, values in doubtful(run.files, run.end):
        remark = CLAUSES['asked'][says].format(place=by_line(run, place), **values)
        if remark not in found and not (says == 'file' and is_on_disk(run, values['file'])):
            found[remark] = run.tell('asked for', at=at, remark=remark, **values)
    return [one for them in found.values() for one in them]


def is_on_disk(run: Run, path: str) -> bool:
    """Whether a program's disk has a file at the run's end. One that was written over has none."""
    from toolbox import disk  # which few programs use

    with contextlib.suppress(Sorry):
        return re.sub(r'^(.:)?[\\/]?', '', path.upper()) in disk.files_of(run.session.dump, left_at(run.session.dump, run.ram_end))
    return False


def of_the_end(run: Run, was_at_zero: int | None) -> list[Told]:
    """How the run ended, and what led there."""
    at_zero = of_address_zero(run, was_at_zero) if was_at_zero is not None else []
    over = of_code_in_the_stack(run)
    astray = at_zero or of_zeros(run) + ([] if over else of_astray(run))
    is_bad = bool(astray) or run.report.state == 'jammed'
    returns = [] if at_zero else next(filter(None, (of_a_return(run, *step, is_bad) for step in suspicious(run))), [])
    lines = of_a_jam(run, bool(astray + returns + over)) if run.report.state == 'jammed' else of_a_blank(run)
    return lines + over + returns + astray + of_a_halt(run) + of_lost_writes(run) + ([] if at_zero else of_a_loop(run))


def of_a_jam(run: Run, is_led: bool) -> list[Told]:
    """Where the processor jammed, at which bytes, and what ran before; what led there may be told already."""
    segment, offset = run.report.registers['CS'], run.report.registers['IP']
    address = physical(segment, offset)
    octets = run.session.dump(address, 6)
    found = run.tell('jammed', address=address, place=f'{segment:04X}:{offset:04X}', octets=octets.hex(' ').upper())
    if not run.trail:
        call = next(((line, code.strip()) for line, code in run.listing.coded if CALLED.search(code)), None)
        if call:
            return found + run.tell('bare call', line=call[0].number, code=call[1], services=f'{tool("try")} --services')
        reset = "is a ROM's file loaded at its own address?" if run.files.is_hex else 'SEGMENT RESET AT 0FFFFh, JMP FAR start, ENDS'
        return found + run.tell('no reset', instead=reset)
    line = run.listing.at.get(address)
    changed = of_changed_code(run, line, octets) if line else []
    what = later(octets) if line is not None and "'" not in code_of(line.text) or not run.listing.lines else None
    found += changed or (run.tell('later processor', what=what) if what else [])
    found += run.tell('last before', row=text_of(run.trail[-1]))
    is_past = not is_led and octets[:2] == b'\xFF\xFF' and run.region(address) and not run.has(address)
    return found + (run.tell('past the end') if is_past else [])


def text_of(event: Event) -> str:
    """An event as the trail has it."""
    return f'{event.clock} {event.segment:04X}:{event.offset:04X} {event.octets.hex().upper()} {event.text}'.replace('  ', ' ')


def last_change(run: Run, condition: str, before: int | None = None) -> Event | None:
    """What wrote where a stop on writes or changes was met last, at the run's end or before a clock."""
    from toolbox.following import writer_in

    with ProbeSession(run.files) as session:
        session.go_to(run.report.clock if before is None else before)
        session.stop(condition)
        last = writer_in(session.answers(['trail'])) if session.back_to_stop() else None
        return event_of(last) if last else None


def of_changed_code(run: Run, line: Line, octets: bytes) -> list[Told]:
    """What the source placed where other bytes are now, and which instruction changed the first of these last."""
    place = next((n for n, (was, now) in enumerate(zip(line.shown, octets)) if was != now), None)
    if place is None or not line.address:
        return []
    address = physical(*line.address) + place
    last = last_change(run, f'changes {address:05X}')
    values = {'line': line.number, 'code': code_of(line.text).strip(), 'octets': line.shown.hex(' ').upper()}
    return run.tell('changed', last, address=address, value=octets[place], **values) if last else []


def of_a_blank(run: Run) -> list[Told]:
    """Text memory that would be seen, if it were shown."""
    memory = run.session.dump(TEXT_MEMORY, 2 * ROWS * COLUMNS)
    if ''.join(run.report.screen).strip():
        return []
    seen = next((word for word in range(ROWS * COLUMNS) if shown(memory, word) != ' '), None)
    dark = next((word for word in range(ROWS * COLUMNS) if 0x20 < memory[2 * word] <= 0x7E), None)
    at = seen if seen is not None else dark
    if at is None:
        return []
    octets = memory[2 * at : 2 * at + 2]
    values = {'address': TEXT_MEMORY + 2 * at, 'octets': octets.hex(' ').upper()}
    return run.tell('video off', **values) if seen is not None else run.tell('dark', sign=repr(chr(octets[0])), attribute=octets[1], **values)


def of_address_zero(run: Run, clock: int) -> list[Told]:
    """By what the run came to 0000:0000, where 00 00 stands."""
    last = run.trail_at(clock)[-1]
    kind = type_of(last)
    if kind is None:
        return run.tell('to 0000:0000', last, after=clock, advice=ADVICE['return' if done_by(last) == 'return' else 'jump'])
    what = 'has no quotient (the divisor is 0, or the quotient too large), which enters' if is_division(last) else 'enters'
    place = f'{last.segment:04X}:{last.offset:04X}'
    does = f'at {place} interrupt {kind:02X} came' if last.entry is not None else f'{run.place(last)} {what} interrupt {kind:02X}'
    advice = ADVICE.get(f'{kind:02X}', ADVICE['other']).format(services=WITH_SERVICES, vector=4 * kind)
    return run.tell('empty vector', last, after=clock, does=does, kind=kind, vector=4 * kind, advice=advice)


def is_division(event: Event) -> bool:
    """Whether an instruction enters interrupt 0 if it has no quotient."""
    return done_by(event) == 'may-enter' and form_of(event.octets).type == 0


def type_of(event: Event) -> int | None:
    """The type of the interrupt by which an event led to 0000:0000, if it was by one."""
    form, ends_at_zero = form_of(event.octets), (event.offset + len(event.octets)) % 0x10000 == 0 and event.segment == 0
    return event.entry if event.entry is not None or ends_at_zero else form.type


def is_zeros(run: Run, event: Event) -> bool:
    """Whether an instruction was 00 00, and no ADD of the source."""
    return event.octets == b'\0\0' and statement_of(line_at(run.listing, event)) != 'ADD'


def is_outside(run: Run, event: Event) -> bool:
    """Whether an instruction was 00 00, or stood where the program has no byte and no RAM is."""
    return event.entry is None and (is_zeros(run, event) or bool(run.region(event.address)) and not run.has(event.address))


def of_zeros(run: Run) -> list[Told]:
    """Zeros at the trail's end."""
    trail = run.trail
    count = next((n for n, event in enumerate(reversed(trail)) if not is_zeros(run, event)), len(trail))
    return run.tell('zeros', count=count, row=text_of(trail[-1])) if count >= ZEROS else []


def way_out(run: Run) -> tuple[Event, Event] | None:
    """The first step that led out of the program's instructions, as far as the run is looked at, else one by halving."""
    ends_badly = run.report.state == 'jammed' or bool(run.trail and is_outside(run, run.trail[-1]))
    for before, event in run.steps if run.listing.lines else []:
        if event.entry is not None or before.entry is None and not line_at(run.listing, before):
            continue
        is_data = statement_of(run.line_over(event.address)) in DATA
        if is_outside(run, event) or ends_badly and (is_data or not run.has(event.address)):
            return before, event
    return by_halving(run) if run.trail and is_outside(run, run.trail[-1]) else None


def by_halving(run: Run) -> tuple[Event, Event] | None:
    """A step to where no instruction of the program is, where the halves of the run tell."""
    low, high = 0, run.end
    while high - low > 60:
        middle = (low + high) // 2
        trail = run.trail_at(middle)
        low, high = (low, middle) if trail and is_outside(run, trail[-1]) else (middle, high)
    trail = run.trail_at(high)
    return next(((one, two) for one, two in zip(trail, trail[1:]) if not is_outside(run, one) and is_outside(run, two)), None)


def of_astray(run: Run) -> list[Told]:
    """The step that led out of the program's instructions."""
    found = way_out(run)
    if found is None:
        return []
    before, event = found
    to, line = f'{event.segment:04X}:{event.offset:04X}', run.line_over(event.address) if run.has(event.address) else None
    is_jump = before.entry is not None or event.address != physical(before.segment, before.offset + len(before.octets))
    what = f'line {line.number} ({code_of(line.text).strip()}), {to}' if line else f'{to}, where the program has no byte'
    place = run.place(before)
    next_line = f'^{event.clock} start {to} ' if event.clock < run.report.clock else ' jammed$'
    span = min(event.clock, run.report.clock - 1) - before.clock + 1
    advice = '' if before.entry is not None or done_by(before) == 'return' else f'\nhint: {ADVICE["jump"]}'
    how = f'{place} led to {what}' if is_jump else f'behind {place} came {what}'
    return run.tell('astray', before, how=how, span=span, next=Raw(next_line), advice=advice)


def suspicious(run: Run) -> Iterator[tuple[Event, Event]]:
    """Steps of returns of the source to where no CALL and no INT stands before, and of IRETs that no interrupt came before."""
    for part in run.parts[:1]:
        depth = 0
        for event, after in zip(part.events, part.events[1:]):
            depth += done_by(event) == 'enter' or opcode(event) == INTO
            if opcode(event) == IRET:
                depth -= 1
                if depth < 0 and line_at(run.listing, event) and run.is_own(event):
                    yield event, after
                    depth = 0
    returns = [step for step in run.steps if is_return(run, *step)]
    before = [run.session.dump(physical(after.segment, (after.offset - 5) % 0x10000), 5) for _, after in returns]
    learn(end for octets in before for end in ends_of(octets))
    yield from (step for step, octets in zip(returns, before) if not ends_with_call(octets))


def is_return(run: Run, event: Event, after: Event) -> bool:
    """Whether an instruction of the source was a return but IRET, which no interrupt followed."""
    is_one = done_by(event) == 'return' and opcode(event) != IRET
    return is_one and after.entry is None and line_at(run.listing, event) is not None and run.is_own(event)


def of_a_return(run: Run, event: Event, after: Event, ends_badly: bool) -> list[Told]:
    """What a return took: what nothing had written, what an interrupt had pushed, or, if the run ends badly, what something else had."""
    code = opcode(event)
    registers = run.registers(event.clock)
    address = physical(registers['SS'], registers['SP'])
    by = last_change(run, f'when writes={address:X}-{address:X}', event.clock)
    if by is None:
        is_placed = any(run.has(address + at) or address + at in run.image for at in (0, 1))
        return [] if is_placed else run.tell('nothing pushed', event, address=address, last=address + 1, segment=registers['SS'])
    values = {'address': address, 'pushed': by.clock, 'after': by.clock + 1, 'where': text_of(by).split(' ', 1)[1], 'by': run.place(by)}
    if by.entry is not None and code in (0xC3, 0xCB):
        return run.tell('return of an interrupt', event, kind=by.entry, **values)
    to = f'{after.segment:04X}:{after.offset:04X}'
    return run.tell('pushed by', event, to=to, **values) if ends_badly and code != IRET and done_by(by) not in (*CALLING, 'may-enter') else []


def of_a_division(run: Run) -> list[Told]:
    """The division that ended a program."""
    events = run.parts[-1].events if run.parts else []
    last = next((event for event in reversed(events) if is_division(event) and run.is_own(event)), None)
    return run.tell('division', last, span=1) if last else []


def of_an_early_end(run: Run) -> list[Told]:
    """A RET that ended a program, in a routine from which a CALL hasn't returned, or into which the program ran on."""
    own = (event for event in reversed(run.parts[-1].events if run.parts else []) if event.entry is None and run.is_own(event))
    last = next((event for event in own if line_at(run.listing, event)), None)
    if not last or opcode(last) != 0xC3:
        return []
    calls = {target_of(event): event for event in run.firsts if opcode(event) == 0xE8}
    within = max((to for to in calls if to and to[0] == last.segment and to[1] <= last.offset), default=None)
    by = entered(run, within) if within else None
    if not within or not by:
        return []
    label, behind = run.listing.label_before(*within), (by.segment, by.offset + len(by.octets))
    if behind == within:
        return run.tell('ran on', last, label=label, by=run.place(by), call=run.place(calls[within]))
    is_open = opcode(by) == 0xE8 and not run.meets('break %X:%X' % behind, by.clock)
    return run.tell('ended within', last, label=label, by=run.place(by)) if is_open else []


def entered(run: Run, place: tuple[int, int]) -> Event | None:
    """The program's own instruction that began last before that at a place did."""
    with ProbeSession(run.files) as session:
        session.go_to(run.end)
        session.stop('break %X:%X' % place)
        session.back_to_stop()
        end = session.clock
        session.go_to(max(0, end - A_TICK))
        events = Part.of(session.lines(end - session.clock, 'starts')).events
    return next((event for event in reversed(events) if run.is_own(event)), None)


def of_a_halt(run: Run) -> list[Told]:
    """A halt with interrupts off where one seems awaited: a jump back stands behind it, a handler's vector is set, and interrupts were
    never on."""
    registers, last = run.report.registers, run.trail[-1] if run.trail else None
    if not is_for_good(run.report) or not last or done_by(last) != 'halt' or not run.is_whole:
        return []
    code, vectors = run.session.dump(physical(registers['CS'], registers['IP']), 2), run.session.dump(0x20, 0x20)
    back = code[1] - 256 if len(code) == 2 and code[0] == 0xEB else 0
    return run.tell('halted with interrupts off', last) if -NEAR <= back <= -3 and any(vectors) else []


def of_code_in_the_stack(run: Run) -> list[Told]:
    """Instructions of the source just below or at SS:SP over which something was pushed last."""
    registers = run.report.registers
    top = physical(registers['SS'], registers['SP'])
    for address, line in sorted(run.listing.at.items()):
        if not (top - NEAR <= address <= top + 1 and line.shown and address < run.ram_end) or statement_of(line) in (*DATA, ''):
            continue
        if run.session.dump(address, len(line.shown)) == line.shown:
            continue
        by = last_change(run, f'changes {address:05X} {len(line.shown)}')
        if by and has_pushed(by):
            values = {'line': line.number, 'code': code_of(line.text).strip()} | most_pushed(run, by.clock)
            return run.tell('over code', by, address=address, size=len(line.shown), **values)
    return []


def most_pushed(run: Run, clock: int) -> dict[str, object]:
    """Which line had pushed most often by a clock, how often, the row of `counts` that tells so, and what that may mean."""
    most, count, found = 'nothing', 0, ''
    learn(line.shown for line in run.listing.at.values())
    for row in run.at(0).happenings(f'counts {clock + 1}'):
        place, times = row.split()[0], row.split()[-2]
        line = run.listing.at.get(physical(*(int(word, 16) for word in place.split(':')))) if ':' in place else None
        if line and int(times) >= count and (form := form_of(line.shown)).pushes and form.does != 'may-enter':
            most, count, found = f'line {line.number} ({code_of(line.text).strip()})', int(times), row
    advice = CLAUSES['pushed']['many' if count > FEW else 'few'].format(most=most)
    return {'most': most, 'times': f'{count:,}', 'row': found, 'perhaps': advice}


def of_lost_writes(run: Run) -> list[Told]:
    """What is written, or pushed, where it is lost, of each instruction once."""
    found, known = list[Told](), set[tuple[object, ...]]()
    is_over = is_for_good(run.report) or run.report.state == 'jammed'
    for part in run.parts:
        for at, address, _ in part.writes:
            event, wrong = part.events[at] if at >= 0 else None, run.region(address)
            if not event or not wrong or event[1:] in known or not (is_over or run.all_firsts[event[1:]] is event) or not run.is_own(event):
                continue
            if run.listing.lines and event.entry is None and not run.has(event.address):
                continue
            known.add(event[1:])
            if len(found) < 3:
                does, is_told = 'pushes to' if has_pushed(event) else 'writes to', found or address in COLOUR
                found += run.tell('lost write', event, address=address, does=does, wrong=wrong, advice='' if is_told else CLAUSES['lost'][does])
                found += of_direction(run, event) + of_a_count(run, event) if len(found) == 1 else []
    return found


def of_direction(run: Run, event: Event) -> list[Told]:
    """A string instruction that goes downward."""
    flags = run.registers(event.clock)['FL'] if opcode(event) in STRINGS else 0
    return run.tell('downward', event, flags=flags) if flags & DF else []


def of_a_count(run: Run, event: Event) -> list[Told]:
    """A loop round an instruction that began with CX 0."""
    for loop in run.firsts if event.entry is None else []:
        to = loop.address + 2 + int.from_bytes(loop.octets[-1:], 'little', signed=True)
        if opcode(loop) == 0xE2 and to <= event.address < loop.address and run.registers(loop.clock)['CX'] == 0:
            return run.tell('count of 0', loop)
    return []


def period_of(trail: list[Event]) -> int:
    """How many instructions come in turn in a whole trail, or 0."""
    places = [(event.segment, event.offset, event.octets) for event in trail]
    if len(trail) < TRAIL or any(event.entry is not None for event in trail):
        return 0
    return next((n for n in range(1, LONGEST_LOOP + 1) if places[n:] == places[:-n]), 0)


def of_a_loop(run: Run) -> list[Told]:
    """Whether the same few instructions come in turn, of which one jumps by a condition, and what leads out of them."""
    period = period_of(run.trail) if run.report.state == 'running' else 0
    turn = sorted(run.trail[-period:], key=lambda event: (event.segment, event.offset)) if period else []
    if 'branch' not in map(done_by, turn):
        return []
    values = {'count': period, 'rows': '\n'.join(f'  {run.place(event)}' for event in turn)}
    first, last = run.trail[-period - 1].clock, run.trail[-1].clock
    done = [line.split()[1:3] for line in run.at(first).lines(last - first, 'writes ports')]
    is_still, ports = all(what == b'in' for what, _ in done), {int(port, 16) for what, port in done if what == b'in'}
    if is_left(run, turn, is_still and bool(ports)):
        return []
    if not done and not run.report.registers['FL'] & (IF | TF) and (registers := of_a_round(run, period)):
        steps, clocks = '\n'.join(['step'] * (period + 1)), {'first': first, 'span': last - first, 'rest': run.report.clock - last}
        return run.tell('no way out', row=text_of(run.trail[-1]), steps=steps, registers=registers, **clocks, **values)
    on = ', or an interrupt' if run.report.registers['FL'] & IF else ''
    rest = f'\nnothing leads out but what port {next(iter(ports)):02X}h reads{on}' if is_still and len(ports) == 1 else ''
    odd, first = next(iter(ports - PORTS), None), max(0, run.report.clock - 2000)  # where nothing answers
    waits = run.tell('waits', rest=rest, **values)
    return waits if odd is None else waits + run.tell('no port', port=odd, first=first, span=run.report.clock - first)


def is_left(run: Run, turn: list[Event], is_of_ports: bool) -> bool:
    """Whether the run leaves a loop of these instructions within a second, with one more key typed: to where one of its conditional jumps
    leads out, or into an interrupt. One that reads ports alone isn't ended by a handler of the services, which changes none of them."""
    clock, places = run.report.clock, {(event.segment, event.offset) for event in turn}
    if clock + A_SECOND > LAST_CLOCK:
        return False
    branches = [event for event in turn if done_by(event) == 'branch']
    ways = {(event.segment, (event.offset + len(event.octets)) % 0x10000) for event in branches}
    ways |= {way for way in map(target_of, branches) if way}
    with ProbeSession(run.files) as session:
        session.go_to(clock)
        for command in (
            f'key {SPACE:X} {clock + 1000}',
            f'key {SPACE + 0x80:X} {clock + 20_000}',
            *('break %X:%X' % way for way in sorted(ways - places)[:15]),
        ):
            session.stop(command)
        if run.report.registers['FL'] & IF:
            session.stop('when entries')
        while session.go(clock + A_SECOND - session.clock).startswith('stop'):
            registers = registers_of(session.answers(['regs']))
            if not (is_of_ports and run.mark and physical(registers['CS'], registers['IP']) >= SERVICES):
                return True
        return False


def target_of(event: Event) -> tuple[int, int] | None:
    """The place that a jump or call has in its own bytes, if it is one."""
    return form_of(event.octets).target((event.segment, event.offset))


def of_a_round(run: Run, period: int) -> str | None:
    """The first line of registers at the run's end, if a round later all are what they are then."""
    session = run.at(run.report.clock)
    session.unrefused(session.one('step'))
    first = session.answers(['regs'])
    for _ in range(period):
        session.unrefused(session.one('step'))
    return first[0] if session.answers(['regs']) == first else None


def of_the_source(run: Run) -> list[Told]:
    """What lines that ran do, and are hardly meant to."""
    those = (of_segments, of_near_jumps, of_doubts, of_vectors, of_ports, of_scan_codes, of_words_from_bytes)
    return [one for of in those for one in of(run)]


def loads(listing: Listing, register: str) -> bool:
    """Whether a line of the source loads a segment register."""
    wanted = rf'\bMOV\s+{register}\s*,|\bPOP\s+{register}\b|\bL{register}\b'
    return any(register in code.upper() and re.search(wanted, code, re.I) for _, code in listing.coded)


def of_segments(run: Run) -> Iterator[Told]:
    """DS and ES that nothing has loaded, or that are wrong at the end."""
    registers = run.report.registers
    for register in ('DS', 'ES'):
        if registers[register] == 0xB800:
            yield from run.tell('colour memory', register=register)
        elif registers[register] == 0x0B00:
            yield from run.tell('a nought too few', register=register)
    labels = {name.upper(): (name, at) for name, at in run.listing.labels.items() if at[0]}
    if not registers['DS'] and not loads(run.listing, 'DS'):
        for event in run.firsts:
            found = re.search(r'\[(?:[^\]:]*\+)?\s*([A-Za-z_]\w*)\s*[\]+]', code_of(line_of(run, event)))
            name, at = labels.get(found[1].upper(), ('', (0, 0))) if found else ('', (0, 0))
            if name and opcode(event) != 0x8D and not re.search(r'\bBP\b|\b[ECS]S\s*:', code_of(line_of(run, event)), re.I):
                yield from run.tell('data segment', event, label=name, target=f'{at[0]:04X}:{at[1]:04X}')
                break
    if run.mark:
        yield from of_the_prefix(run)
    if not registers['ES'] and run.listing.lines and not loads(run.listing, 'ES') and not run.is_ended:
        string = next((event for event in run.firsts if opcode(event) in STRINGS), None)
        yield from run.tell('extra segment', string) if string else []


def of_the_prefix(run: Run) -> Iterator[Told]:
    """Data of a program with services that all stand elsewhere than where DS leads, which is the PSP if no line loads it."""
    lines = [(line, code_of(line.said)) for line in (*run.listing.lines, *run.listing.rows) if line.address]
    data = [line for line, code in lines if line.address and physical(*line.address) >= VECTORS_END and re.search(r'\bD[BWD]\b', code, re.I)]
    if not data or not run.firsts or any(re.search(r'\b(MOV|POP)\s+DS\b|\bLDS\b|\b[CES]S\s*:', code, re.I) for _, code in lines):
        return
    paragraph = run.registers(run.firsts[0].clock)['DS']
    if all(line.address and line.address[0] != paragraph for line in data):
        number, segment = data[0].number, data[0].address[0] if data[0].address else 0
        yield from run.tell('prefix', ds=paragraph, number=number, code=code_of(data[0].text).strip(), segment=segment)


def line_of(run: Run, event: Event) -> str:
    """An instruction's line."""
    line = line_at(run.listing, event)
    return line.text if line else ''


def of_near_jumps(run: Run) -> Iterator[Told]:
    """A near jump to a label of another segment."""
    for event in run.firsts:
        found = re.search(r'\b(?:JMP|CALL)\s+([A-Za-z_]\w*)\s*$', code_of(line_of(run, event)), re.I) if opcode(event) in (0xE9, 0xE8) else None
        at = run.listing.label_of(found[1]) if found else None
        to = target_of(event)
        if found and at and to and physical(*at) != physical(*to):
            yield from run.tell('near jump', event, segment=event.segment, label=found[1], target=f'{at[0]:04X}:{at[1]:04X}')


def of_doubts(run: Run) -> Iterator[Told]:
    """Lines that ran of which editors warn."""
    ran = {line.number for event in run.firsts for line in [line_at(run.listing, event)] if line}
    for doubt in doubts([line.text for line in run.listing.lines]):
        if doubt.line + 1 in ran:
            yield from run.tell('doubt', text=doubt.text, line=doubt.line + 1)


def of_vectors(run: Run) -> Iterator[Told]:
    """A far pointer among the vectors that is none of them."""
    for line in run.listing.lines:
        address = physical(*line.address) if line.address else 0x400
        if address < 0x400 and address % 4 and re.search(r'\bDW\s+\w+\s*,\s*SEG\s', code_of(line.text), re.I):
            yield from run.tell("vector's place", line=line.number, code=code_of(line.text).strip(), address=address)
            break


def of_ports(run: Run) -> Iterator[Told]:
    """A port that the program reads, and where nothing answers."""
    known = set[int]()
    for part in run.parts:
        for at, port, value in part.reads:
            event = part.events[at] if at >= 0 else None
            if event and value == 0xFF and port not in PORTS | known and run.is_own(event):
                known.add(port)
                yield from run.tell('unanswered port', event, port=port)


def of_scan_codes(run: Run) -> Iterator[Told]:
    """The code of a key that is written as a character soon after it was read."""
    keys = names()
    for part in run.parts:
        writes = {(at, value): address for at, address, value in part.writes if address in TEXT and address % 2 == 0}
        for at, port, code in part.reads:
            behind = range(at, min(at + SOON, len(part.events))) if port == 0x60 and code in keys else ()
            kept = takewhile(lambda n: opcode(part.events[n]) not in LOADS_AL, behind)
            place = next((n for n in kept if (n, code) in writes or is_digit(run, part.events[n], code)), None)
            if place is not None and run.is_own(part.events[place]):
                by = run.place(part.events[at])
                yield from run.tell('scan code', part.events[place], code=code, key=keys[code], by=by)
                return


def is_digit(run: Run, event: Event, code: int) -> bool:
    """Whether an instruction takes '0' from a code in AL that is less."""
    return event.octets == b'\x2C\x30' and code < 0x30 and run.registers(event.clock)['AX'] & 0xFF == code


def block_at(run: Run, address: int) -> tuple[Line, int] | None:
    """The line of DB that begins at an address, of three numbers or more, and the end of its bytes and of those of DB below it."""
    line = run.listing.at.get(address)
    if line is None or statement_of(line) != 'DB' or re.search(r"'|\bDUP\b", code_of(line.text), re.I) or code_of(line.text).count(',') < 2:
        return None
    below = list(takewhile(lambda row: statement_of(row) == 'DB', run.listing.lines[line.number - 1 :]))
    behind = run.listing.lines[line.number - 1 + len(below) :]
    return next(((line, physical(*row.address)) for row in behind if row.address), None)


def of_words_from_bytes(run: Run) -> Iterator[Told]:
    """An instruction that reads words from a line of DB on, and past its end."""
    for event in run.firsts:
        by = BY_FORM.get(event.octets[-1] & 0xC7) if opcode(event) == 0x8B else None
        name = 'SI' if opcode(event) in (0xA5, 0xA7, 0xAD) else by
        reached = (physical(at['DS'], at[name]) for at in run.registers_often(event)) if name else iter(())
        block = block_at(run, next(reached, -1))
        far = block and next((at for at in reached if block[1] + 2 <= at < 2 * block[1] + 2 - physical(*block[0].address or (0, 0))), None)
        if block and far:
            yield from run.tell('words from bytes', event, line=block[0].number, address=far)
            return


def of_the_chips(run: Run) -> list[Told]:
    """What keeps an interrupt or a key away, a second later too."""
    if is_for_good(run.report) or run.report.state == 'jammed' or run.report.clock + A_SECOND > LAST_CLOCK:
        return []
    chips = Chips(run.session.answers(['chips']))
    base = int(chips.value('controller', 'vector'), 16) & 0xF8
    vectors = run.session.dump(4 * base, 32) if chips.controller.is_ready else bytes(32)
    has_vector = [any(vectors[4 * level : 4 * level + 4]) for level in range(8)]
    found = list[Told]()
    for name, values in of_chips(chips, lambda kind: ends_before(run.files, run.report.clock, kind)):
        found += of_a_chip(run, name, values | {'kind': base + int(values.get('level', 0))}, chips, has_vector)
    is_awaited = chips.is_halted and chips.is_open and has_vector[1] and not chips.controller.masked & 2 and not run.mark
    if is_awaited and not read_run_file(run.files.run_file).get('keys'):
        found += run.tell('no key', keys=f"{tool('try')} --keys 'text' types")
    return found


def of_a_chip(run: Run, name: str, values: dict[str, Any], chips: Chips, has_vector: list[bool]) -> list[Told]:
    """One fact of the chips, if the program wants it otherwise."""
    wants_keys = has_vector[1] and not chips.controller.masked & 2
    if name == 'masked' and chips.controller.masked != 0xFF:
        return run.tell('masked, others not', **values) if has_vector[values['level']] and not run.meets('when entries') else []
    if name == 'no count' and not (has_vector[0] and not run.meets('when entries')) or name == 'keys' and not wants_keys:
        return []
    if name == 'initialisation' and chips.value('controller', 'IC4') == '0' and chips.controller.awaited == 'none':
        return []
    if name == 'in service':
        span = run.report.clock - values['since'] - 1
        values |= {'span': span, 'back': A_SECOND + span}
    return run.tell(name, **values)
