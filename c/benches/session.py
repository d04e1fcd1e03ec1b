"""Sessions by the library zebludor_program, which ZEBLUDOR_SESSION names: `session.py SOURCE RUN LINES ANSWERS` makes the lines and
wants these answers of one of pcprobe; then one of `pcboard debug` refuses a line of the probe's; then 10,000 commands, in at most 1 s of
the processor; then a run without end, which is interrupted."""
import os
import signal
import sys
import time

sys.path.insert(0, f'{os.path.dirname(os.path.realpath(__file__))}/../../python')
import zebludor

COMMANDS, SECONDS = 10_000, 1.0
BUSY = """SEGMENT M AT 0F000h
go: INC AX
 JMP go
ENDS
SEGMENT R AT 0FFFFh
 JMP FAR go
ENDS
"""


def text_of(path):
    with open(path, encoding='utf-8') as file:
        return file.read()


def answers(session, lines):
    """The answers to lines, up to `quit`."""
    for line in lines:
        if line == 'quit':
            return
        yield session.way.answer(line.encode()).decode()


def seconds(session):
    """How long 10,000 commands take, each a step and its registers."""
    begun = time.process_time()
    for _ in range(COMMANDS // 2):
        session.one('step')
        session.many('regs')
    return time.process_time() - begun


def interrupted():
    """How far a session has come that control-C ends in a long run. It goes on from there."""
    signal.signal(signal.SIGVTALRM, signal.default_int_handler)
    with zebludor.Session(BUSY) as session:
        signal.setitimer(signal.ITIMER_VIRTUAL, 0.1)
        try:
            session.go(1 << 39)
            raise AssertionError('a run without end is whole')
        except KeyboardInterrupt:
            pass
        session.go(0)
        clock = session.clock
        session.go(1000)
        assert session.clock == clock + 1000, f'{session.clock} is 1,000 clocks after {clock}'
        session.back(clock)
        assert session.clock == 1000
    return clock


def main():
    source, run, lines, wanted = sys.argv[1:]
    session = zebludor.Dialogue([source, run], 'pcprobe')
    assert session.way.is_within, 'no session begins'
    came = ''.join(answers(session, text_of(lines).splitlines()))
    assert came == text_of(wanted), 'the answers differ'
    session.close()
    try:
        session.one('regs')
        raise AssertionError('a closed session answers')
    except zebludor.Unfit:
        pass
    debugger = zebludor.Dialogue(['debug', source, run])
    assert debugger.one('chips') == 'fault 51 BadCommand', 'the debugger has an answer of the probe'
    again = zebludor.Dialogue([source, run], 'pcprobe')
    took = seconds(again)
    print(f'{COMMANDS} commands in {took:.2f} s')
    assert took <= SECONDS, f'{COMMANDS} commands take {took:.2f} s'
    print(f'interrupted at clock {interrupted()}')


main()
