"""The tools' and the programs' pages for man, made of the texts of their --help, and what completes their words."""
from __future__ import annotations

import argparse
import ast
import contextlib
import functools
import importlib.machinery
import importlib.util
import os
import re
import subprocess
import sys
from dataclasses import dataclass
from typing import Any, Iterator

from toolbox.command import STARTED, Sorry, named
from toolbox.program import TOP

TOOLS = f'{TOP}/tools'
NOT_OURS = ('test', 'zebludor')
PROGRAMS = {'pcboard': ('', 'run', 'asm', 'debug'), 'pcprobe': ('',), 'pcmasm': ('',)}  # and their tasks
SIGNS = {'\\': r'\e', '-': r'\-', '`': r'\(ga', "'": r'\(aq', '^': r'\(ha', '~': r'\(ti'}


class Found(Exception):
    """A tool's parser, as it was about to read the words."""


@contextlib.contextmanager
def as_zebludor() -> Iterator[None]:
    """Meanwhile texts name the tools as who has the command zebludor knows them."""
    was = os.environ.get(STARTED)
    os.environ[STARTED] = 'zebludor'
    try:
        yield
    finally:
        os.environ.pop(STARTED)
        os.environ.update({} if was is None else {STARTED: was})


@dataclass(frozen=True)
class Option:
    """A word of a tool or program: its names, or the place in which it stands; what it takes, the few words for that, and its help."""

    names: tuple[str, ...]
    takes: str
    choices: tuple[str, ...]
    help: str


def names() -> list[str]:
    """The tools that zebludor starts."""
    found = (each for each in sorted(os.listdir(TOOLS)) if each not in NOT_OURS and os.path.isfile(f'{TOOLS}/{each}'))
    return [each for each in found if os.access(f'{TOOLS}/{each}', os.X_OK)]


def doc(name: str) -> str:
    """The text that stands at a tool's beginning."""
    with open(f'{TOOLS}/{name}', encoding='utf-8') as file:
        return ast.get_docstring(ast.parse(file.read()), clean=False) or ''


@functools.cache
def summary(name: str) -> str:
    """What a tool is, in a few words: its text up to the first stop or colon, or to a comma behind three words."""
    text = ' '.join(doc(name).split())
    return re.match(r'(?:\S+ ){2,}?\S+?(?=[.:;] |, |$)|[^.:;]*', text)[0]  # type: ignore[index]


def reader_of(name: str) -> argparse.ArgumentParser:
    """A tool's parser."""
    loader = importlib.machinery.SourceFileLoader(f'manual_{name}', f'{TOOLS}/{name}')
    module = importlib.util.module_from_spec(importlib.machinery.ModuleSpec(loader.name, loader, origin=loader.path))
    module.__file__, sys.modules[loader.name] = loader.path, module

    def caught(reader: argparse.ArgumentParser, *_: Any) -> None:
        raise Found(reader)

    held = sys.argv, argparse.ArgumentParser.parse_known_args
    sys.argv, argparse.ArgumentParser.parse_known_args = [loader.path], caught  # type: ignore[assignment, method-assign]
    try:
        loader.exec_module(module)
        (module.reader().parse_args if name == 'zebludor' else module.main)(['--help'])
    except Found as found:
        return found.args[0]  # type: ignore[no-any-return]
    finally:
        sys.argv, argparse.ArgumentParser.parse_known_args = held  # type: ignore[method-assign]
    raise Sorry(f'tools/{name} reads its words by no parser')


def options_of(reader: argparse.ArgumentParser) -> list[Option]:
    """What a parser knows, but for what its help doesn't tell."""
    form = argparse.HelpFormatter(reader.prog)
    found = []
    for action in reader._actions:  # pylint: disable=protected-access
        if action.help is argparse.SUPPRESS:
            continue
        takes = '' if action.nargs == 0 else (form._format_args(action, action.metavar or action.dest.upper()))  # type: ignore[arg-type]
        said = named(form._expand_help(action)) if action.help else ''
        # a tool that looks at its first word by itself names what it may be as argparse names choices
        choices = map(str, action.choices) if action.choices else re.findall(r'\w+', takes) if takes.startswith(('{', '[{')) else ()
        found.append(Option(tuple(action.option_strings), takes, tuple(choices), said))
    return found


@functools.cache
def tool_options(name: str) -> tuple[Option, ...]:
    """What a tool's help tells of its words."""
    with as_zebludor():
        return tuple(options_of(reader_of(name)))


@functools.cache
def program_help(name: str, task: str) -> str:
    """What a program prints by --help of a task."""
    words = [f'{TOP}/{name}', *([task] if task else []), '--help']
    ran = subprocess.run(words, stdin=subprocess.DEVNULL, capture_output=True, text=True, check=False)
    if ran.returncode:
        raise Sorry(f'{name} --help: {ran.stderr.strip()}')
    return ran.stdout


def program_options(name: str, task: str) -> list[Option]:
    """The options in that text; and those of the launcher, which has no task."""
    lines = re.findall(r'^ +(?:(-\w), )?(--\w+) {2,}(.*)$', program_help(name, task), re.M)
    found = [Option(tuple(filter(None, (short, long))), '', (), said) for short, long, said in lines]
    return found + ([] if task else [Option(('--version',), '', (), 'Print version, kit and logic, and which program answers')])


def plain(text: str) -> str:
    """A text as man shows it unchanged."""
    text = ''.join(SIGNS.get(each, each) for each in text)
    return re.sub(r"^(?=[.'])", r'\\&', text, flags=re.M)


def heading(name: str, what: str) -> str:
    """A page's beginning. It has no date, so that the same texts give the same bytes."""
    with open(f'{TOP}/VERSION', encoding='ascii') as file:
        version = file.read().strip()
    return f'.TH {name.upper()} 1 "" "zebludor {version}" "Zebludor"\n.SH NAME\n{plain(name)} \\- {plain(what)}\n'


def body(text: str) -> str:
    """A help's text: paragraphs, and lines of commands and of what stands beside them."""
    made = list[str]()
    for part in text.strip('\n').split('\n\n'):
        made.append('.PP')
        for line in part.split('\n'):
            command, _, said = line.strip().partition('  ')
            if line.startswith(' ' * 10):
                made.append(plain(line.strip()))
            elif line.startswith('  '):
                made += ['.TP', f'\\fB{plain(command)}\\fR', *([plain(said.strip())] if said else [])]
            else:
                made.append(plain(line))
    return '\n'.join(made) + '\n'


def listed(options: list[Option]) -> str:
    """The section of words."""
    made = list[str]()
    for each in options:
        heads = ', '.join(f'\\fB{plain(name)}\\fR' for name in each.names)
        made += ['.TP', ' '.join(filter(None, (heads, f'\\fI{plain(each.takes)}\\fR' if each.takes else ''))), plain(each.help)]
    return '.SH OPTIONS\n' + '\n'.join(filter(None, made)) + '\n'


def tool_page(name: str) -> str:
    """A tool's page, or that of the command over all of them."""
    with as_zebludor():
        own, text = 'zebludor' if name == 'zebludor' else f'zebludor-{name}', named(doc(name))
    first, _, rest = text.partition('\n\n')
    page = heading(own, summary(name)) + f'.SH DESCRIPTION\n{body(first)}{body(rest) if rest else ""}' + listed(list(tool_options(name)))
    others = names() if name == 'zebludor' else []
    page += '.SH TOOLS\n' + ''.join(f'.TP\n\\fB{each}\\fR\n{plain(summary(each))}\n' for each in others) if others else ''
    also = ('zebludor', *PROGRAMS, *(f'zebludor-{each}' for each in others))
    return page + '.SH SEE ALSO\n' + ', '.join(f'{plain(each)}(1)' for each in also if each != own) + '\n'


def program_page(name: str) -> str:
    """A program's page: what its --help prints, of each task."""
    first = program_help(name, '').splitlines()[0].partition('. ')[0]
    page = heading(name, first)
    for task in PROGRAMS[name]:
        page += f'.SH {" ".join((name, task)).strip().upper()}\n.EX\n{plain(program_help(name, task).strip())}\n.EE\n'
    page += '.SH OPTIONS\n.TP\n\\fB\\-\\-version\\fR\nPrint version, kit and logic, and which program answers\n'
    return page + '.SH SEE ALSO\nzebludor(1), and the pages in the folder that zebludor \\-\\-pages prints\n'


def page(name: str) -> str:
    """The page of a tool, of zebludor or of a program."""
    return program_page(name) if name in PROGRAMS else tool_page(name)
