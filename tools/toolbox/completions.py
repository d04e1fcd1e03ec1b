"""What completes the words of zebludor, pcboard, pcprobe and pcmasm in bash, zsh and fish, by the options that their --help tells."""
from __future__ import annotations

import re
from typing import Callable, Iterator

from toolbox import manual
from toolbox.manual import PROGRAMS, Option

FILES = re.compile(r'FILE|RUN|OUT|PAGE|REPORT|LISTING|FOLDER|NAME|CSV|ROOM|PICTURE|WAVE')
BASH = r"""# bash completion of zebludor, pcboard, pcprobe and pcmasm, made by zebludor --completion bash
_zebludor_words() {
    case "$1" in
%s    esac
}
_zebludor() {
    local command="${COMP_WORDS[0]##*/}" task="${COMP_WORDS[1]}" at words=
    at="$command"
    if [ "$COMP_CWORD" -gt 1 ] && [ "${task:0:1}" != - ] && [ -n "$(_zebludor_words "$command $task")" ]; then
        at="$command $task"
    fi
    [ "${3:0:1}" != - ] || words="$(_zebludor_words "$at $3")"
    if [ -z "$words" ] && { [ "${2:0:1}" = - ] || [ "$COMP_CWORD" = 1 ] || [ "$at" = "$command $3" ]; }; then
        words="$(_zebludor_words "$at")"
        [ "${2:0:1}" = - ] || words="$(printf '%%s\n' $words | grep -v '^-')"
    fi
    mapfile -t COMPREPLY < <(compgen -W "$words" -- "$2")
}
complete -o default -F _zebludor zebludor pcboard pcprobe
"""
ZSH = r"""#compdef zebludor pcboard pcprobe
# zsh completion of zebludor, pcboard, pcprobe and pcmasm, made by zebludor --completion zsh
_zebludor() {
    local at="$service"
    local -a tasks
    case "$at" in
%s    esac
    if (( CURRENT == 2 && ${#tasks} )); then
        _describe -t tasks task tasks
    elif (( CURRENT > 2 && ${tasks[(I)${words[2]}:*]} )); then
        at+=" ${words[2]}"
        shift words
        (( CURRENT-- ))
    fi
    case "$at" in
%s    esac
}
if [ "${funcstack[1]}" = _zebludor ]; then
    _zebludor "$@"
else
    compdef _zebludor zebludor pcboard pcprobe
fi
"""
FISH = """# fish completion of zebludor, pcboard, pcprobe and pcmasm, made by zebludor --completion fish
function __zebludor_at
    set -l words (commandline -opc)
    set -l second ''
    test (count $words) -ge 2; and set second $words[2]
    test "$second" = "$argv[1]"
end
function __zebludor_first
    test (count (commandline -opc)) -eq 1
end
"""


def places() -> Iterator[tuple[str, str, list[Option]]]:
    """Each place in which words stand: the command, its task or tool, if there is one, and the options there."""
    yield 'zebludor', '', list(manual.tool_options('zebludor'))
    for name in manual.names():
        yield 'zebludor', name, list(manual.tool_options(name))
    for name, tasks in PROGRAMS.items():
        for task in tasks:
            yield name, task, manual.program_options(name, task)


def tasks_of(command: str) -> dict[str, str]:
    """The tasks or tools of a command, and what each is."""
    if command == 'zebludor':
        return {name: manual.summary(name) for name in manual.names()}
    return {task: manual.program_help(command, task).splitlines()[0] for task in PROGRAMS[command] if task}


def short(text: str) -> str:
    """The first words of a help, as shells show them."""
    return re.split(r'; | \(', text)[0].strip()


def is_file(each: Option) -> bool:
    """Whether an option, or a word in a place, is a file."""
    return not each.choices and bool(FILES.search(each.takes))


def flags(options: list[Option]) -> list[str]:
    """The options that begin with a hyphen, the long ones where there are two."""
    return [each.names[-1] for each in options if each.names]


def bash() -> str:
    """What bash reads."""
    lines = list[str]()
    for command, task, options in places():
        at = f'{command} {task}'.strip()
        first = [*(tasks_of(command) if not task else ()), *(word for each in options if not each.names for word in each.choices)]
        lines.append(f"    '{at}') echo '{' '.join([*first, *flags(options)])}' ;;\n")
        lines += [f"    '{at} {each.names[-1]}') echo '{' '.join(each.choices)}' ;;\n" for each in options if each.names and each.choices]
    return BASH % ''.join(lines)


def zsh() -> str:
    """What zsh reads."""

    def quoted(text: str) -> str:
        return re.sub(r'([\[\]:\\])', r'\\\1', text).replace("'", "'\\''")

    def spec(each: Option) -> str:
        value = f'({" ".join(each.choices)})' if each.choices else '_files' if is_file(each) else ' '
        if not each.names:
            return f"'*:{quoted(each.takes.split()[0].strip('[]'))}:{value if each.choices else '_files'}'" if each.takes else ''
        takes = f':{quoted(each.takes.split()[0].strip("[]"))}:{value}' if each.takes else ''
        return f"'{each.names[-1]}[{quoted(short(each.help))}]{takes}'"

    tasks, options = '', ''
    for command in ('zebludor', *PROGRAMS):
        known = ' '.join(f"'{name}:{quoted(short(what))}'" for name, what in tasks_of(command).items())
        tasks += f'    {command}) tasks=({known}) ;;\n'
    for command, task, them in places():
        specs = [spec(each) for each in them if each.names] + ["'*:FILE:_files'"]
        options += f"    '{f'{command} {task}'.strip()}') _arguments {' '.join(specs)} ;;\n"
    return ZSH % (tasks, options)


def fish() -> str:
    """What fish reads."""

    def quoted(text: str) -> str:
        return re.sub(r"([\\'])", r'\\\1', text)

    lines = list[str]()
    for command, task, options in places():
        if not task:
            lines += [f"complete -c {command} -n __zebludor_first -f -a {name} -d '{quoted(short(what))}'" for name, what in tasks_of(command).items()]
        condition = f'-n "__zebludor_at {task}"' if task else '-n __zebludor_first' if tasks_of(command) else ''
        for each in (each for each in options if each.names):
            name = each.names[-1]
            value = f" -x -a '{' '.join(each.choices)}'" if each.choices else ' -r' if is_file(each) else ' -x' if each.takes else ''
            lines.append(f"complete -c {command} {condition} -l {name.removeprefix('--')}{value} -d '{quoted(short(each.help))}'".replace('  ', ' '))
    return FISH + '\n'.join(lines) + '\n'


SHELLS: dict[str, Callable[[], str]] = {'bash': bash, 'zsh': zsh, 'fish': fish}
