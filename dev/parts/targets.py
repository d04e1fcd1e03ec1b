"""Programs and static libraries for other targets than x86-64 Linux with glibc. Rattle proves a crate for any x86-64 and hands its
compiler one module; the kit's clang makes an object of it for each target, and the target's own linker a file."""
import contextlib
import os
import re
import shlex
import shutil
import subprocess
from dataclasses import dataclass, replace
from functools import partial

from parts.building import STAGE, lanes
from toolbox import proved
from toolbox.command import Sorry, waiting, write_text
from toolbox.crates import KIT, TOP
from toolbox.sources import stamp, sum_of

TOOLCHAIN, C = f'{KIT}/toolchain', f'{TOP}/c'
CLANG = f'{TOOLCHAIN}/bin/clang'
# The kit's clang, which leaves its words and the module that it is given. Rattle starts it without an environment.
KEEPER = """#!/bin/bash
for word; do
    printf '%s\\n' "$word"
    case $word in *.bc) cp -- "$word" {room}/module.bc ;; esac
done > {room}/words
exec {clang} "$@"
"""
# What of these words is for x86-64 alone, or names files: with what follows it, a word a line.
OF_X86 = r'--(?:target|sysroot)=.*|-march=.*|-fPI[CE]|-Werror|-x\nir\n.*|-o\n.*|-mllvm\n-no-x86-call-frame-opt'
WASM = ['--target=wasm64-unknown-unknown', '-mcpu=lime1', '-mllvm', '-expand-div-rem-bits=64', '-mllvm', '-expand-fp-convert-bits=64']
FEATURES = ('memory64', 'bulk-memory', 'sign-ext', 'mutable-globals', 'nontrapping-float-to-int', 'multivalue')


OF_THE_HEAP = ('zebludor_take', 'zebludor_give', 'zebludor_limit')  # what c/targets/wasm.c has for callers
# How the kit's clang compiles sources of C without any system's headers.
PLAIN = ['-nostdinc', '-isystem', f'{C}/targets/plain', '-std=c11', '-O2', '-fPIC']
# The calls that a shared library has for others.
VISIBLE = '{ global: zebludor_*; local: *; };\n'


class Failed(Exception):
    """A command failed, of which the log tells."""


@dataclass(frozen=True)
class Target:
    """A target: its words for clang, none where Rattle's own object serves; its tools with their Debian packages; the words with
    which the first of them links a program; who runs what is made; what a program's name ends in; and the name that a shared library
    has there, of one that can be loaded."""

    clang: list[str]
    tools: dict[str, str]
    links: list[str]
    runs_on: str
    ending: str = ''
    shared: str = ''


def of_macos(processor):
    """A target of macOS, of whose own library the linker is told the calls by c/targets/libSystem.tbd."""
    return Target(
        [f'--target={processor}-apple-macos11', '-fPIC'],
        {'ld64.lld-19': 'lld-19'},
        ['-arch', processor, '-platform_version', 'macos', '11.0', '11.0', f'{C}/targets/libSystem.tbd'],
        'macOS, on which nobody has run it',
        shared='lib{}.dylib',
    )


TARGETS = {
    'aarch64': Target(
        ['--target=aarch64-unknown-linux-gnu', '-march=armv8-a', '-mllvm', '-aarch64-load-store-renaming=false', '-fPIC'],
        {'aarch64-linux-gnu-gcc': 'gcc-aarch64-linux-gnu libc6-dev-arm64-cross'},
        ['-Wl,--wrap=main'],
        "its glibc, which is in the program, and Linux",
        shared='lib{}.so',
    ),
    'musl': Target([], {'musl-gcc': 'musl-tools'}, ['-Wl,--wrap=main'], 'musl, which is in the program, and Linux'),
    'windows': Target(
        ['--target=x86_64-w64-windows-gnu', '-march=x86-64'],
        {'x86_64-w64-mingw32-gcc': 'gcc-mingw-w64-x86-64'},
        [*(f'-Wl,--wrap={name}' for name in ('main', 'open', 'read', 'write')), '-Wl,--no-insert-timestamp,--stack,8388608', '-lshell32'],
        'mingw-w64, which is in the program, msvcrt and Windows',
        '.exe',
        '{}.dll',
    ),
    'macos-arm64': of_macos('arm64'),
    'macos-x86_64': of_macos('x86_64'),
    'shared': Target([], {}, [], 'glibc', shared='lib{}.so'),
    'wasm': Target(WASM, {'wasm-ld-19': 'lld-19', 'wasm-opt': 'binaryen'}, [], 'an engine'),
}


def want_tools(target):
    """Refuses where a tool of a target isn't there."""
    lacking = [f'{tool} (apt install {package})' for tool, package in TARGETS[target].tools.items() if not shutil.which(tool)]
    if lacking:
        raise Sorry(f'for {target} it needs {" and ".join(lacking)}')


def do(work, folder, *words):
    """Runs a command, which the log tells of."""
    status, printed = work.run(list(words), folder)
    if status:
        raise Failed
    return printed


def keep_module(crates, name, work):
    """Proves a crate for any x86-64, if that isn't kept. Returns the folder that has its module, the words for clang, and Rattle's
    own object."""
    room, made_of = f'{STAGE}/modules/{name}', stamp(crates, name, {})
    if verdict_of(crates, name) and os.path.isfile(f'{room}/{made_of}'):
        return room
    shutil.rmtree(room, ignore_errors=True)
    os.makedirs(f'{room}/toolchain/bin')
    os.symlink(f'{TOOLCHAIN}/lib', f'{room}/toolchain/lib')
    for tool in set(os.listdir(f'{TOOLCHAIN}/bin')) - {'clang'}:
        os.symlink(f'{TOOLCHAIN}/bin/{tool}', f'{room}/toolchain/bin/{tool}')
    write_text(f'{room}/toolchain/bin/clang', KEEPER.format(room=shlex.quote(room), clang=shlex.quote(CLANG)))
    os.chmod(f'{room}/toolchain/bin/clang', 0o755)
    words = crates.command(name, lanes())
    words[words.index('--toolchain') + 1], words[-1] = f'{room}/toolchain', f'{room}/own'
    verdict = proved.verdict_in(do(work, crates.folder(name), *words, '--cpu', 'x86-64'))
    if not verdict:
        raise Failed
    proved.remember(f'{made_of}-x86-64', verdict)
    write_text(f'{room}/{made_of}', '')
    return room


def verdict_of(crates, name):
    """The verdict on a crate for any x86-64, if it is known."""
    return proved.recall(f'{stamp(crates, name, {})}-x86-64')


def portable(text, target):
    """The module's text without what names x86-64; on Windows an answer of the heap, two words, stays in registers, as it has it; on
    macOS, whose linker wraps no calls, `main` and `open` have the names by which c/targets/system.c wraps them."""
    text = re.sub(r'^target (datalayout|triple) = .*\n', '', text, flags=re.M)
    text = re.sub(r' "(probe-stack|stack-probe-size|target-cpu)"="[^"]*"', '', text)
    if is_macos(target):
        return re.sub(r'@(main|open)\(', lambda found: {'main': '@__real_main(', 'open': '@__wrap_open('}[found[1]], text)
    return re.sub(r'(declare|call) (\{ i64, i64 \} @rattle_)', r'\1 x86_64_sysvcc \2', text) if target == 'windows' else text


def is_macos(target):
    """Whether a target is one of macOS."""
    return target.startswith('macos-')


def flags(room):
    """The kit's own words for clang, without those for x86-64."""
    with open(f'{room}/words', encoding='utf-8') as file:
        return re.sub(rf'^(?:{OF_X86})\n', '', file.read(), flags=re.M).split()


def compiled(room, target, run):
    """The object of a kept module for a target, which is made once."""
    if not TARGETS[target].clang:
        return f'{room}/own'
    to = f'{room}/{target}.o'
    if os.path.exists(to):
        return to
    run(CLANG, '-x', 'ir', f'{room}/module.bc', '-S', '-emit-llvm', '-O0', '-Xclang', '-disable-llvm-passes', '-o', f'{room}/module.ll')
    with open(f'{room}/module.ll', encoding='utf-8') as file:
        write_text(f'{room}/{target}.ll', portable(file.read(), target))
    run(CLANG, *TARGETS[target].clang, *flags(room), '-Wno-override-module', '-x', 'ir', f'{room}/{target}.ll', '-o', to)
    return to


def plain(room, words, run, *sources):
    """Objects of sources below c/, which the kit's clang makes by these words."""
    made = [f'{room}/{os.path.basename(source).removesuffix(".c")}.o' for source in sources]
    for source, to in zip(sources, made):
        run(CLANG, *words, *PLAIN, '-c', f'{C}/{source}', '-o', to)
    return made


def link(room, target, to, run):
    """Links a program's object for a target."""
    linker, *_ = TARGETS[target].tools
    made, system = compiled(room, target, run), ('memory.c', 'targets/system.c')
    if is_macos(target):
        run(linker, *TARGETS[target].links, '-o', to, made, *plain(room, TARGETS[target].clang, run, *system))
    else:
        run(linker, '-O2', '-static', '-s', '-o', to, made, *(f'{C}/{source}' for source in system), *TARGETS[target].links)


def archive(room, target, to, run):
    """Makes a static library for a target; where the object is Rattle's own, so is the library."""
    made = compiled(room, target, run)
    if made == f'{room}/own':
        shutil.copy(made, to)
        return
    with contextlib.suppress(FileNotFoundError):
        os.remove(to)  # of another target, whose object would stay in it
    run(f'{TOOLCHAIN}/bin/llvm-ar', 'rcsD', to, made)


def link_shared(room, target, to, run):
    """Makes a shared library for a target; for x86-64 Linux with glibc of Rattle's own object, by the kit's compiler and linker alone."""
    made, name = compiled(room, target, run), os.path.basename(to)
    write_text(f'{room}/visible', VISIBLE)
    if target == 'shared':
        words = ['-shared', '-soname', name, '--build-id=none', '--strip-all', '--hash-style=gnu', '-z', 'relro', '-z', 'now']
        whole = ['--whole-archive', made, '--no-whole-archive', *plain(room, ['--target=x86_64-unknown-linux-gnu'], run, 'memory.c')]
        system = [f'{TOOLCHAIN}/lib/libc.so.6', '--as-needed', f'{TOOLCHAIN}/lib/ld-linux-x86-64.so.2']
        run(f'{TOOLCHAIN}/bin/ld.lld', *words, '--no-undefined', '--gc-sections', f'--version-script={room}/visible', *whole, *system, '-o', to)
        return
    linker, *_ = TARGETS[target].tools
    if is_macos(target):
        words = [*TARGETS[target].links, '-dylib', '-install_name', f'@rpath/{name}', '-exported_symbol', '_zebludor_*', '-dead_strip']
        run(linker, *words, '-o', to, made, *plain(room, TARGETS[target].clang, run, 'memory.c'))
        return
    words = ['-static', '-Wl,--no-insert-timestamp']
    if target != 'windows':
        words = [f'-Wl,-soname,{name},--build-id=none,-z,now,--gc-sections,--version-script={room}/visible']
    run(linker, '-O2', '-fPIC', '-shared', '-s', *words, '-Wl,--no-undefined', '-o', to, made, f'{C}/memory.c')


def link_wasm(room, to, run):
    """Links a library as a module of WebAssembly, which imports nothing, and makes its memory one of 32 bits, as more engines have it."""
    objects = [compiled(room, 'wasm', run), f'{room}/heap.o']
    run(CLANG, *WASM, '-O2', '-fno-builtin', '-ffreestanding', '-nostdinc', '-c', f'{C}/targets/wasm.c', '-o', objects[1])
    exports = (f'--export={name}' for name in calls_in(f'{room}/module.ll'))
    asked = ['--gc-sections', '-z', 'stack-size=1048576', '--stack-first', *exports]
    run('wasm-ld-19', '-mwasm64', '--no-entry', '--strip-debug', *asked, '-o', f'{room}/64.wasm', *objects)
    run('wasm-opt', f'{room}/64.wasm', *(f'--enable-{name}' for name in FEATURES), '--memory64-lowering', '-O2', '-o', to)


def calls_in(path):
    """The calls that the module of a library has for C, and those by which a caller takes memory for texts and gives it back."""
    with open(path, encoding='utf-8') as file:
        return [*sorted(re.findall(r'^define (?!internal)[^@\n]*@(zebludor_\w+)\(', file.read(), re.M)), *OF_THE_HEAP]


def files_of(crates, name, target):
    """The names of the files that are made of a crate for a target. A library that is ready to be called has no `_program` in it."""
    if crates.is_program(name):
        return [f'{name}{TARGETS[target].ending}']
    short, shared = name.removesuffix('_program'), TARGETS[target].shared
    ready = [f'{short}.wasm'] if target == 'wasm' else [shared.format(short)] if shared else []
    return ready if target in ('wasm', 'shared') else [f'lib{name}.a', *ready]


def linked(room, is_program, target, file, run):
    """Makes a file for a target of what is kept in a folder, and returns its path."""
    os.makedirs(f'{room}/files', exist_ok=True)
    made = f'{room}/files/{file}'
    if target == 'wasm':
        link_wasm(room, made, run)
    elif is_program:
        link(room, target, made, run)
    elif file.endswith('.a'):
        archive(room, target, made, run)
    else:
        link_shared(room, target, made, run)
    return made


def make(crates, name, target, work):
    """Builds a program or a library for a target, and puts its files with PROVED into crates/NAME/out/TARGET."""
    to, files = f'{TOP}/crates/{name}/out/{target}', files_of(crates, name, target)
    with waiting(f'{name}: building it for {target}') as say:
        say('Rattle proves it for any x86-64')
        room = keep_module(crates, name, work)
        say('clang compiles its module')
        with contextlib.suppress(FileNotFoundError):
            os.remove(f'{room}/{target}.o')
        made = [linked(room, crates.is_program(name), target, file, partial(do, work, room)) for file in files]
    os.makedirs(to, exist_ok=True)
    for path, file in zip(made, files):
        os.replace(shutil.copy(path, f'{to}/{file}.new'), f'{to}/{file}')
    note([f'{to}/{file}' for file in files], crates, name, target, room)


def note(paths, crates, name, target, room):
    """Writes PROVED beside files for a target: with the verdict on their crate for any x86-64, the module, and what more is trusted."""
    known = [proved.told_of(path, crates, crates.below(name)) for path in paths]
    sources = 'c/targets/wasm.c' if target == 'wasm' else 'c/memory.c and, in a program, c/targets/system.c'
    trusted = *(version(tool) for tool in (CLANG, *TARGETS[target].tools)), sources, TARGETS[target].runs_on
    of = f'target {target} module {sum_of(f"{room}/module.bc")}\n' + ''.join(f'trusted {each}\n' for each in trusted)
    made = {file: of_it for each in known for file, of_it in each.made.items()}
    whole = replace(known[0], made=made, verdicts={**known[0].verdicts, name: verdict_of(crates, name)}, target=of)
    write_text(f'{os.path.dirname(paths[0])}/PROVED', whole.text())


def version(tool):
    """The first line in which a tool tells its version."""
    return subprocess.run([tool, '--version'], capture_output=True, text=True, check=True).stdout.partition('\n')[0]
