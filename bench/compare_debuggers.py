#!/usr/bin/env python3
"""Asks debuggers the same of a real program by its objects, by its package, and by neither, and compares what they print.

    bench/compare_debuggers.py [OPTION..] THORIN APP FUNCTIONS TYPE SOURCE MACRO DEBUGGER.. [-- WORDS..]

APP is an executable with its .dwo files below its folder, which is packed, by OPTIONs as --decompress; FUNCTIONS, apart by
commas, are where it is to stop; TYPE and SOURCE are a type and a file that lldb shows, MACRO a macro that gdb shows, `-` for
none; WORDS are APP's. A DEBUGGER is a command that is a gdb or an lldb, as lldb-19 or 'chroot DIR gdb', where DIR has /proc,
/dev/pts and /tmp of outside. Addresses, numbers of processes, times of files and lldb's numbers of entries, which are offsets,
are passed over. The status is 1 where a debugger prints something else by the package than by the objects, or the same by neither."""
import re
import subprocess
import sys
from itertools import takewhile
from pathlib import Path

# What differs between runs, or between an object and a package that is whole.
NUMBERS = re.compile(r"(?<=error: )\w+ 0x\w+: .*|id = \{0x\w+\}|[Pp]rocess \d+|\(LWP \d+\)|Thread 0x\w+|tid = \S+|tv_n?sec = -?\d+|__glibc_reserved = [^})]*|0x(7ff|555)\w{9}|@ 0x\w+")


def asked(debugger, app, functions, shown, words):
    """The command line of a debugger."""
    kind, source, macro = shown
    if "lldb" in debugger.split()[-1]:
        asks = [f"breakpoint set --name {it}" for it in functions] + [f"run {' '.join(words)}"]
        asks += len(functions) * ["bt", "frame variable", "source info", "continue"]
        asks += [f"image lookup --verbose --name {functions[0]}", f"image lookup --type {kind}", f"target modules dump line-table {source}"]
        return [*debugger.split(), "--no-lldbinit", "-b", *(word for it in asks for word in ("-o", it)), app]
    asks = ["set width 0", *(f"break {it}" for it in functions), f"run {' '.join(words)}"]
    macros = [] if macro == "-" else [f"info macro {macro}", f"print {macro}"]
    asks += len(functions) * ["bt", "info args", "info locals", "info source", *macros, "up", "info locals", "continue"]
    return [*debugger.split(), "-nx", "-batch", "-iex", "set debuginfod enabled off", *(word for it in asks for word in ("-ex", it)), app]


def said(words, where):
    """What a debugger prints, line by line, always at the same addresses."""
    done = subprocess.run(["setarch", "-R", *words], cwd=where, capture_output=True, timeout=600, stdin=subprocess.DEVNULL)
    return NUMBERS.sub("N", (done.stdout + done.stderr).decode(errors="replace")).splitlines()


def move(where, old, new):
    """Gives files of a folder another ending."""
    for it in [it for it in where.rglob(f"*{old}") if it.is_file()]:
        it.rename(f"{str(it).removesuffix(old)}{new}")


def main(words):
    options = list(takewhile(lambda it: it.startswith("--"), words))
    words = words[len(options):]
    if len(words) < 7:
        sys.exit(__doc__)
    end = words.index("--") if "--" in words else len(words)
    thorin, app = (Path(it).resolve() for it in words[:2])
    functions, debuggers, wrong, package = words[2].split(","), words[6:end], 0, Path(f"{app}.dwp")
    package.unlink(missing_ok=True)
    of = {it: asked(it if "chroot" not in it else f"{it.rpartition(' ')[0]} env --chdir={app.parent} {it.rpartition(' ')[2]}",
                    app.name, functions, words[3:6], words[end + 1:]) for it in debuggers}
    objects = {it: said(of[it], app.parent) for it in debuggers}
    subprocess.run([thorin, "pack", "--warnings=once", *options, "-o", package.name, "-e", app.name], cwd=app.parent, check=True)
    own = [it for it in options if it in ("--decompress", "--skip-nameless")]
    subprocess.run([thorin, "check", *own, package.name, "-e", app.name], cwd=app.parent, check=True)
    move(app.parent, ".dwo", ".dwo.away")
    try:
        packed = {it: said(of[it], app.parent) for it in debuggers}
        package.unlink()
        bare = {it: said(of[it], app.parent) for it in debuggers}
    finally:
        move(app.parent, ".dwo.away", ".dwo")
    for it in debuggers:
        well = objects[it] == packed[it] != bare[it]
        wrong += not well
        print(f"{it}: {len(objects[it])} lines by objects, {len(packed[it])} by the package, {len(bare[it])} by neither: {'the same by both' if well else 'NOT the same'}")
        if not well:
            print(*(f"  {a}\n  {b}" for a, b in zip(objects[it], packed[it]) if a != b), sep="\n")
    return 1 if wrong else 0


sys.exit(main(sys.argv[1:]))
