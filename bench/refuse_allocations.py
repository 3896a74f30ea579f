#!/usr/bin/env python3
"""Runs rows, or the program, with one allocation refused, for each in turn.

    bench/refuse_allocations.py CRATE..      all files of a program of rows
    bench/refuse_allocations.py CRATE/FILE   one of these files, or a script of test_packages
    bench/refuse_allocations.py --program    pack, pack -e, find, list and check

`rt ci` has built the programs before. Each file of rows and each command is run with its first allocation refused, then with
its second, and so on until a run meets no refusal. A row has to give what it gives without a refusal, or to say `Memory`, unless
memory is refused for what is printed, so that nothing is; a command has to tell `error: Out of memory`, with at most one note of
the file behind it, and end with status 1, or to give all that it gives without a refusal. Wants a C compiler that splits DWARF,
and glibc.
"""
import glob
import os
import re
import subprocess
import sys
import tempfile

HERE = os.path.dirname(os.path.abspath(__file__))
CRATES = os.path.join(HERE, "..", "crates")
# Calls of rows that say whether something is there, and not why it isn't: of these only that they answer.
OF_YES_AND_NO = {"crowded", "written"}


def refuse_in_turn(name, words, shim, why_wrong, at=None):
    """Runs the words with each allocation refused in turn; how many runs went wrong, by what a run printed and ended with."""
    failed, number, refused = 0, 0, True
    while refused:
        number += 1
        environment = dict(os.environ, LD_PRELOAD=shim, REFUSED=str(number))
        done = subprocess.run(words, cwd=at, env=environment, capture_output=True, text=True, timeout=60)
        refused = "refused\n" in done.stderr
        why = why_wrong(done.returncode, done.stdout, done.stderr.replace("refused\n", ""), refused)
        if why:
            failed += 1
            print(f"{name}: at allocation {number}: {why}")
    print(f"{name}: {number - 1} allocations refused in turn")
    return failed


def files_of(asked):
    """The files of rows that a word asks for."""
    if "/" in asked:
        return [asked]
    return [f"{asked}/{os.path.basename(it)}" for it in sorted(glob.glob(os.path.join(CRATES, asked, "data", "*.rows")))]


def rows_of(printed):
    """The rows that were printed, each with its answer: of a script behind its line, else behind four blanks."""
    rows, is_script = [], "\n$ " in printed
    for line in printed.splitlines():
        begins = line.startswith(("$ ", "# ", "== ")) if is_script else not line.startswith("    ")
        if begins or not rows:
            rows.append(line)
        else:
            rows[-1] += f"\n{line}"
    return rows


def refuse_in_rows(file, shim):
    """A file of rows, each of which answers as without a refusal or that memory was refused."""
    crate, name = file.split("/")
    words, at = [os.path.join(CRATES, crate, "out", crate), name], os.path.join(CRATES, crate, "data")
    whole = rows_of(subprocess.run(words, cwd=at, capture_output=True, text=True, check=True).stdout)

    def why_wrong(status, printed, told, refused):
        if status:
            return "" if refused and status == 1 and not printed and "emory" in told else f"status {status}, {told!r}"
        rows = rows_of(printed)
        named = (it for it in zip(rows, whole) if it[1].split(" ")[0] not in OF_YES_AND_NO)
        wrong = [it for it, wanted in named if it != wanted and "Memory" not in it]
        return wrong[0] if wrong else "" if len(rows) == len(whole) else f"{len(rows)} rows"

    return refuse_in_turn(file, words, shim, why_wrong, at)


def refuse_in_program(folder, shim):
    """The commands over a program of two files that this makes with split DWARF."""
    thorin = os.path.join(CRATES, "thorin_bin", "out", "thorin_bin")
    with open(f"{folder}/one.c", "w", encoding="utf-8") as it:
        it.write("int two(int); int main(void) { return two(1); }\n")
    with open(f"{folder}/two.c", "w", encoding="utf-8") as it:
        it.write("struct pair { int first, second; }; int two(int n) { struct pair p = {n, n}; return p.first - p.second; }\n")
    for words in ["cc -g -gsplit-dwarf -c one.c two.c", "cc -o app one.o two.o"]:
        subprocess.run(words.split(), cwd=folder, check=True)
    packed = f"{folder}/app.dwp"
    subprocess.run([thorin, "pack", "-o", packed, "-e", f"{folder}/app"], cwd=folder, check=True)
    listed = subprocess.run([thorin, "list", packed], capture_output=True, text=True, check=True).stdout.split()
    identifier = next(it for it in listed if it.startswith("0x"))
    pack = [thorin, "pack", "-o", f"{folder}/other.dwp"]
    commands = {
        "pack": [*pack, f"{folder}/one.dwo", f"{folder}/two.dwo"],
        "pack -e": [*pack, "-e", f"{folder}/app"],
        "find": [thorin, "find", packed, "cu", identifier],
        "list": [thorin, "list", packed],
        "check": [thorin, "check", packed, "-e", f"{folder}/app"],
    }

    failed = 0
    for name, words in commands.items():
        # (what a run without a refusal gives)
        whole = subprocess.run(words, capture_output=True, text=True, check=True).stdout, bytes_of(f"{folder}/other.dwp")

        def why_wrong(status, printed, told, refused, whole=whole):
            is_refused = refused and status == 1 and re.fullmatch(r"error: Out of memory\n(note: .*\n)?", told)
            is_whole = (status, told) == (0, "") and (printed, bytes_of(f"{folder}/other.dwp")) == whole
            return "" if is_refused or is_whole else f"status {status}, {told!r}"

        failed += refuse_in_turn(f"thorin {name}", words, shim, why_wrong)
    return failed


def bytes_of(path):
    """The bytes of a file, or none where it isn't there."""
    if not os.path.exists(path):
        return b""
    with open(path, "rb") as it:
        return it.read()


def main(asked):
    failed = 0
    with tempfile.TemporaryDirectory() as folder:
        shim = os.path.join(folder, "refuse_allocation.so")
        source = os.path.join(HERE, "refuse_allocation.c")
        subprocess.run(["cc", "-O1", "-shared", "-fPIC", "-o", shim, source], check=True)
        for it in asked:
            if it == "--program":
                failed += refuse_in_program(folder, shim)
            else:
                failed += sum(refuse_in_rows(file, shim) for file in files_of(it))
    print(f"{failed} runs failed")
    return 1 if failed else 0


if __name__ == "__main__":
    sys.exit(main(sys.argv[1:]))
