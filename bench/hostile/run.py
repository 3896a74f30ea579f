#!/usr/bin/env python3
"""Runs the program over hostile inputs, each at two sizes of which one has four times the counts of the other.

    bench/hostile/run.py [PROGRAM] [--scale N] [--seconds] [--table] [--only WORD]

PROGRAM is bin/thorin, or what a gate's run built. --scale N divides the counts of make_inputs.py, of the larger size; 64 where
it isn't given, which is what the gate runs, in less than a minute of one core. A line for each row has bytes of the input, of
the package and of what was printed, instructions (callgrind's) and the most memory, of the smaller size and of the larger.
--seconds counts seconds of the processor in place of instructions: for a program that valgrind can't run, or larger inputs.
--table prints lines of a table for README.md. --only runs the rows whose name has the word.

A row fails where it costs more than n log n, more memory than a multiple of the bytes that it reads and writes, or ends
otherwise than by status 0 to 2. Rows that are known to grow as a product are told, in brackets those that don't show it at
these sizes, and don't fail. The last line counts; the status is 1 where a row failed.
"""
import math
import os
import re
import shutil
import subprocess
import sys
import tempfile
from dataclasses import dataclass

sys.dont_write_bytecode = True
HERE = os.path.dirname(os.path.realpath(__file__))
sys.path.insert(0, HERE)
import make_inputs  # noqa: E402

TOP = os.path.dirname(os.path.dirname(HERE))
BUILT = [f"{TOP}/bin/thorin", f"{TOP}/crates/thorin_bin/out/thorin_bin"]
# How the program is run on an input: {at} is the folder of the input, {it} its path.
WAYS = {
    "pack": "pack -o {at}/out.dwp {it}",
    "overlap": "pack --allow-overlap -o {at}/out.dwp {it}",
    "exe": "pack -o {at}/out.dwp --skip-missing -e {it}",
    "partial": "pack -o {at}/out.dwp --partial -e {it}",
    "missing": "pack --missing -e {it}",
    "list": "list {it}",
    "list --names --json": "list --names --json {it}",
    "pack --archives": "pack -v --archives -o {at}/out.dwp {it}",
    "prefixes": "pack -o {at}/out.dwp --partial @{at}/maps -e {it}",
    "check": "check {it}",
    "check -e": "check {at}/one_unit.dwp -e {it}",
    "decompress": "pack --decompress -o {at}/out.dwp {it}",
    "exe decompress": "pack --decompress -o {at}/out.dwp --skip-missing -e {it}",
    "check -e decompress": "check {at}/one_unit.dwp --decompress -e {it}",
    "response": "pack -o {at}/out.dwp @{it}",
}
LIMIT = 300
# What may be more than n log n: how full tables are differs.
SLACK = 1.3
# A row whose larger input costs less than this, beyond what the program costs without one, isn't judged by its growth.
LEAST = {"instructions": 1_000_000, "seconds": 0.05}
# A row whose larger input costs no more instructions than this for each byte that is read, put into the package or printed is
# well below n log n: those of its smaller one aren't counted, since valgrind takes half a second to begin.
CHEAP = 100
# How many bytes may be held for each byte that is read, put into the package or printed, and beside them; what a
# list prints isn't counted. A unit of 20 bytes has some 150 in rows and names, and up to 530 more where it shares its row with none.
BYTES_HELD = 40
BYTES_BESIDE = 8 << 20
# How many bytes may be printed for each byte that is read, and beside them; a list of names has that of a unit for each row.
BYTES_PRINTED = 40
PRINTED_BESIDE = 1 << 16


@dataclass
class Cost:
    read: int
    made: int
    printed: int
    held: int
    work: float
    status: str

    def all(self):
        return self.read + self.made + self.printed


def size_of(folder):
    return sum(os.path.getsize(os.path.join(folder, name)) for name in os.listdir(folder))


def instructions(words, folder):
    """What callgrind counts."""
    log = f"{folder}/valgrind.log"
    watch = ["valgrind", "--tool=callgrind", "--vgdb=no", "--callgrind-out-file=/dev/null", f"--log-file={log}"]
    try:
        subprocess.run([*watch, *words], stdin=subprocess.DEVNULL, stdout=subprocess.DEVNULL, stderr=subprocess.DEVNULL, timeout=LIMIT, check=False)
        with open(log, encoding="utf-8", errors="replace") as it:
            found = re.search(r"Collected : (\d+)", it.read())
        return int(found[1]) if found else math.nan
    except subprocess.TimeoutExpired:
        return math.inf
    finally:
        if os.path.exists(log):
            os.remove(log)


def measure(program, row, count, is_seconds, counts):
    with tempfile.TemporaryDirectory(dir="/dev/shm" if os.path.isdir("/dev/shm") else None) as at:
        path = f"{at}/{row.name}"
        make_inputs.write(path, row.make(count, at))
        read = size_of(at)
        words = [program, *WAYS[row.way].format(at=at, it=path).split()]
        told = f"{at}/time"
        with open(f"{at}/printed", "wb") as out:
            # (GNU time is small itself: what it tells of memory is the program's)
            ran = subprocess.run(["/usr/bin/time", "-o", told, "-f", "%M %U %S", "timeout", str(LIMIT), *words], stdin=subprocess.DEVNULL, stdout=out, stderr=out, check=False)
        with open(told, encoding="utf-8") as it:
            held, user, system = it.read().split()[-3:]
        printed, made = os.path.getsize(f"{at}/printed"), os.path.getsize(f"{at}/out.dwp") if os.path.exists(f"{at}/out.dwp") else 0
        os.remove(f"{at}/printed")
        work = float(user) + float(system) if is_seconds else instructions(words, at) if counts else 0.0
        return Cost(read, made, printed, int(held) << 10, work, str(ran.returncode))


def grows(small, large, least, low, high):
    """Whether the larger of two costs is more than n log n allows, for these counts."""
    if large < least or low == high:
        return False
    allowed = high / low * math.log2(high) / math.log2(low)
    return large > SLACK * allowed * max(small, least / 16)


def faults(row, scale, small, large, base, is_seconds):
    """What is wrong with a row."""
    least = LEAST["seconds" if is_seconds else "instructions"]
    low, high = make_inputs.count_of(row, 4 * scale), make_inputs.count_of(row, scale)
    wrong = []
    if math.isnan(large.work):
        wrong.append("valgrind counted nothing")
    if math.isinf(large.work) or small.work and grows(small.work - base, large.work - base, least, low, high):
        wrong.append("past n log n")
    if grows(small.made + small.printed, large.made + large.printed, 1 << 16, low, high):
        wrong.append("writes more than n log n")
    if large.printed > PRINTED_BESIDE + BYTES_PRINTED * large.read and not row.way.startswith("list --names"):
        wrong.append(f"prints past {BYTES_PRINTED} times the bytes")
    if large.held > BYTES_BESIDE + BYTES_HELD * (large.read + large.made if row.way.startswith("list") else large.all()):
        wrong.append(f"past {BYTES_HELD} times the bytes")
    if {small.status, large.status} - {"0", "1", "2"}:
        wrong.append(f"status {small.status}, {large.status}")
    return wrong


def work_text(work, is_seconds):
    return f"{work:.2f} s" if is_seconds else f"{work / 1e6:.1f} M" if work else "-"


def line(row, small, large, is_seconds, is_table):
    cells = []
    for it in (small, large):
        cells += [f"{it.read:,}", f"{it.made + it.printed:,}", work_text(it.work, is_seconds), f"{it.held / (1 << 20):.0f} MiB"]
    if is_table:
        return f"| {row.way} | {row.name} | " + " | ".join(cells) + f" | {row.known or ''} |"
    return f"{row.way} {row.name}: " + ", ".join(cells[:4]) + "; " + ", ".join(cells[4:])


def start_of(program, is_seconds):
    """What the program costs without an input."""
    with tempfile.TemporaryDirectory() as at:
        return 0.0 if is_seconds else instructions([program, "--version"], at)


def main(program, scale, is_seconds, is_table, word):
    base, judged, failed, past, known = start_of(program, is_seconds), 0, 0, 0, {}
    for row in make_inputs.ROWS:
        if word not in row.name:
            continue
        large = measure(program, row, make_inputs.count_of(row, scale), is_seconds, True)
        is_cheap = not (is_seconds or is_table) and large.work - base <= CHEAP * large.all() and not row.known
        small = measure(program, row, make_inputs.count_of(row, 4 * scale), is_seconds, not is_cheap) if row.count > 1 else large
        wrong = faults(row, scale, small, large, base, is_seconds)
        judged, past = judged + 1, past + bool(wrong)
        if row.known and not any(it.startswith("status") for it in wrong):
            known.setdefault(row.known, []).append(f"{row.way} {row.name}" if wrong else f"({row.way} {row.name})")
        elif wrong:
            failed += 1
        verdict = (": known: " if row.known else ": FAILED: ") + ", ".join(wrong) if wrong else ""
        print(line(row, small, large, is_seconds, is_table) + ("" if is_table else verdict), flush=True)
    if is_table:
        return 0
    for why, rows in known.items():
        print(f"open: {why}: {', '.join(rows)}")
    print(f"{past} of {judged} rows past n log n or past {BYTES_HELD} times the bytes, {past - failed} of them known")
    return 1 if failed else 0


def option(words, name, default):
    if name not in words:
        return default
    at = words.index(name)
    value = words[at + 1]
    del words[at : at + 2]
    return value


if __name__ == "__main__":
    given = sys.argv[1:]
    size, only = int(option(given, "--scale", "64")), option(given, "--only", "")
    flags = {it for it in given if it.startswith("--")}
    named = [it for it in given if it not in flags] or [it for it in BUILT if os.path.exists(it)][:1]
    if len(named) != 1 or flags - {"--seconds", "--table"}:
        sys.exit(__doc__)
    if "--seconds" not in flags and not shutil.which("valgrind"):
        sys.exit("run.py: instructions are counted by valgrind, which isn't here")
    sys.exit(main(os.path.realpath(named[0]), size, "--seconds" in flags, "--table" in flags, only))
