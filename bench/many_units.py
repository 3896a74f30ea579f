#!/usr/bin/env python3
"""How long do `list` and `check` take on a package of many units, beside llvm-dwarfdump?

    bench/many_units.py PROGRAM [UNITS]      UNITS is 100,000 where it isn't given

The package has units of DWARF 4, each with abbreviations and ten string offsets of its own, in an order of rows that isn't
that of slots. A line for each command: the least seconds of processor that one of five runs took, and its instructions where
valgrind is."""
import os
import random
import re
import resource
import shutil
import subprocess
import sys
import tempfile

sys.dont_write_bytecode = True
sys.path.insert(0, f"{os.path.dirname(os.path.realpath(__file__))}/hostile")
from make_inputs import ABBREVIATIONS, elf, index, numbers, unit, write  # noqa: E402


def package(count):
    chance = random.Random(7)
    ids = chance.sample(range(1, 1 << 63), count)
    units = [unit(id) for id in ids]
    strings = b"".join(b"s%06d\0" % i for i in range(1000))
    entries = numbers(8 * chance.randrange(1000) for _ in range(10 * count))
    offsets, sizes = [], []
    for i, one in enumerate(units):
        offsets += [i * len(one), i * len(ABBREVIATIONS), 40 * i]
        sizes += [len(one), len(ABBREVIATIONS), 40]
    return elf([
        (".debug_info.dwo", b"".join(units)), (".debug_abbrev.dwo", ABBREVIATIONS * count), (".debug_str.dwo", strings),
        (".debug_str_offsets.dwo", entries), (".debug_cu_index", index(ids, [1, 3, 6], offsets, sizes)),
    ])


def seconds(words):
    before = resource.getrusage(resource.RUSAGE_CHILDREN)
    subprocess.run(words, stdout=subprocess.DEVNULL, check=True)
    after = resource.getrusage(resource.RUSAGE_CHILDREN)
    return after.ru_utime + after.ru_stime - before.ru_utime - before.ru_stime


def instructions(words):
    if not shutil.which("valgrind"):
        return ""
    ran = subprocess.run(["valgrind", "--tool=callgrind", "--callgrind-out-file=/dev/null", *words], stdout=subprocess.DEVNULL, stderr=subprocess.PIPE, text=True, check=True)
    return f", {int(re.search(r'refs: *([0-9,]+)', ran.stderr)[1].replace(',', '')) // 1000000} million instructions"


def main(program, count):
    with tempfile.TemporaryDirectory(dir="/dev/shm" if os.path.isdir("/dev/shm") else None) as folder:
        path = f"{folder}/many.dwp"
        write(path, package(count))
        for words in ([program, "list"], [program, "check"], ["llvm-dwarfdump", "--debug-cu-index"]):
            took = min(seconds([*words, path]) for _ in range(5))
            print(f"{os.path.basename(words[0])} {words[1]}: {took:.2f} s{instructions([*words, path])}", flush=True)


if __name__ == "__main__":
    if not 2 <= len(sys.argv) <= 3:
        sys.exit(__doc__)
    main(os.path.realpath(sys.argv[1]), int((sys.argv[2:3] or ["100000"])[0]))
