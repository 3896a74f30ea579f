#!/usr/bin/env python3
"""Packs split objects at once and in groups, by samples/groups/Makefile, and compares the packages.

    pack_in_groups.py make FOLDER COUNT          compiles COUNT small sources by gcc, g++, clang and clang++ in turn, as DWARF 4
                                                 and as DWARF 5, every second four with type units: FOLDER/4/*.dwo, FOLDER/5/*.dwo
    pack_in_groups.py run FOLDER THORIN GROUPS..      for each number of groups: whether each section of the package has the
                                                 bytes that it has where all is packed at once, and the least wall times of
                                                 five runs, `make -j4` and at once
"""
import pathlib
import struct
import subprocess
import sys
import time
from concurrent.futures import ThreadPoolExecutor

MAKEFILE = pathlib.Path(__file__).parent.parent / "samples" / "groups" / "Makefile"
RUNS = 5

BODY = """struct Shared { int a; const char *name; struct Other { long b; double c; } other; };
struct Own@ { int number@; struct Shared shared; };
static int twice@(struct Own@ *own, int times) { int sum = 0; for (int i = 0; i < times; i++) { sum += own->number@ * i + (int) own->shared.other.b; } return sum; }
int start@(int x) { struct Own@ own; own.number@ = x; own.shared.name = "unit@"; own.shared.other.b = x; return twice@(&own, x) + (int) own.shared.name[0]; }
"""


def make(folder, count):
    calls = []
    for version in ("4", "5"):
        place = folder / version
        place.mkdir(parents=True, exist_ok=True)
        for i in range(count):
            compiler, kind = [("gcc", "c"), ("clang", "c"), ("g++", "cpp"), ("clang++", "cpp")][i % 4]
            source = place / f"unit{i:04}.{kind}"
            source.write_text(BODY.replace("@", str(i)))
            flags = ["-c", "-g", "-O1" if i % 3 else "-O0", f"-gdwarf-{version}", "-gsplit-dwarf"]
            types = ["-fdebug-types-section"] if i % 8 >= 4 else []
            calls.append((place, [compiler, *flags, *types, source.name, "-o", f"unit{i:04}.o"]))
    with ThreadPoolExecutor(4) as pool:
        list(pool.map(lambda call: subprocess.run(call[1], cwd=call[0], check=True), calls))
    for version in ("4", "5"):
        place = folder / version
        (place / "objects.txt").write_text("".join(f"{path}\n" for path in sorted(place.resolve().glob("*.dwo"))))


def sections(path):
    """The contents of a file of 64 bits, little endian, by the names of its sections."""
    data = path.read_bytes()
    headers, = struct.unpack_from("<Q", data, 40)
    _, count, names = struct.unpack_from("<HHH", data, 58)
    rows = [struct.unpack_from("<IIQQQQIIQQ", data, headers + 64 * i) for i in range(count)]
    start = rows[names][4]
    return {data[start + r[0] : data.index(0, start + r[0])].decode(): data[r[4] : r[4] + r[5]] for r in rows}


def timed(words):
    start = time.time()
    subprocess.run(words, check=True, capture_output=True)
    return time.time() - start


def run(folder, thorin, numbers):
    for version in ("4", "5"):
        place = folder / version
        objects = (place / "objects.txt").read_text().split()
        whole = place / "whole.dwp"
        least = min(timed([thorin, "pack", "-o", whole, *objects]) for _ in range(RUNS))
        units = subprocess.run([thorin, "list", whole], check=True, capture_output=True, text=True).stdout.split("\n")
        kinds = [sum(line.startswith(kind) for line in units) for kind in ("cu", "tu")]
        print(f"DWARF {version}: {len(objects)} objects, {kinds[0]} compilation and {kinds[1]} type units, {whole.stat().st_size} bytes; at once {least:.3f} s")
        expected = sections(whole)
        for number in numbers:
            out = place / f"groups{number}.dwp"
            words = ["make", "-s", "-f", MAKEFILE, f"THORIN={thorin}", f"OBJECTS={place}/objects.txt", f"OUT={out}", f"WORK={place}/work{number}", f"GROUPS={number}"]
            times = []
            for _ in range(RUNS):
                subprocess.run([*words, "clean"], check=True, capture_output=True)
                times.append(timed([*words, "-j4"]))
            found = sections(out)
            differ = [name for name in expected | found if name != ".shstrtab" and expected.get(name) != found.get(name)]
            print(f"  {number} groups: {'sections that differ: ' + ' '.join(differ) if differ else 'the same bytes in each section'}; {min(times):.3f} s")


if len(sys.argv) == 4 and sys.argv[1] == "make":
    make(pathlib.Path(sys.argv[2]), int(sys.argv[3]))
elif len(sys.argv) > 4 and sys.argv[1] == "run":
    run(pathlib.Path(sys.argv[2]).resolve(), pathlib.Path(sys.argv[3]).resolve(), sys.argv[4:])
else:
    sys.exit(__doc__)
