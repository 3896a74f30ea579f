#!/usr/bin/env python3
"""c_library.py [OBJECTS [FILES]]: tries lib/libthorin.a (what build-library leaves) beside bin/thorin (what build leaves).

It compiles OBJECTS small sources (60) by gcc, clang, g++ and clang++ with split debug information, versions 4 and 5, packs
them by samples/c/pack.c and by the program, and compares the packages; packs the packages again by both; looks all their
units up by samples/c/lookup.c, which opens a package. Then damaged_calls.c calls each export over FILES damaged files (5000).
All of it plain; with AddressSanitizer and LeakSanitizer, as the compiler CC has them (gcc), which see the caller alone; and
with the library that sanitized_library.py makes of the proved code, where AddressSanitizer sees every read and write inside
too. refused_calls.c makes the calls that allocate with each allocation refused in turn. Last, valgrind, where it is there,
watches a fiftieth of the damaged calls, and the samples, which initialize nothing."""
import os
import shutil
import subprocess
import sys
import tempfile
from pathlib import Path

sys.dont_write_bytecode = True
sys.path.insert(0, str(Path(__file__).resolve().parent))
from sanitized_library import sanitized  # noqa: E402

ROOT = Path(__file__).resolve().parent.parent
DATA = ROOT / "command_lines/data"
CC = os.environ.get("CC", "gcc")
PLAIN = ["-O2"]
SANITIZED = ["-g", "-O1", "-fno-omit-frame-pointer", "-fsanitize=address,undefined", "-fno-sanitize-recover=all"]
DAMAGED = ["hello.dwo", "five.dwo", "loclists.dwo", "strings.dwo", "tx.dwo", "ty.dwo", "tv.dwo", "v.dwo", "big32.dwo",
           "llvm4.dwp", "llvm5.dwp", "x.dwp", "shared.dwp", "rows.dwp", "passed.dwp", "second.dwp", "past.dwp", "app",
           "zlib.dwo", "zlib_older.dwo", "zlib_x.dwo", "zstd.dwo", "zlib_app"]

REFUSED = [["hello.dwo", "five.dwo", "tx.dwo", "zlib.dwo", "zlib_older.dwo", "app", "zlib_app", "x.dwp"],
           ["hello.dwo", "tx.dwo", "ty.dwo", "tv.dwo"], ["hello.dwo", "x.dwo", "y.dwo", "llvm4.dwp"], ["five.dwo", "llvm5.dwp"]]

SOURCE = """
struct node_{n} {{ int value; struct node_{n} *next; char name[{n} + 8]; }};
static struct node_{n} first_{n} = {{ {n}, 0, "node {n}" }};
int sum_{n}(const struct node_{n} *at, int limit) {{
  int total = 0;
  for (int i = 0; i < limit && at; i++) {{ total += at->value * {n}; at = at->next; }}
  return total;
}}
int of_first_{n}(int limit) {{ int seen_{n} = sum_{n}(&first_{n}, limit); return seen_{n} + {n}; }}
"""
TEMPLATE = """
template <typename T> struct pair_{n} {{ T one; T other; T both() const {{ return one + other; }} }};
int both_{n}(int a) {{ pair_{n}<int> p{{a, {n}}}; pair_{n}<long> q{{a, {n}}}; return p.both() + (int)q.both(); }}
"""


def run(*words, **how):
    return subprocess.run([str(word) for word in words], check=True, **how)


def objects(folder, version, count):
    """Split objects of sources that differ, by four compilers in turn."""
    folder.mkdir()
    made = []
    for n in range(count):
        compiler = ("gcc", "clang", "g++", "clang++")[n % 4]
        source = folder / f"s{n}.{'cc' if compiler.endswith('++') else 'c'}"
        source.write_text(SOURCE.format(n=n) + (TEMPLATE.format(n=n) if compiler.endswith("++") else ""))
        types = ["-fdebug-types-section"] if n % 3 == 0 else []
        run(compiler, "-c", "-g", f"-gdwarf-{version}", "-gsplit-dwarf", *types, f"-O{n % 3}", source.name, cwd=folder)
        made.append(folder / f"s{n}.dwo")
    return made


def built(folder, name, source, flags, library):
    run(CC, "-std=c11", "-Wall", "-Wextra", *flags, f"-I{ROOT}/include", "-o", folder / name, source, *library)
    return folder / name


def same(what, one, other):
    if one.read_bytes() != other.read_bytes():
        sys.exit(f"{what}: the files differ")


def try_objects(folder, pack, look_up, version, inputs):
    program, ours, again = folder / "program.dwp", folder / "c.dwp", folder / "again.dwp"
    run(ROOT / "bin/thorin", "pack", "-o", program, *inputs)
    run(*pack, ours, *inputs, stdout=subprocess.DEVNULL)
    same(f"DWARF {version}", program, ours)
    run(*pack, again, ours, stdout=subprocess.DEVNULL)
    run(ROOT / "bin/thorin", "pack", "-o", program, ours)
    same(f"DWARF {version}, packed again", program, again)
    listed = run(*look_up, ours, stdout=subprocess.PIPE).stdout.decode().splitlines()
    units = [line for line in listed if line.startswith(("cu ", "tu "))]
    expected = run(ROOT / "bin/thorin", "list", ours, stdout=subprocess.PIPE).stdout.decode().splitlines()
    if sorted(line.split(":")[0] for line in units) != sorted(" ".join(line.split()[:2]) for line in expected):
        sys.exit(f"DWARF {version}: other units")
    twice = subprocess.run([*pack, folder / "none", *inputs, inputs[0]], stderr=subprocess.PIPE)
    if twice.returncode != 1 or b"(29)" not in twice.stderr or (folder / "none").exists():
        sys.exit(f"DWARF {version}: a unit of a name that is there was taken")
    return f"DWARF {version}: {len(inputs)} objects, {ours.stat().st_size} bytes, {len(units)} units, " \
           f"{sum(line.startswith('  string') for line in listed)} strings"


def main():
    count = int(sys.argv[1]) if len(sys.argv) > 1 else 60
    files = int(sys.argv[2]) if len(sys.argv) > 2 else 5000
    with tempfile.TemporaryDirectory() as name:
        folder = Path(name)
        inputs = {version: objects(folder / f"v{version}", version, count) for version in (4, 5)}
        library = [ROOT / "lib/libthorin.a"]
        kinds = [("plain", PLAIN, library, "pages"), ("sanitized caller", SANITIZED, library, "heap"),
                 ("sanitized inside", ["-g", "-O1"], sanitized(folder / "inside"), "heap")]
        damaged = [DATA / file for file in DAMAGED] + [inputs[4][0], inputs[5][2]]
        for seed, (words, flags, linked, memory) in enumerate(kinds, 1):
            pack = built(folder, f"pack-{words}", ROOT / "samples/c/pack.c", flags, linked)
            look_up = built(folder, f"lookup-{words}", ROOT / "samples/c/lookup.c", flags, linked)
            calls = built(folder, f"calls-{words}", ROOT / "bench/damaged_calls.c", [*flags, "-DTHORIN_CHECK"], linked)
            for version, of in inputs.items():
                print(f"{words}: {try_objects(folder, [pack], [look_up], version, of)}", flush=True)
            # Packages of real objects too, as the last run of the samples left them.
            shutil.copy(folder / "c.dwp", folder / "real.dwp")
            said = run(calls, seed, files, memory, *damaged, folder / "real.dwp", stdout=subprocess.PIPE).stdout
            print(f"{words}: {said.decode().strip()}", flush=True)
        refused = built(folder, "refused", ROOT / "bench/refused_calls.c",
                        [*PLAIN, "-Wl,--wrap=malloc,--wrap=realloc,--wrap=free"], library)
        for names in REFUSED:
            said = run(refused, *(DATA / name for name in names), stdout=subprocess.PIPE).stdout
            print(f"refused memory: {said.decode().strip()}", flush=True)
        if shutil.which("valgrind"):
            watch = ["valgrind", "--quiet", "--error-exitcode=9", "--leak-check=full"]
            pack, look_up, calls = ([*watch, folder / f"{it}-plain"] for it in ("pack", "lookup", "calls"))
            for version, of in inputs.items():
                print(f"valgrind: {try_objects(folder, pack, look_up, version, of)}", flush=True)
            said = run(*calls, 4, files // 50, "heap", *damaged, folder / "real.dwp", stdout=subprocess.PIPE).stdout
            print(f"valgrind: {said.decode().strip()}")


if __name__ == "__main__":
    main()
