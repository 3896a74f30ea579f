#!/usr/bin/env python3
"""Packs real sources with and without compressed sections, and compares the packages byte for byte.

    bench/decompress_sources.py THORIN LUA FMT RE2

The folders are those of the sources (Debian: apt-get source lua5.4 fmtlib re2). Each is compiled by gcc and clang, DWARF 4
and 5, plainly and by -gz; the package by --decompress must have the plain one's bytes, and without that option the compressed
objects are refused. gcc gives a unit another identifier in each run, so its compressed objects are assembled from the plain
ones' assembly.
"""
import itertools
import pathlib
import subprocess
import sys
import tempfile

COMPILERS = {"c": ("gcc", "clang"), "cc": ("g++", "clang++")}


def sources(lua, fmt, re2):
    """The name of each set, its files, the ending that tells its language, and the words of its compiler."""
    yield "lua", sorted(it for it in lua.glob("src/*.c") if it.name != "luac.c"), "c", [f"-I{lua}/src"]
    # (the file of the module is for another way of compiling)
    yield "fmt", sorted(it for it in fmt.glob("src/*.cc") if it.name != "fmt.cc"), "cc", [f"-I{fmt}/include", "-std=c++17"]
    files = [*re2.glob("re2/*.cc"), *re2.glob("util/[rs]*.cc")]
    yield "re2", sorted(files), "cc", [f"-I{re2}", "-std=c++17"]


def compiled(folder, compiler, files, flags, packing):
    """The split units' files of these sources, as a compiler leaves them in the folder."""
    for old in folder.glob("*.dwo"):
        old.unlink()
    for at, file in enumerate(files):
        split, part = [compiler, "-O1", "-g", "-gsplit-dwarf", *flags], f"unit{at}"
        if not compiler.startswith("g"):
            subprocess.run([*split, *packing, "-c", file, "-o", f"{part}.o"], cwd=folder, check=True)
            continue
        if not packing:
            subprocess.run([*split, "-S", file, "-o", f"{part}.s"], cwd=folder, check=True)
        subprocess.run([compiler, "-gsplit-dwarf", *packing, "-c", f"{part}.s", "-o", f"{part}.o"], cwd=folder, check=True)
    return sorted(folder.glob("*.dwo"))


def packed(thorin, folder, objects, *options):
    """The bytes of the package, or None where the objects are refused."""
    done = subprocess.run([thorin, "pack", *options, "--force", "-o", "out.dwp", *objects], cwd=folder, capture_output=True, check=False)
    return None if done.returncode else (folder / "out.dwp").read_bytes()


def main():
    if len(sys.argv) != 5:
        sys.exit(__doc__)
    thorin, *folders = (pathlib.Path(it).resolve() for it in sys.argv[1:])
    alike = count = 0
    with tempfile.TemporaryDirectory() as room:
        folder = pathlib.Path(room)
        for (name, files, ending, flags), version in itertools.product(list(sources(*folders)), (4, 5)):
            for compiler in COMPILERS[ending]:
                words = [*flags, f"-gdwarf-{version}"]
                plain = packed(thorin, folder, compiled(folder, compiler, files, words, []))
                objects = compiled(folder, compiler, files, words, ["-gz"])
                is_refused = packed(thorin, folder, objects) is None
                is_alike = is_refused and plain is not None and packed(thorin, folder, objects, "--decompress") == plain
                alike, count = alike + is_alike, count + 1
                print(f"{name}, {compiler}, DWARF {version}: {len(objects)} objects, {'alike' if is_alike else 'NOT ALIKE'}", flush=True)
    print(f"{alike} of {count} alike")
    return 0 if alike == count else 1


if __name__ == "__main__":
    sys.exit(main())
