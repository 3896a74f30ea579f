#!/usr/bin/env python3
"""Shows what comes of compressed inputs.

decompress.py THORIN INFLATE [FOLDER]: THORIN is the program, INFLATE that of inflate.source (bench/run_source --keep INFLATE
inflate FILE leaves it). Works in FOLDER, else in a temporary one. It needs gcc, clang, gdb, lldb and llvm-symbolizer; each call of
these readers has a time limit.

1. Streams of each kind that Python's zlib writes, and damaged ones: INFLATE gives Python's bytes, or a fault where Python has
   one. A stream that gives far more than was said takes no memory for it.
2. Programs compiled with -gz or with older names, by both compilers, DWARF 4 and 5, linked with compressed sections: the
   package by --decompress, and under the name dwp, has the bytes of that of the same sources without -gz.
3. Readers (gdb, lldb, llvm-symbolizer) say of both packages the same, and whether that is more than without a package.
4. How long INFLATE takes beside Python's zlib on the sections of those objects.
"""
import itertools
import pathlib
import random
import struct
import subprocess
import sys
import tempfile
import time
import zlib

SOURCES = {
    "words": ("c", "#include <stdio.h>\n#include <string.h>\nstruct word { const char *text; int count; };\n"
              "static int longer(struct word a, struct word b) { return strlen(a.text) > strlen(b.text); }\n"
              "int main(int argc, char **argv) {\n  struct word first = { argv[0], argc }, second = { \"word\", 2 };\n"
              "  int is = longer(first, second);\n  printf(\"%d\\n\", is);\n  return 0;\n}\n"),
    "maps": ("cc", "#include <map>\n#include <string>\n#include <vector>\n#include <cstdio>\n"
             "template <class T> T last(const std::vector<T> &all) { return all.back(); }\n"
             "int main() {\n  std::map<std::string, std::vector<int>> lists;\n  lists[\"a\"] = {1, 2, 3};\n"
             "  int found = last(lists[\"a\"]);\n  std::printf(\"%d\\n\", found);\n  return 0;\n}\n"),
    "shapes": ("cc", "#include <memory>\n#include <algorithm>\n#include <functional>\n#include <vector>\n#include <cstdio>\n"
               "struct Shape { virtual ~Shape() {} virtual double area() const = 0; };\n"
               "struct Square : Shape { double side; Square(double s) : side(s) {} double area() const { return side * side; } };\n"
               "int main() {\n  std::vector<std::unique_ptr<Shape>> all;\n  for (int i = 0; i < 4; i++)"
               " all.push_back(std::make_unique<Square>(i));\n"
               "  double most = 0;\n  for (auto &it : all) most = std::max(most, it->area());\n"
               "  std::printf(\"%g\\n\", most);\n  return 0;\n}\n"),
}


def run(*words, **more):
    return subprocess.run([str(it) for it in words], check=True, stdout=subprocess.PIPE, stderr=subprocess.PIPE, **more).stdout


# ---- 1. streams


def packed(data, *settings, flushes=()):
    """A stream by these settings: level, method, window bits, memory level, strategy; with flushes in between."""
    maker, out, step = zlib.compressobj(*settings), b"", max(1, len(data) // (len(flushes) + 1))
    for at, flush in enumerate(flushes):
        out += maker.compress(data[at * step:(at + 1) * step]) + maker.flush(flush)
    return out + maker.compress(data[len(flushes) * step:]) + maker.flush()


def kinds(text):
    """Streams of each kind: levels, strategies, windows, flushes."""
    for level in range(10):
        yield packed(text, level)
    for strategy in (zlib.Z_DEFAULT_STRATEGY, zlib.Z_FILTERED, zlib.Z_HUFFMAN_ONLY, zlib.Z_RLE, zlib.Z_FIXED):
        yield packed(text, 9, zlib.DEFLATED, 15, 8, strategy)
    for window in range(9, 15):
        yield packed(text, 6, zlib.DEFLATED, window)
    for memory in (1, 5, 9):
        yield packed(text, 6, zlib.DEFLATED, 15, memory)
    for flush in (zlib.Z_PARTIAL_FLUSH, zlib.Z_SYNC_FLUSH, zlib.Z_FULL_FLUSH, zlib.Z_BLOCK):
        yield packed(text, 6, flushes=[flush] * 5)
    yield packed(b"", 6)
    yield packed(bytes(100_000), 9)


def damaged(streams, count):
    """Streams with a few bytes changed, cut off, or put in twice."""
    chance = random.Random(36)
    for i in range(count):
        size, stream = chance.choice(streams)
        out, how = bytearray(stream), i % 4
        if how < 2:
            for _ in range(how + 1):
                out[chance.randrange(2, len(out))] ^= 1 << chance.randrange(8)
        elif how == 2:
            del out[chance.randrange(len(out)):]
        else:
            at = chance.randrange(len(out))
            out[at:at] = out[at:at + chance.randrange(1, 9)]
        yield size, bytes(out)


def by_python(size, stream):
    """What Python gives of a stream that is to give so many bytes; None for a fault."""
    reader = zlib.decompressobj()
    try:
        out = reader.decompress(stream, size + 1)
        out += reader.decompress(reader.unconsumed_tail, 1) if len(out) == size and not reader.eof else b""
    except zlib.error:
        return None
    return out if reader.eof and len(out) == size else None


def by_program(program, folder, streams):
    """What the program gives of streams, None for a fault, and the names of faults."""
    (folder / "streams").write_bytes(written(streams))
    out, at, faults = run(program, folder / "streams"), 0, {}
    given = []
    for _ in streams:
        end = out.index(b"\n", at)
        words, at = out[at:end].split(), end + 1
        if words[0] == b"ok":
            given.append(out[at:at + int(words[1])])
            at += int(words[1])
        else:
            faults[words[0].decode()] = faults.get(words[0].decode(), 0) + 1
            given.append(None)
    return given, faults


def written(streams):
    return b"".join(struct.pack("<QQ", size, len(stream)) + stream for size, stream in streams)


def show_streams(program, folder, text):
    whole = [(len(by_python_alone(it)), it) for it in kinds(text)]
    given, faults = by_program(program, folder, whole)
    alike = sum(one == by_python(*it) and one is not None for one, it in zip(given, whole))
    print(f"streams: {len(whole)} kinds, {alike} alike")
    bad = list(damaged([it for it in whole if len(it[1]) > 20], 2000))
    given, faults = by_program(program, folder, bad)
    expected = [by_python(*it) for it in bad]
    alike = sum(one == other for one, other in zip(given, expected))
    told = ", ".join(f"{name} {count}" for name, count in sorted(faults.items(), key=lambda it: -it[1]))
    print(f"damaged: {len(bad)}, {alike} alike, of these {sum(it is not None for it in expected)} read; faults: {told}")
    for one, other, it in zip(given, expected, bad):
        if one != other:
            print(f"  differs: {'read' if one is not None else 'fault'}, Python {'read' if other is not None else 'fault'}")
    return alike == len(bad)


def by_python_alone(stream):
    return zlib.decompress(stream)


# A small process between: what a child takes counts from its parent's size on.
MEASURED = """
import os, subprocess, sys
child = subprocess.Popen(sys.argv[1:], stdout=subprocess.PIPE)
print(child.stdout.readline().decode().strip())
while child.stdout.read(1 << 16):
    pass
print(os.wait4(child.pid, 0)[2].ru_maxrss)
"""


def show_bomb(program, folder):
    """The most memory that a run takes of a stream of 256 MiB that says 1,000 bytes, or what it gives."""
    bomb = packed(bytes(2 ** 28), 9)
    for said in (1000, 2 ** 28):
        (folder / "streams").write_bytes(written([(said, bomb)]))
        told, most = run(sys.executable, "-c", MEASURED, program, folder / "streams").decode().split("\n")[:2]
        print(f"bomb: {len(bomb)} bytes, {said} said: {told}, {int(most) / 1024:.0f} MiB at most")


# ---- 2. packages


def compiled(folder, compiler, version, name, packing, link):
    """The object and the executable of a source; split units are in the object."""
    kind, text = SOURCES[name]
    folder.mkdir(parents=True, exist_ok=True)
    (folder / f"{name}.{kind}").write_text(text)
    program = {"c": {"gcc": "gcc", "clang": "clang"}, "cc": {"gcc": "g++", "clang": "clang++"}}[kind][compiler]
    flags = ["-gno-record-gcc-switches"] if compiler == "gcc" else []
    run(program, f"-gdwarf-{version}", "-gsplit-dwarf", "-fdebug-prefix-map=" + str(folder) + "=.", *flags, *packing,
        "-c", f"{name}.{kind}", "-o", f"{name}.o", cwd=folder)
    run(program, *link, f"{name}.o", "-o", name, cwd=folder)
    return folder / f"{name}.dwo", folder / name


def older_by_objcopy(made):
    """The same files with older names, for a compiler that doesn't know -gz=zlib-gnu."""
    for file in made:
        run("objcopy", "--compress-debug-sections=zlib-gnu", file)
    return made


WAYS = {"-gz": (["-gz"], ["-Wl,--compress-debug-sections=zlib"]),
        "zlib-gnu": (["-gz=zlib-gnu"], ["-Wl,--compress-debug-sections=zlib-gnu"])}


def is_compressed(file):
    told = run("readelf", "-SW", file).decode()
    return ".zdebug_" in told or any(line.split("]")[1].split()[6:7] and "C" in line.split("]")[1].split()[6]
                                     for line in told.splitlines() if "] .debug" in line)


def show_packages(thorin, folder):
    dwp = folder / "dwp"
    dwp.unlink(missing_ok=True)
    dwp.symlink_to(thorin)
    pairs, faults = [], 0
    for (way, (packing, link)), compiler, version in itertools.product(WAYS.items(), ("gcc", "clang"), (4, 5)):
        here = folder / f"{compiler}{version}{way}"
        told = []
        for name in SOURCES:
            at = here / "x"
            try:
                plain = compiled(at, compiler, version, name, [], [])
                run(thorin, "pack", "-o", here / "plain.dwp", plain[0], cwd=at)
                run(thorin, "pack", "-o", here / "plain_of.dwp", "-e", plain[1], cwd=at)
                if compiler == "clang" and way == "zlib-gnu":
                    made = older_by_objcopy(plain)
                else:
                    made = compiled(at, compiler, version, name, packing, link)
            except subprocess.CalledProcessError as fault:
                told.append(f"{name} not made: {fault.stderr.decode().splitlines()[-1:]}")
                continue
            refused = subprocess.run([thorin, "pack", "-o", here / "none.dwp", made[0]], stderr=subprocess.PIPE, cwd=at)
            run(thorin, "pack", "--decompress", "-o", here / f"{name}.dwp", made[0], cwd=at)
            run(thorin, "pack", "--decompress", "-o", here / "of.dwp", "-e", made[1], cwd=at)
            run(dwp, "-o", here / "by_name.dwp", "-e", made[1], cwd=at)
            wanted = (here / "plain.dwp").read_bytes()
            alike = [(here / it).read_bytes() == wanted for it in (f"{name}.dwp", "of.dwp", "by_name.dwp", "plain_of.dwp")]
            (here / f"{name}_plain.dwp").write_bytes(wanted)
            if not (all(alike) and is_compressed(made[0]) and refused.returncode == 1):
                faults += 1
                told.append(f"{name}: {alike}, compressed {is_compressed(made[0])} {is_compressed(made[1])}")
            pairs.append((compiler, version, here, name, made[1]))
        print(f"{way}, {compiler}, DWARF {version}: {', '.join(told) if told else 'all packages alike'}")
    return pairs, faults


# ---- 3. readers


def told_by(reader, executable, package):
    """What a reader tells of an executable with that package beside it (None: with none), and nothing else of its split units;
    None where the reader itself crashes or doesn't end."""
    beside = executable.with_name(executable.name + ".dwp")
    beside.unlink(missing_ok=True)
    if package:
        beside.write_bytes(package.read_bytes())
    if reader == "gdb":
        words = ["gdb", "-nx", "-batch", "-ex", "break main", "-ex", "run", "-ex", "next", "-ex", "bt", "-ex", "info locals",
                 "-ex", "info scope main", str(executable)]
    elif reader == "lldb":
        words = ["lldb", "-x", "-b", "-o", "breakpoint set -n main", "-o", "run", "-o", "next", "-o", "bt", "-o",
                 "frame variable", str(executable)]
    else:
        places = [line.split()[0] for line in run("nm", executable).decode().splitlines() if " T main" in line]
        words = ["llvm-symbolizer", f"--obj={executable}", "--functions", "--inlines", *(f"0x{it}" for it in places)]
    try:
        done = subprocess.run(words, stdout=subprocess.PIPE, stderr=subprocess.STDOUT, timeout=60, cwd=executable.parent)
    except subprocess.TimeoutExpired:
        return None
    finally:
        beside.unlink(missing_ok=True)
    told = done.stdout.decode(errors="replace")
    if done.returncode < 0 or "A fatal error internal to GDB" in told or "PLEASE submit a bug report" in told:
        return None
    return [line for line in told.splitlines() if "0x7ff" not in line and "rocess" not in line]


def show_readers(pairs):
    counts = {}
    for compiler, version, here, name, executable in pairs:
        for reader in ("gdb", "lldb", "llvm-symbolizer"):
            objects = [(it, it.read_bytes()) for it in executable.parent.glob("*.dwo")]
            for it, _ in objects:
                it.unlink()
            one, other = (told_by(reader, executable, here / f"{name}{it}.dwp") for it in ("", "_plain"))
            without = told_by(reader, executable, None)
            for it, data in objects:
                it.write_bytes(data)
            if one is None or other is None:
                told = "crashes with both" if one is other else "crashes with one"
            elif one != other:
                told = "differs"
            else:
                told = "the same" if one != without else "the same, and without a package"
            kinds = counts.setdefault((reader, version), {})
            kinds[told] = kinds.get(told, 0) + 1
    for (reader, version), kinds in sorted(counts.items()):
        print(f"{reader}, DWARF {version}: {', '.join(f'{it} {count}' for it, count in kinds.items())}")


# ---- 4. speed


def show_speed(program, folder, sections):
    streams = [(len(it), zlib.compress(it)) for it in sections]
    (folder / "streams").write_bytes(written(streams))
    told = run(program, folder / "streams", 15).decode()
    own = int(told.split()[0])
    least = None
    for _ in range(15):
        start = time.perf_counter_ns()
        for size, stream in streams:
            zlib.decompress(stream, bufsize=size)
        took = time.perf_counter_ns() - start
        least = took if least is None else min(least, took)
    total = sum(size for size, _ in streams)
    print(f"speed: {total} bytes of {len(streams)} sections: {total / own * 1000:.0f} MB/s, "
          f"zlib {zlib.ZLIB_RUNTIME_VERSION} {total / least * 1000:.0f} MB/s, {least / own:.2f} of it")


def sections_of(folder):
    """The debug sections of all objects below a folder, plain."""
    for file in sorted(folder.rglob("*.dwo")):
        plain = folder / "plain"
        run("objcopy", "--decompress-debug-sections", file, plain)
        for line in run("readelf", "-SW", plain).decode().splitlines():
            if "] .debug_" in line:
                words = line.split("]")[1].split()
                yield plain.read_bytes()[int(words[3], 16):][:int(words[4], 16)]


def main():
    if len(sys.argv) not in (3, 4):
        sys.exit(__doc__)
    thorin, inflate = (pathlib.Path(it).resolve() for it in sys.argv[1:3])
    folder = pathlib.Path(sys.argv[3] if len(sys.argv) == 4 else tempfile.mkdtemp(prefix="decompress")).resolve()
    folder.mkdir(parents=True, exist_ok=True)
    for at, (name, (kind, text)) in enumerate(SOURCES.items()):
        compiled(folder / "streams_of", "gcc", 5, name, [], [])
    sections = list(sections_of(folder / "streams_of"))
    fine = show_streams(inflate, folder, max(sections, key=len)[:60_000])
    show_bomb(inflate, folder)
    show_speed(inflate, folder, sections)
    if thorin.exists():
        pairs, faults = show_packages(thorin, folder)
        show_readers(pairs)
        fine = fine and faults == 0
    sys.exit(0 if fine else 1)


if __name__ == "__main__":
    main()
