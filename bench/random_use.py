#!/usr/bin/env python3
"""Runs the program over files made by chance: does it crash, hang, or end by a status that it doesn't have?

    bench/random_use.py PROGRAM [FILES [SEED]]      FILES is 1,000 and SEED 1 where they aren't given

A file is an object or a package, its sections or ranges often over one another, some of them compressed; an archive of such
files; an executable that names such files, each by several spellings, FIFOs and devices; or a response file; or one of the
samples; four of ten are damaged. Each is given to a command with options that chance picks, all in one folder with the files
before it. A run has 20 seconds and 4 GiB. A package that comes out is checked,
and packed again where `check` finds nothing. A line for each mistake, then a table of what came of the runs of each kind; the
status is 1 where there was a mistake. With the same numbers the files are the same. SIGTERM ends it with the table so far.
"""
import collections
import glob
import os
import random
import resource
import signal
import struct
import subprocess
import sys
import tempfile
import zlib

sys.dont_write_bytecode = True
TOP = os.path.dirname(os.path.dirname(os.path.realpath(__file__)))
sys.path.insert(0, f"{TOP}/bench/hostile")
from make_inputs import ABBREVIATIONS, elf, index, numbers, split_unit, type_unit, unit, write  # noqa: E402

SECONDS, BYTES = 20, 4 << 30
STOPPED = []
# What `check` says of inputs without abbreviations and without strings, which may be packed, but not again.
KNOWN = "no abbreviations or strings"
LACKING = (b".debug_abbrev.dwo is empty or absent", b": its row has no abbreviations", b".debug_str.dwo is empty or absent")
# And of inputs with a section that none of their units has a range of: the package has its bytes, by the definitions.
COLUMN = b": no index has a column for it"
SAMPLES = [f"{TOP}/samples/hello.dwo", *sorted(glob.glob(f"{TOP}/crates/test_packages/data/*.dw[op]")), f"{TOP}/crates/test_packages/data/hello.o"]
SECTIONS = {4: ["line", "loc", "macinfo", "str_offsets"], 5: ["line", "loclists", "rnglists", "macro"]}
# Abbreviations 1 to 4: a compile unit with a name before its identifier, one without, one whose attributes have no bytes, a
# type unit.
MORE_ABBREVIATIONS = bytes.fromhex("0111000308b142070000" + "0211000000" + "031100490c191900000441000000" + "00")
# Of an executable: a name and an identifier.
NAMED = bytes.fromhex("011100b04208b142070000" + "00")


class Maker:
    """Makes files by chance, all in one folder."""

    def __init__(self, seed, folder):
        self.chance, self.folder, self.names = random.Random(seed), folder, []

    def some(self, most):
        """A small number more often than a large one."""
        return int(self.chance.random() ** 3 * most)

    def data(self, most):
        return self.chance.randbytes(self.some(most))

    def identifier(self):
        known = self.chance.random() < 0.15
        return self.chance.choice([1, 2, 3, 1 << 15, 2 << 15]) if known else self.chance.getrandbits(64)

    def unit(self, version):
        """Bytes of a unit: mostly of that version, and with the first abbreviation."""
        if self.chance.random() < 0.02:
            return self.data(60)
        if version == 5:
            return split_unit(self.identifier())
        if self.chance.random() < 0.9:
            return unit(self.identifier(), *self.chance.choice([()] * 9 + [(self.some(60), self.some(4))]))
        return type_unit(self.identifier())

    def units(self, version):
        return [self.unit(version if self.chance.random() < 0.98 else 9 - version) for _ in range(1 + self.some(12))]

    def abbreviations(self):
        return self.chance.choice([ABBREVIATIONS] * 6 + [ABBREVIATIONS + MORE_ABBREVIATIONS] * 3 + [MORE_ABBREVIATIONS, self.data(80), b""])

    def others(self, version):
        """Other sections, as often as it comes; mostly such as the version has."""
        out = [(".debug_str.dwo", b"".join(self.data(9) + b"\0" for _ in range(1 + self.some(9))))]
        for _ in range(self.some(8)):
            name = self.chance.choice(SECTIONS[version]) if self.chance.random() < 0.98 else self.chance.choice(["str", "types", "abbrev", "info", "loc", "macro"])
            contents = numbers(self.some(9) for _ in range(self.some(20))) if name == "str_offsets" else self.data(100)
            out.append((f".debug_{name}.dwo", contents))
        return out

    def overlapped(self, data):
        """The same file, in which some sections stand over others."""
        out = bytearray(data)
        start, count = struct.unpack_from("<Q", out, 40)[0], struct.unpack_from("<H", out, 60)[0]
        headers = [start + 64 * i for i in range(1, count)]
        for _ in range(1 + self.some(4)):
            one, other = self.chance.choice(headers), self.chance.choice(headers)
            place, size = struct.unpack_from("<QQ", out, other + 24)
            cut = self.some(size + 1)
            struct.pack_into("<QQ", out, one + 24, place + cut, self.chance.choice([size - cut, size, self.some(len(out))]))
        return bytes(out)

    def compressed(self, sections):
        """The same sections, some of them compressed by zlib, in the way of ELF or the older one; told sizes are often wrong."""
        out, flagged = [], []
        for name, data in sections:
            how = self.chance.random()
            told = len(data) if self.chance.random() < 0.9 else self.chance.choice([0, self.some(1 << 20), self.chance.getrandbits(64)])
            stream = zlib.compress(data, self.chance.choice([0, 1, 9]))
            if how < 0.4:
                kind = 1 if self.chance.random() < 0.95 else self.some(4)
                out.append((name, struct.pack("<IIQQ", kind, 0, told, 1) + stream))
                flagged.append(name)
            elif how < 0.6:
                out.append((name.replace(".debug", ".zdebug"), b"ZLIB" + struct.pack(">Q", told) + stream))
            else:
                out.append((name, data))
        return elf(out, compressed=flagged)

    def object(self, version=None):
        version = version or self.chance.choice([4, 4, 5])
        sections = [(".debug_info.dwo", b"".join(self.units(version))), (".debug_abbrev.dwo", self.abbreviations()), *self.others(version)]
        if self.chance.random() < 0.3:
            self.chance.shuffle(sections)
        data = self.compressed(sections) if self.chance.random() < 0.2 else elf(sections)
        return self.overlapped(data) if self.chance.random() < 0.4 else data

    def range_of(self, size, step):
        """A range of a section of that size: mostly inside, and of whole entries."""
        if self.chance.random() < 0.02:
            return self.chance.getrandbits(32), self.chance.getrandbits(32)
        start = self.chance.randrange(0, size + 1, step)
        return start, self.chance.choice([size - start, (size - start) // step * step, self.some(size - start + 1) // step * step])

    def package(self):
        version = self.chance.choice([4, 4, 5])
        units = self.units(version)
        info, table = b"".join(units), self.abbreviations()
        strings = b"".join(self.data(9) + b"\0" for _ in range(1 + self.some(9)))
        entries = numbers(self.some(len(strings)) for _ in range(1 + self.some(30)))
        if version == 5:
            entries = struct.pack("<IHH", len(entries) + 4, 5, 0) + entries
        rows, at, overlaps = [], 0, self.chance.choice([0, 0, 0.1, 0.5])
        for one in units:
            row = [(at, len(one)), (0, len(table)), (0, len(entries))]
            if self.chance.random() < overlaps:
                row[self.chance.choice([0, 1, 2, 2])] = self.chance.choice([self.range_of(len(table), 1), self.range_of(len(entries), 4)])
            rows.append(row)
            at += len(one)
        ids = {}
        for row, one in zip(rows, units):
            own = struct.unpack("<Q", one[-8:].rjust(8, b"\0"))[0]
            ids.setdefault(own if self.chance.random() < 0.95 else self.identifier(), row)
        offsets = [place for row in ids.values() for place, _ in row]
        sizes = [size for row in ids.values() for _, size in row]
        made = index(list(ids), [1, 3, 6], offsets, sizes)
        if version == 5 or self.chance.random() < 0.02:
            made = struct.pack("<I", 5) + made[4:]
        name = self.chance.choice([".debug_cu_index"] * 4 + [".debug_tu_index"])
        sections = [
            (".debug_info.dwo", info), (".debug_abbrev.dwo", table), (".debug_str.dwo", strings), (".debug_str_offsets.dwo", entries),
            *(self.others(version)[1:] if self.chance.random() < 0.2 else []), (name, made),
        ]
        data = self.compressed(sections) if self.chance.random() < 0.1 else elf(sections)
        return self.overlapped(data) if self.chance.random() < 0.2 else data

    def archive(self):
        """An archive of objects, packages and other data (System V's, with long names)."""
        out, names, members, version = bytearray(b"!<arch>\n"), bytearray(), [], self.chance.choice([4, 5])
        for number in range(self.some(8)):
            name = f"m{number}.o" if self.chance.random() < 0.7 else "long" * self.some(40) + f"{number}.o"
            shown = f"{name}/" if len(name) < 16 else f"/{len(names)}"
            if len(name) >= 16:
                names += f"{name}/\n".encode()
            content = self.object(version) if self.chance.random() < 0.8 else self.chance.choice([self.sample, self.package, lambda: self.data(200)])()
            members.append((shown, self.damaged(content) if self.chance.random() < 0.05 else content))
        if names:
            members.insert(0, ("//", bytes(names)))
        for shown, content in members:
            size = len(content) if self.chance.random() < 0.98 else self.some(1 << 20)
            out += f"{shown:<16}{0:<12}{0:<6}{0:<6}{644:<8}{size:<10}`\n".encode() + content + b"\n" * (len(content) % 2)
        return bytes(out)

    def path(self):
        """A path of a file, if there is one, or of what isn't to be read."""
        return self.chance.choice([*(self.names[-20:] or ["none"]), "none", ".", "fifo", "/dev/zero", "x" * self.some(5000), "a\x1b[2J\n0 units", ""])

    def spelled(self, path):
        """A path in another spelling of the same file."""
        return self.chance.choice(["./", ".//", "././"]) * (1 + self.some(4)) + path if path in self.names else path

    def file_path(self):
        """The same, of nothing that the program would wait for: what the command line names it reads."""
        path = self.path()
        return "none" if path in ("fifo", "/dev/zero") else path

    def executable(self):
        units, one = bytearray(), self.path()
        for _ in range(1 + self.some(40)):
            path = self.spelled(one if self.chance.random() < 0.5 else self.path())
            body = struct.pack("<HIB", 4, 0, 8) + b"\1" + path.encode() + b"\0" + struct.pack("<Q", self.identifier())
            units += struct.pack("<I", len(body)) + body
        return elf([(".debug_abbrev", NAMED), (".debug_info", bytes(units))])

    def response(self):
        words = []
        for _ in range(self.some(40)):
            word = self.chance.choice([
                "pack", "list", "-o", "out.dwp", "--partial", "-v", "-e", "--", "'a b'", '"a', "\\", "\\\n", "#", "\0", "\x80",
                self.file_path().replace("\n", "\\\n"), "@" + self.file_path(), "@" + self.chance.choice(self.names[-20:] or ["none"]), "@made",
            ])
            words.append(word.encode("latin-1", "replace"))
        return self.chance.choice([b" ", b"\n", b"\t "]).join(words)

    def sample(self):
        with open(self.chance.choice(SAMPLES), "rb") as it:
            return it.read()

    def damaged(self, data):
        out = bytearray(data)
        for _ in range(1 + self.some(6)):
            if not out:
                return b""
            at, how = self.chance.randrange(len(out)), self.chance.random()
            if how < 0.6:
                out[at] = self.chance.choice([0, 1, 0x7F, 0x80, 0xFF, self.chance.getrandbits(8)])
            elif how < 0.8:
                out[at : at + 4] = struct.pack("<I", self.chance.choice([0, 1, self.some(200), 0xFFFFFFFF, 0x80000000]))
            elif how < 0.9:
                del out[at:]
            else:
                out[at:at] = out[: self.some(64)]
        return bytes(out)

    def file(self):
        """A kind, and bytes of it."""
        kind = self.chance.choice(["object", "object", "package", "package", "executable", "executable", "archive", "response", "sample"])
        data = getattr(self, kind)()
        return kind, self.damaged(data) if self.chance.random() < 0.4 else data

    def options(self, of):
        return [it for it in of if self.chance.random() < 0.25]

    def command(self, kind, name):
        """Words to run the program on a file with."""
        pack = ["pack", "-o", "out.dwp", *self.options(["--allow-overlap", self.chance.choice(["--last-macros", "--no-macros"]), "--partial", "--skip-missing", "-v", "--archives", "--decompress", "--force"])]
        if kind == "archive" and "--archives" not in pack:
            pack.append("--archives")
        which = self.chance.random()
        if kind == "response":
            return ["pack", "-o", "out.dwp", f"@{name}"] if which < 0.7 else [f"@{name}"]
        if kind == "executable" and which < 0.6:
            return [*pack, "-e", name] if which < 0.4 else ["pack", "--missing", "-e", name]
        if which < 0.65:
            return [*pack, name, *(self.chance.sample(self.names[-20:], 1) if self.names and self.chance.random() < 0.2 else [])]
        if which < 0.75:
            return ["list", *self.options(["--sizes", "--names", "--json"]), name]
        if which < 0.9:
            return ["check", *self.options(["--json", "--decompress"]), name, *(["-e", self.chance.choice(self.names)] if self.names and self.chance.random() < 0.3 else [])]
        return ["find", name, self.chance.choice(["cu", "tu"]), hex(self.identifier())]


class Runs:
    """The program's runs in a folder, and what was wrong with them."""

    def __init__(self, program, folder):
        self.program, self.folder = program, folder
        self.counts, self.mistakes = collections.Counter(), 0

    def run(self, words):
        try:
            ran = subprocess.run([self.program, *words], cwd=self.folder, stdin=subprocess.DEVNULL, capture_output=True, timeout=SECONDS, check=False)
            return ran.returncode, ran.stdout, ran.stderr
        except subprocess.TimeoutExpired:
            return "no end", b"", b""

    def tell(self, number, words, why):
        self.mistakes += 1
        print(f"{number}: {' '.join(words)!r}: {why}", flush=True)

    def expect(self, number, words, statuses):
        """Runs the program, which may end by these statuses alone."""
        status, out, told = self.run(words)
        if status not in statuses:
            self.tell(number, words, f"status {status}, {told[-200:]!r}")
        if b"\x1b" in out + told or b"\x07" in out + told:
            self.tell(number, words, "prints bytes that a terminal takes for commands")
        return status, out

    def versions(self):
        """The versions of the units of the package that came out."""
        found = set()
        for line in self.run(["list", "out.dwp"])[1].splitlines():
            kind, identifier = line.split()[:2]
            told = self.run(["find", "out.dwp", kind.decode(), identifier.decode()])[1].split()
            found.add(told[3] if len(told) > 3 else b"")
        return found

    def package(self, number, words):
        """Checks a package that came out, and packs it again."""
        status, said = self.expect(number, ["check", "out.dwp"], (0, 1))
        if status == 1:
            lines = [it for it in said.splitlines()[:-1] if b" overlaps that of " not in it]
            rest = [it for it in lines if not it.endswith(LACKING)]
            came = "no index" if not said else "overlapping ranges" if not lines else "other faults" if rest else KNOWN
            if rest and all(b": string " in it for it in rest) and len(self.versions()) > 1:
                came = "strings of units of two versions"
            elif rest and all(it.endswith(COLUMN) for it in rest):
                came = "sections of no unit"
            self.counts["packages", came] += 1
            if came == "other faults":
                self.tell(number, words, f"a package with faults: {rest[:3]}")
            return
        self.counts["packages", "whole"] += 1
        status, _said, told = self.run(["pack", "-o", "again.dwp", "out.dwp"])
        if status:
            self.tell(number, ["pack", "out.dwp"], f"a package without a fault: status {status}, {told!r}")


def main(program, files, seed):
    signal.signal(signal.SIGTERM, lambda *_: STOPPED.append(True))
    resource.setrlimit(resource.RLIMIT_AS, (BYTES, BYTES))
    with tempfile.TemporaryDirectory(dir="/dev/shm" if os.path.isdir("/dev/shm") else None) as folder:
        maker, runs, out = Maker(seed, folder), Runs(program, folder), f"{folder}/out.dwp"
        os.mkfifo(f"{folder}/fifo")
        number = -1
        for number in range(files):
            if STOPPED:
                number -= 1
                break
            kind, data = maker.file()
            name = f"made{number % 40}"
            write(f"{folder}/{name}", data)
            words = maker.command(kind, name)
            maker.names = [it for it in maker.names if it != name] + [name]
            if os.path.exists(out):
                os.remove(out)
            status, _said = runs.expect(number, words, (0, 1, 2) if kind == "response" else (0, 1))
            runs.counts[kind, f"status {status}"] += 1
            if status == 0 and os.path.isfile(out):
                runs.package(number, words)
            elif status == 1 and os.path.exists(out) and "-v" not in words:
                runs.counts[kind, "refused, with a package"] += 1
    for (kind, came), count in sorted(runs.counts.items()):
        print(f"{kind}: {came}: {count:,}")
    print(f"{number + 1:,} files, seed {seed}: {runs.mistakes} mistakes")
    return 1 if runs.mistakes else 0


if __name__ == "__main__":
    if not 2 <= len(sys.argv) <= 4:
        sys.exit(__doc__)
    sys.exit(main(os.path.realpath(sys.argv[1]), int((sys.argv[2:3] or ["1000"])[0]), int((sys.argv[3:4] or ["1"])[0])))
