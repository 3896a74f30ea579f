#!/usr/bin/env python3
"""look_ups.py [FOLDER [TIMES]]: looks 100,000 identifiers up in a package of 100,000 units and about 40 MB that it writes
into the folder, by lib/libthorin.a (what build-library leaves), opened and not, and by Debian's gimli (librust-gimli-dev,
librust-object-dev). Both programs run TIMES times (5) in turn, seven rounds each; it prints the least time that each
call took, in nanoseconds for one identifier. Where valgrind is there, also how many instructions a call takes: those of a
run of 20,000 identifiers less those of one of 10,000, so that what is read before doesn't count."""
import random
import re
import shutil
import struct
import subprocess
import sys
import tempfile
from pathlib import Path

HERE = Path(__file__).resolve().parent
sys.path.insert(0, str(HERE.parent / "samples"))
from make_objects import elf  # noqa: E402

UNITS, ASKED = 100_000, 100_000
TIMES = 5
ABBREVIATIONS = bytes.fromhex("01110000000000")


def index(ids, columns, rows):
    """An index of version 5 (DWARF 5, 7.3.5.3)."""
    slots = 1
    while 2 * slots <= 3 * len(ids):
        slots *= 2
    table = [0] * slots
    for row, identifier in enumerate(ids, 1):
        place, step = identifier & slots - 1, identifier >> 32 & slots - 1 | 1
        while table[place]:
            place = place + step & slots - 1
        table[place] = row
    names = [ids[row - 1] if row else 0 for row in table]
    parts = [struct.pack("<HHIII", 5, 0, len(columns), len(ids), slots),
             struct.pack(f"<{slots}Q", *names), struct.pack(f"<{slots}I", *table),
             struct.pack(f"<{len(columns)}I", *columns)]
    for part in (0, 1):
        parts += [struct.pack(f"<{len(columns)}I", *(column[part] for column in row)) for row in rows]
    return b"".join(parts)


def write_package(path):
    random.seed(1)
    info, offsets, rows, ids = bytearray(), bytearray(), [], []
    for _ in range(UNITS):
        identifier = random.getrandbits(64) or 1
        ids.append(identifier)
        # A header of version 5 for a split compilation unit, one entry without attributes, and zeros.
        body = struct.pack("<HBBIQ", 5, 5, 8, 0, identifier) + b"\x01" + bytes(random.randrange(250, 350))
        unit = struct.pack("<I", len(body)) + body
        strings = struct.pack("<IHH8I", 36, 5, 0, *range(0, 32, 4))
        rows.append([(len(info), len(unit)), (0, len(ABBREVIATIONS)), (len(offsets), len(strings))])
        info += unit
        offsets += strings
    path.write_bytes(elf([(".debug_info.dwo", bytes(info)), (".debug_abbrev.dwo", ABBREVIATIONS),
                          (".debug_str_offsets.dwo", bytes(offsets)), (".debug_str.dwo", b"abc\0" * 8),
                          (".debug_cu_index", index(ids, [1, 3, 6], rows))]))


def instructions(folder, program, package, call):
    """How many instructions of the processor one look-up by a call takes."""
    ran = []
    for count in (10_000, 20_000):
        out = folder / "callgrind.out"
        subprocess.run(["valgrind", "--quiet", "--tool=callgrind", f"--callgrind-out-file={out}", program, package, str(count), call],
                       check=True, stdout=subprocess.DEVNULL, stderr=subprocess.DEVNULL)
        ran.append(int(re.search(r"^(?:summary|totals): (\d+)", out.read_text(), re.M)[1]))
    return (ran[1] - ran[0]) / 10_000


def main():
    folder = Path(sys.argv[1] if len(sys.argv) > 1 else tempfile.mkdtemp())
    folder.mkdir(parents=True, exist_ok=True)
    package = folder / "large.dwp"
    write_package(package)
    print(f"{package}: {package.stat().st_size} bytes")
    root = HERE.parent
    subprocess.run(["cc", "-std=gnu11", "-O2", f"-I{root}/include", "-o", folder / "look_ups", HERE / "look_ups.c",
                    root / "lib/libthorin.a"], check=True)
    crate = folder / "gimli"
    (crate / "src").mkdir(parents=True, exist_ok=True)
    (crate / ".cargo").mkdir(exist_ok=True)
    (crate / "src/main.rs").write_text((HERE / "look_ups_gimli.source").read_text())
    (crate / "Cargo.toml").write_text('''[package]
name = "look_ups_gimli"
version = "0.1.0"
edition = "2021"
[dependencies]
gimli = { version = "0.27", default-features = false, features = ["read", "std"] }
object = { version = "0.30", default-features = false, features = ["read_core", "elf", "std"] }
[profile.release]
opt-level = 3
''')
    (crate / ".cargo/config.toml").write_text('''[source.crates-io]
replace-with = "debian"
[source.debian]
directory = "/usr/share/cargo/registry"
''')
    subprocess.run(["cargo", "build", "--quiet", "--release", "--offline"], cwd=crate, check=True)
    times = int(sys.argv[2]) if len(sys.argv) > 2 else TIMES
    programs, least, sums, of = [folder / "look_ups", crate / "target/release/look_ups_gimli"], {}, set(), {}
    for _ in range(times):
        for program in programs:
            said = subprocess.run([program, package, str(ASKED)], check=True, stdout=subprocess.PIPE).stdout.decode()
            for call, time, found in re.findall(r"(.+) (\d+) ns, sum (\d+)", said):
                least[call] = min(least.get(call, int(time)), int(time))
                sums.add(found)
                of[call] = program
    for call, time in least.items():
        steps = f", {instructions(folder, of[call], package, call):.0f} instructions" if shutil.which("valgrind") else ""
        print(f"{call}: {time} ns{steps}", flush=True)
    if len(sums) != 1:
        sys.exit(f"they found different units: {sums}")


if __name__ == "__main__":
    main()
