#!/usr/bin/env python3
"""Compares what `thorin find` and `thorin list` say of packages with what llvm-dwarfdump lists.

    compare_packages.py THORIN PACKAGE..

For each unit of each package's indexes `THORIN find` has to print the ranges that llvm-dwarfdump lists for it, the
version and the address size of the header that stands at its range of info or types (read here by readelf), and at
most one slot more than there are units; `THORIN list` has to give these units with their sizes, and no others.
It prints a line for each package, and ends with status 1 at a difference. Packages are little endian, their units of
the 32-bit format.

Packages of other programs, of one source SOURCE.cpp (for DWARF 5 write -gdwarf-5; binutils 2.40's dwp knows only the
GNU form):
    clang++ -c -g -O1 -gdwarf-4 -gsplit-dwarf -fdebug-types-section SOURCE.cpp     (or g++)
    llvm-dwp SOURCE.dwo -o llvm.dwp
    dwp SOURCE.dwo -o binutils.dwp
    rustc -g -C split-debuginfo=packed SOURCE.rs     (leaves SOURCE.dwp; for DWARF 5 -C dwarf-version=5)"""
import re
import subprocess
import sys

COLUMNS = {"INFO": "info", "TYPES": "types", "ABBREV": "abbrev", "LINE": "line", "LOC": "loc", "LOCLISTS": "loclists",
           "RNGLISTS": "rnglists", "STR_OFFSETS": "str_offsets", "MACINFO": "macinfo", "MACRO": "macro"}


def output(*words):
    return subprocess.run(words, capture_output=True, text=True, timeout=60).stdout


def listed(package):
    """(kind, identifier, {section: (offset, size)}) of each row that llvm-dwarfdump lists."""
    kind, names = None, []
    for line in output("llvm-dwarfdump", "--debug-cu-index", "--debug-tu-index", package).splitlines():
        if "_index contents" in line:
            kind = "cu" if "debug_cu_index" in line else "tu"
        elif line.startswith("Index Signature"):
            names = line.split()[2:]
        else:
            row = re.match(r"\s*\d+ 0x([0-9a-f]{16}) (.*)", line)
            if row:
                ranges = re.findall(r"\[0x([0-9a-f]+), 0x([0-9a-f]+)\)", row[2])
                yield kind, row[1], {COLUMNS[n]: (int(a, 16), int(b, 16) - int(a, 16))
                                     for n, (a, b) in zip(names, ranges) if a != b}


def section(package, name):
    """The bytes of a section, as readelf gives them."""
    data = bytearray()
    for line in output("readelf", "-x", name, package).splitlines():
        row = re.match(r"  0x[0-9a-f]{8} ((?:[0-9a-f]{2,8} ){1,4})", line)
        if row:
            data += bytes.fromhex(row[1])
    return bytes(data)


def headers(package, units):
    """The beginning of the line that `find` has to print for each unit, by the bytes at its range."""
    sections = {k: section(package, f".debug_{k}.dwo") for k in ("info", "types")}
    for kind, identifier, ranges in units:
        place = "types" if "types" in ranges else "info"
        start, size = ranges.get(place, (0, 0))
        unit = sections[place][start:start + size]
        version = int.from_bytes(unit[4:6], "little")
        whole = int.from_bytes(unit[:4], "little") + 4 == size
        address = unit[7] if version >= 5 else unit[10]
        name = int.from_bytes(unit[12:20] if version >= 5 else unit[11:19], "little")
        named = kind == "cu" and version < 5 or name == int(identifier, 16)
        yield whole and named and f"{kind} 0x{identifier} version {version} format 32 address {address}"


def differences(thorin, package, units):
    """What `find` and `list` print otherwise."""
    for (kind, identifier, ranges), header in zip(units, headers(package, units)):
        text = output(*thorin, "find", package, kind, identifier)
        found = {name: (int(a, 16), int(b, 16)) for name, a, b in re.findall(r"^(\w+) (0x\w+) (0x\w+)$", text, re.M)}
        slots = re.search(r"^slots (\d+)$", text, re.M)
        most = sum(u[0] == kind for u in units) + 1
        if found != ranges or text.split("\n")[0] != header or int(slots[1]) > most:
            yield kind, identifier, ranges, header, text
    own = sorted(f"{kind} 0x{identifier} {ranges.get('types', ranges.get('info', (0, 0)))[1]}" for kind, identifier, ranges in units)
    text = output(*thorin, "list", package)
    if sorted(text.splitlines()) != own:
        yield "list", own, text


def main():
    thorin, failed = sys.argv[1].split(), False
    for package in sys.argv[2:]:
        units = list(listed(package))
        wrong = list(differences(thorin, package, units))
        print(f"{package}: {len(units)} units, {len(wrong)} differ")
        for difference in wrong[:3]:
            print("  ", *difference)
        failed |= bool(wrong)
    sys.exit(failed)


main()
