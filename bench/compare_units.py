#!/usr/bin/env python3
"""Compares the units of a package with those of the objects that it was made of, by what llvm-dwarfdump shows of each.

    bench/compare_units.py PACKAGE OBJECT..

Places in sections, which differ in a package, are left out; what entries refer to stays, by its place in the unit. Objects of
-gsplit-dwarf=single are given as `objcopy --extract-dwo` leaves them, without addresses. DWARFDUMP names the program.
"""
import hashlib
import os
import re
import shlex
import subprocess
import sys

DWARFDUMP = shlex.split(os.environ.get("DWARFDUMP", "llvm-dwarfdump"))
UNIT = re.compile(r"0x([0-9a-f]+): (Compile|Type) Unit: (.*)")
# The place of a referred entry, of a list, of a parent, of abbreviations, of the next unit, of an expression's type.
PLACES = [(re.compile(it), r"\1") for it in (
    r"(=> )\{0x[0-9a-f]+\}", r"((?:loclist|rangelist) = )0x[0-9a-f]+", r"(DW_TAG_\w+ \[\d+\] \*?)\s*\(0x[0-9a-f]+\)",
    r"(abbr_offset = )0x[0-9a-f]+", r"(\(next unit at )0x[0-9a-f]+", r"(\(0x[0-9a-f]+ -> )0x[0-9a-f]+(?=\))")]


def unplaced(line, begin):
    """A line without places in sections; an entry's own is counted from where its unit begins."""
    for place, kept in PLACES:
        line = place.sub(kept, line)
    at, colon, rest = line.partition(":")
    return f"{int(at, 16) - begin:#x}:{rest}" if colon and re.fullmatch("0x[0-9a-f]+", at) else line


def identified(lines):
    """The kind and the identifier of a unit: of its header, or before DWARF 5 of its first entry."""
    found = re.search(r"(DWO_id|type_signature) = 0x([0-9a-f]+)", lines[0])
    if found:
        return "tu" if found[1] == "type_signature" else "cu", int(found[2], 16)
    for line in lines:
        if "DW_AT_GNU_dwo_id" in line:
            return "cu", int(re.search(r"\(0x([0-9a-f]+)\)", line)[1], 16)
    return None


def units(files):
    """Sums of the texts of the split units in these files, by kind and identifier: one, or where type units differ several."""
    words = [*DWARFDUMP, "-v", "--debug-info", "--debug-types", *files]
    found, lines, begin, is_split = {}, [], 0, False

    def end():
        if lines and (key := identified(lines)):
            found.setdefault(key, set()).add(hashlib.sha256("\n".join(lines).encode()).digest())
        lines.clear()

    shown = subprocess.Popen(words, stdout=subprocess.PIPE, stderr=subprocess.DEVNULL, text=True, errors="replace")
    for line in map(str.rstrip, shown.stdout):
        head = UNIT.match(line)
        if head or "file format" in line or line.endswith("contents:"):
            end()
        if line.endswith("contents:"):
            is_split = ".dwo" in line
        elif head:
            begin = int(head[1], 16)
        if is_split and (head or lines):
            lines.append(unplaced(line, begin))
    end()
    return found


def main():
    if len(sys.argv) < 3:
        sys.exit(__doc__)
    packed, wanted = units(sys.argv[1:2]), {}
    for file in sys.argv[2:]:
        for key, texts in units([file]).items():
            wanted.setdefault(key, set()).update(texts)
    lost, extra = wanted.keys() - packed.keys(), packed.keys() - wanted.keys()
    differing = {it for it in packed.keys() & wanted.keys() if not packed[it] <= wanted[it]}
    told = f"lost {len(lost)}, extra {len(extra)}, differing {len(differing)}"
    print(f"{len(sys.argv) - 2} objects, {len(packed)} units: {told}")
    return 1 if lost or extra or differing or not packed else 0


if __name__ == "__main__":
    sys.exit(main())
