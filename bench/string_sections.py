#!/usr/bin/env python3
"""Writes the strings and the string offsets of objects into one file, for bench/file_ranges.source.

    string_sections.py OUT OBJECT..     each object's .debug_str.dwo and .debug_str_offsets.dwo, behind their lengths

An object without string offsets is left out. It needs objcopy, and prints how many objects and entries there are.
"""
import os
import struct
import subprocess
import sys
import tempfile


def section(path, name, out):
    """The bytes of a section; none where there is no such section."""
    words = ["objcopy", "-O", "binary", f"--only-section={name}", f"--set-section-flags={name}=alloc", path, out]
    subprocess.run(words, check=True)
    with open(out, "rb") as it:
        return it.read()


def main(out, paths):
    count = entries = 0
    with tempfile.TemporaryDirectory() as folder, open(out, "wb") as it:
        for path in paths:
            strings, offsets = (section(path, f".debug_{name}.dwo", os.path.join(folder, "section")) for name in ("str", "str_offsets"))
            if offsets:
                it.write(struct.pack("<QQ", len(strings), len(offsets)) + strings + offsets)
                count, entries = count + 1, entries + len(offsets) // 4
    print(f"{count} objects, {entries} entries")


if __name__ == "__main__":
    if len(sys.argv) < 3:
        sys.exit(__doc__)
    main(sys.argv[1], sys.argv[2:])
