#!/usr/bin/env python3
"""lookup.py PACKAGE [IDENTIFIER..]: prints what a symbolizer takes of compilation units, or of all units."""
import sys

import thorin


def print_unit(out, package, kind, identifier):
    word = "tu" if kind == thorin.TYPE_UNIT else "cu"
    out.write(f"{word} {identifier:#018x}: ".encode())
    try:
        unit = package.find(kind, identifier)
    except thorin.Error as error:
        out.write(f"{error}\n".encode())
        return
    out.write(f"row {unit.row}, {unit.slots} slots, version {unit.version}, offsets of {unit.offset_size} bytes, "
              f"addresses of {unit.address_size}\n".encode())
    for section in thorin.SECTIONS:
        part = getattr(unit, section)
        if part.size:
            out.write(f"  {section} {part.offset:#x} {part.size:#x}\n".encode())
    for string in package.strings(kind, identifier):
        out.write(b"  string " + string + b"\n")


def main(words):
    if not words:
        print("usage: lookup.py PACKAGE [IDENTIFIER..]", file=sys.stderr)
        return 2
    try:
        with thorin.Package(words[0]) as package:
            names = [(thorin.COMPILATION, int(word, 16)) for word in words[1:]] or package.names()
            for kind, identifier in names:
                print_unit(sys.stdout.buffer, package, kind, identifier)
    except thorin.Error as error:
        print(f"error: {error}", file=sys.stderr)
        return 1
    return 0


if __name__ == "__main__":
    sys.exit(main(sys.argv[1:]))
