#!/usr/bin/env python3
"""objects.py EXECUTABLE: prints the units that an executable names, and the paths of their objects."""
import os
import sys

import thorin


def main() -> None:
    if len(sys.argv) != 2:
        sys.exit("usage: objects.py EXECUTABLE")
    with open(sys.argv[1], "rb") as opened:
        file = opened.read()
    try:
        file = thorin.decompress(file)
    except thorin.Error:
        pass  # what can't be decompressed is told by the list
    found = thorin.skeletons(file)
    for kind, identifier, path in found.units:
        print(f"{'tu' if kind == thorin.TYPE_UNIT else 'cu'} {identifier:#018x} {os.fsdecode(path)}")
    if found.fault:
        sys.exit(f"error: {found.text} ({found.fault})")


if __name__ == "__main__":
    main()
