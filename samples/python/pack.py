#!/usr/bin/env python3
"""pack.py OUT INPUT..: packs objects and packages into one package."""
import sys
from pathlib import Path

import thorin


def main(words):
    if len(words) < 2:
        print("usage: pack.py OUT INPUT..", file=sys.stderr)
        return 2
    out, *names = words
    try:
        inputs = [Path(name).read_bytes() for name in names]
        package, differing, packs_again = thorin.pack(inputs)
    except thorin.Error as error:
        place = f"{names[error.input]}: " if error.input is not None else ""
        print(f"error: {place}{error} ({error.fault})", file=sys.stderr)
        return 1
    Path(out).write_bytes(package)
    print(f"{len(package)} bytes" + (", may be packed again" if packs_again else ""))
    if differing:
        for signature in thorin.differing_types(inputs):
            print(f"warning: type unit {signature:#018x} differs", file=sys.stderr)
    return 0


if __name__ == "__main__":
    sys.exit(main(sys.argv[1:]))
