#!/usr/bin/env python3
"""Makes split objects of DWARF 4 of one unit each whose strings tell how a packer's table of strings grows.

string_inputs.py FOLDER [NAME=COUNT..]: each object is FOLDER/NAME-COUNT.dwo. A NAME is one of

    random    distinct strings of 22 bytes, the first 14 of which are the same, in an order that is far from theirs
    equal     distinct strings of 16 bytes and of one hash in thorin's table, which then finds them by their order
    late      those of random, and then two of one hash
    full      strings of 8 bytes, the first 200 of which have the same first slot in thorin's table, which then has no
              room for the hash of one and finds all new strings by their order
    long      distinct strings of 1,008 bytes, the first 1,000 of which are the same
    suffixes  all ends of one string of COUNT letters; a package of them has COUNT * (COUNT + 3) / 2 bytes of strings

time_packers.py measures packers over them.
"""
import itertools
import pathlib
import struct
import sys

# Abbreviation 1: a compile unit with a GNU_dwo_id of 8 bytes.
ABBREVIATIONS = bytes.fromhex("011100b142070000" + "00")
UNIT = struct.pack("<IHIBBQ", 16, 4, 0, 8, 1, 5)


def elf(sections):
    """An ELF file of 64 bits, little endian, of these names and contents."""
    names, out, headers = bytearray(b"\0"), bytearray(64), [bytes(64)]
    for name, data in [*sections, (".shstrtab", None)]:
        at = len(names)
        names.extend(name.encode() + b"\0")
        kind, data = (3, bytes(names)) if data is None else (1, data)
        headers.append(struct.pack("<IIQQQQIIQQ", at, kind, 0, 0, len(out), len(data), 0, 0, 1, 0))
        out.extend(data)
    head = struct.pack("<HHIQQQIHHHHHH", 1, 62, 1, 0, 0, len(out), 0, 64, 0, 0, 64, len(headers), len(headers) - 1)
    out[:64] = b"\x7fELF\2\1\1" + bytes(9) + head
    return bytes(out) + b"".join(headers)


def random(count):
    letters = [b"%c%c" % (97 + byte % 16, 97 + byte // 16) for byte in range(256)]
    for i in range(count):
        number = i * 2_654_435_761 % 2 ** 32
        yield b"thorin::name::" + b"".join(letters[byte] for byte in number.to_bytes(4, "little"))


# The hash multiplies what is left of each half of 16 bytes; nothing is left of a second half like this, so it is 0.
SECOND_HALF = struct.pack("<Q", 0x9E37_79B9_7F4A_7C15)


def twins():
    """Two strings of one hash."""
    return [b"a" * 8 + SECOND_HALF, b"b" * 8 + SECOND_HALF]


def equal(count):
    for number in range(count):
        yield b"".join(b"%c" % (97 + number // 16 ** at % 16) for at in range(8)) + SECOND_HALF


def hash_of_eight(string):
    """The lower half of std's FoldHasher of eight bytes."""
    product = (0x243F_6A88_85A3_08D3 ^ int.from_bytes(string, "little")) * (0x9E37_79B9_7F4A_7C15 ^ 16)
    return (product ^ product >> 64) % 2 ** 32


def full(count):
    strings = (b"%08d" % (number * 61_803_399 % 10 ** 8) for number in range(10 ** 8))
    crowd = [it for it in itertools.islice(strings, 300_000) if hash_of_eight(it) >> 22 == 5][:200]
    yield from crowd
    yield from itertools.islice(strings, count - len(crowd))


def late(count):
    yield from random(count)
    yield from twins()


def long(count):
    return (b"x" * 1000 + b"%08d" % number for number in range(count))


KINDS = {"random": random, "equal": equal, "late": late, "full": full, "long": long}


def of_strings(strings):
    data, offsets, at = [], [], 0
    for string in strings:
        data.append(string)
        offsets.append(at)
        at += len(string) + 1
    return b"\0".join(data) + b"\0", offsets


def of_suffixes(count):
    return bytes(97 + i * i % 23 for i in range(count)) + b"\0", range(count)


def main():
    folder = pathlib.Path(sys.argv[1])
    folder.mkdir(parents=True, exist_ok=True)
    for word in sys.argv[2:] or ["random=10000", "random=100000", "random=1000000", "equal=100000", "long=20000", "suffixes=10000"]:
        name, count = word.split("=")
        made = of_suffixes(int(count)) if name == "suffixes" else of_strings(KINDS[name](int(count)))
        offsets = struct.pack(f"<{len(made[1])}I", *made[1])
        sections = [(".debug_info.dwo", UNIT), (".debug_abbrev.dwo", ABBREVIATIONS), (".debug_str.dwo", made[0]), (".debug_str_offsets.dwo", offsets)]
        (folder / f"{name}-{count}.dwo").write_bytes(elf(sections))


if __name__ == "__main__":
    if len(sys.argv) < 2:
        sys.exit(__doc__)
    main()
