"""ELF files, units and packages of a few bytes each, of which inputs are made."""
import struct
import zlib

# Abbreviation 1: a compile unit with a GNU_dwo_id of 8 bytes.
ABBREVIATIONS = bytes.fromhex("011100b142070000" + "00")


def uleb(n):
    out = bytearray()
    while True:
        if n < 128:
            out.append(n)
            return bytes(out)
        out.append(n & 127 | 128)
        n >>= 7


def elf(sections, relocations=None, shared=None, compressed=()):
    """An ELF file of 64 bits, little endian, of these names and contents. `relocations` is a RELA table
    of the section of that number, with a symbol table of one symbol behind it. The contents `shared`
    stand once, however many sections have them. Sections of the names `compressed` are said to be so."""
    names = bytearray(b"\0")
    places = {}
    stand = []
    out = bytearray(64)
    headers = [bytes(64)]

    def name_of(name):
        if name not in places:
            places[name] = len(names)
            names.extend(name.encode() + b"\0")
        return places[name]

    def add(name, kind, data, link=0, info=0, size=0):
        place = stand[0] if data is shared and stand else len(out)
        flags = 0x800 if name in compressed else 0
        headers.append(struct.pack("<IIQQQQIIQQ", name_of(name), kind, flags, 0, place, len(data), link, info, 1, size))
        if data is shared:
            stand.append(place)
        if place == len(out):
            out.extend(data)

    for name, data in sections:
        add(name, 1, data)
    if relocations:
        number, table = relocations
        add(".rela", 4, table, len(headers) + 1, number, 24)
        add(".symtab", 2, bytes(24), 0, 0, 24)
    at = name_of(".shstrtab")
    headers.append(struct.pack("<IIQQQQIIQQ", at, 3, 0, 0, len(out), len(names), 0, 0, 1, 0))
    out.extend(names)
    total, last = len(headers), len(headers) - 1
    if total >= 0xff00:
        headers[0] = struct.pack("<IIQQQQIIQQ", 0, 0, 0, 0, 0, total, last, 0, 0, 0)
        total, last = 0, 0xffff
    start = len(out)
    out.extend(b"".join(headers))
    out[:64] = b"\x7fELF\2\1\1" + bytes(9) + struct.pack("<HHIQQQIHHHHHH", 1, 62, 1, 0, 0, start, 0, 64, 0, 0, 64, total, last)
    return bytes(out)


def unit(id, offset=0, code=1):
    body = struct.pack("<HIB", 4, offset, 8) + uleb(code) + struct.pack("<Q", id)
    return struct.pack("<I", len(body)) + body


def split_unit(id):
    return struct.pack("<IHBBIQ", 16, 5, 5, 8, 0, id)


def type_unit(signature):
    return struct.pack("<IHIBQI", 19, 4, 0, 8, signature, 0)


def declarations(n, first=1):
    return b"".join(uleb(code) + bytes.fromhex("1100b14207" + "0000") for code in range(first, first + n)) + b"\0"


def stream(contents):
    """The content of a section that is compressed by zlib."""
    return struct.pack("<IIQQ", 1, 0, len(contents), 1) + zlib.compress(contents, 9)


def plain(info, abbreviations=ABBREVIATIONS, more=()):
    return elf([(".debug_info.dwo", info), (".debug_abbrev.dwo", abbreviations), *more])


def numbers(values):
    return b"".join(struct.pack("<I", value) for value in values)


def index(ids, columns, offsets, sizes):
    """An index of version 2 of units in rows of their own, by the standard's probing."""
    slots = 2
    while 2 * slots <= 3 * len(ids):
        slots *= 2
    taken = [(0, 0)] * slots
    for row, id in enumerate(ids):
        at, step = id & (slots - 1), (id >> 32) & (slots - 1) | 1
        while taken[at][1]:
            at = (at + step) % slots
        taken[at] = (id, row + 1)
    out = struct.pack("<IIII", 2, len(columns), len(ids), slots)
    out += b"".join(struct.pack("<Q", id) for id, _ in taken)
    out += numbers([row for _, row in taken]) + numbers(columns)
    return out + numbers(offsets) + numbers(sizes)


def package(units, abbreviations, rows, more=()):
    """A package: a row for each of `rows`, which is an identifier, and the ranges of the unit, of the
    abbreviations and where `more` has sections of strings of the string offsets."""
    columns = [1, 3, 6] if more else [1, 3]
    ids = [row[0] for row in rows]
    offsets = [place for row in rows for place, _ in row[1:]]
    sizes = [size for row in rows for _, size in row[1:]]
    return plain(units, abbreviations, [*more, (".debug_cu_index", index(ids, columns, offsets, sizes))])


def write(path, data):
    with open(path, "wb") as file:
        file.write(data)
