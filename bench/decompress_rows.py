#!/usr/bin/env python3
"""Makes the rows of test_formats for dwp_decompress and what they are to print, without thorin: by Python's zlib, the zstd
tool (1.5.4), objcopy and gcc.

decompress_rows.py FOLDER: the rows, FOLDER/decompress.rows, and what must be printed for them, FOLDER/told, which is the end
of crates/test_formats/stdout. Files of both classes and byte orders are put together here, their streams by zlib and zstd;
three are gcc's, and what objcopy --decompress-debug-sections makes of these is what must be printed.

decompress_rows.py compress FILE OUT [TYPE]: an ELF file of 64 bits, little endian, with its debug sections compressed, of a
type of compression: 2 is zstd, and of others the streams are zlib's; TYPE older gives them the older names and headers.
"""
import pathlib
import struct
import subprocess
import sys
import tempfile
import zlib

COMPRESSED = 0x800


class Elf:
    """An ELF file of a class and a byte order: (name, kind, flags, link, content) of its sections, section 0 aside."""

    def __init__(self, bits=64, order="<"):
        self.bits, self.order, self.sections = bits, order, []

    def add(self, name, content, kind=1, flags=0, link=0, size=None, place=None):
        self.sections.append((name, kind, flags, link, content, size, place))
        return self

    def chdr(self, content, kind=1, size=None, level=9, stream=None):
        size = len(content) if size is None else size
        head = struct.pack(self.order + ("IIQQ" if self.bits == 64 else "III"),
                           *([kind, 0, size, 1] if self.bits == 64 else [kind, size, 1]))
        return head + (stream or (by_zstd(content) if kind == 2 else zlib.compress(content, level)))

    def names(self):
        return [it[0] for it in self.sections] + [".shstrtab"]

    def file(self, packed_names=None):
        """The file's bytes; where the names are packed, all begin at place 1 of those bytes."""
        wide = self.bits == 64
        table, places = bytearray(b"\0"), []
        for name in self.names():
            places.append(len(table) if packed_names is None else 1)
            table.extend(name.encode() + b"\0")
        table, flags = (table, 0) if packed_names is None else (packed_names, COMPRESSED)
        head = 64 if wide else 52
        shape = self.order + ("IIQQQQIIQQ" if wide else "IIIIIIIIII")
        out, headers = bytearray(head), [bytes(struct.calcsize(shape))]
        last = (".shstrtab", 3, flags, 0, bytes(table), None, None)
        for at, (name, kind, flags, link, content, size, place) in zip(places, [*self.sections, last]):
            size = len(content) if size is None else size
            place = len(out) if place is None else place
            headers.append(struct.pack(shape, at, kind, flags, 0, place, size, link, 0, 1, 0))
            out.extend(content)
        shape = self.order + ("HHIQQQIHHHHHH" if wide else "HHIIIIIHHHHHH")
        count = len(headers)
        out[:head] = b"\x7fELF" + bytes([2 if wide else 1, 1 if self.order == "<" else 2, 1]) + bytes(9) + struct.pack(
            shape, 1, 62, 1, 0, 0, len(out), 0, head, 0, 0, len(headers[0]), count, count - 1)
        return bytes(out) + b"".join(headers)


def by_zstd(content, *flags):
    """A stream of the zstd tool's."""
    return subprocess.run(["zstd", "-q", "-c", *flags], input=content, stdout=subprocess.PIPE, check=True).stdout


def read(data):
    """The sections of a file, as (name, kind, flags, link, content)."""
    wide, order = data[4] == 2, "<" if data[5] == 1 else ">"
    shape = order + ("IIQQQQIIQQ" if wide else "IIIIIIIIII")
    start, = struct.unpack_from(order + ("Q" if wide else "I"), data, 40 if wide else 32)
    size, count, names = struct.unpack_from(order + "HHH", data, 58 if wide else 46)
    headers = [struct.unpack_from(shape, data, start + i * size) for i in range(count)]
    table = data[headers[names][4]:][:headers[names][5]]
    return [(table[at:table.index(0, at)].decode(), kind, flags, link, data[place:place + size] if kind != 8 else b"", size)
            for at, kind, flags, _, place, size, link, _, _, _ in headers]


def line(name, kind, flags, link, content, size=None):
    """A section as test_formats prints it; more than 48 bytes stand in lines of their own."""
    size, digits = len(content) if size is None else size, content.hex()
    if len(content) > 48:
        digits = "".join(f"\n    {digits[at:at + 96]}" for at in range(0, len(digits), 96))
    return f'("{name}", {kind}, {flags}, {link}, {size}, {digits})'


def plain(elf, contents):
    """What must be printed of a file whose sections of these names get contents: the others stay, the names grow."""
    told = []
    older = [name for name, *_ in elf.sections if name in contents and name.startswith(".zdebug_")]
    for name, kind, flags, link, content, size in read(elf.file()):
        if name in contents:
            name, flags, content = name.replace(".zdebug_", ".debug_"), flags & ~COMPRESSED, contents[name]
            size = len(content)
        elif name == ".shstrtab":
            content += b"".join(it.replace(".zdebug_", ".debug_").encode() + b"\0" for it in older)
            size = len(content)
        told.append(line(name, kind, flags, link, content, size))
    return told


def tool(*words, cwd):
    subprocess.run(words, cwd=cwd, check=True)


def made_by_gcc(folder, *flags, compress=()):
    """An object of gcc, and what objcopy makes of its compressed sections; what stays is the object's own."""
    functions = "".join(f"int f{i}(int a, long b) {{ return a; }}\n" for i in range(12))
    (folder / "a.c").write_text(functions)
    tool("gcc", "-gdwarf-5", "-gsplit-dwarf", "-c", f"-fdebug-prefix-map={folder}=/", *flags, "a.c", "-o", "a.o", cwd=folder)
    if compress:
        tool("objcopy", *compress, "a.dwo", cwd=folder)
    tool("objcopy", "--decompress-debug-sections", "a.dwo", "plain", cwd=folder)
    data, told = (folder / "a.dwo").read_bytes(), []
    made = {it[0]: it for it in read((folder / "plain").read_bytes())}
    older = [it[0] for it in read(data) if it[0].startswith(".zdebug_")]
    for name, kind, flags, link, content, size in read(data):
        if flags & COMPRESSED or name in older:
            name, kind, flags, _, content, size = made[name.replace(".zdebug_", ".debug_")]
        elif name == ".shstrtab":
            content += b"".join(it.replace(".zdebug_", ".debug_").encode() + b"\0" for it in older)
            size = len(content)
        told.append(line(name, kind, flags, link, content, size))
    return data, told


def older(content, size=None):
    return b"ZLIB" + struct.pack(">Q", len(content) if size is None else size) + zlib.compress(content)


def taken():
    """Rows of files that are decompressed: a name, the bytes, what must be printed."""
    info, text = b"info" * 9, bytes(range(40)) * 3
    for bits, order, kind in ((64, "<", "little"), (64, ">", "big"), (32, "<", "little"), (32, ">", "big")):
        elf = Elf(bits, order).add(".text", b"\x90\xc3", flags=6)
        elf.add(".debug_info.dwo", elf.chdr(info), flags=0x80000000 | COMPRESSED)
        elf.add(".bss", b"", kind=8, flags=3, size=100).add(".debug_str.dwo", elf.chdr(b""), flags=0x830)
        yield f"flags_{bits}_{kind}", elf.file(), plain(elf, {".debug_info.dwo": info, ".debug_str.dwo": b""})
        elf = Elf(bits, order).add(".zdebug_info.dwo", older(info), flags=0x80000000).add(".text", text)
        elf.add(".zdebug_str.dwo", older(text)).add(".zdebug_line.dwo", b"").add(".zdebug_loc", b"", kind=8, size=9)
        yield f"names_{bits}_{kind}", elf.file(), plain(elf, {".zdebug_info.dwo": info, ".zdebug_str.dwo": text})
    elf = Elf().add(".debug_none", bytes(5))
    elf.add(".zdebug_info", elf.chdr(info), flags=COMPRESSED)
    yield "both_forms", elf.file(), plain(elf, {".zdebug_info": info})
    elf = Elf().add(".outside", b"", size=2 ** 40, place=2 ** 41)
    elf.add(".debug_info", elf.chdr(info), flags=COMPRESSED)
    told = plain(elf, {".debug_info": info})
    told[1] = line(".outside", 1, 0, 0, b"outside", 2 ** 40)
    yield "another_section_outside", elf.file(), told
    for level in (0, 1):
        elf = Elf()
        elf.add(".debug_info", elf.chdr(text, level=level) + b"behind", flags=COMPRESSED)
        yield f"level_{level}_and_bytes_behind", elf.file(), plain(elf, {".debug_info": text})
    for bits, order, kind in ((64, "<", "little"), (64, ">", "big"), (32, "<", "little"), (32, ">", "big")):
        elf = Elf(bits, order).add(".text", b"\x90\xc3", flags=6)
        elf.add(".debug_info.dwo", elf.chdr(info, kind=2), flags=0x80000000 | COMPRESSED)
        elf.add(".debug_line.dwo", elf.chdr(text), flags=COMPRESSED).add(".debug_str.dwo", elf.chdr(b"", kind=2), flags=0x830)
        yield f"zstd_{bits}_{kind}", elf.file(), plain(elf, {".debug_info.dwo": info, ".debug_line.dwo": text, ".debug_str.dwo": b""})
    elf = Elf().add(".zdebug_info", b"")
    parts = by_zstd(text[:50], "--no-check", "-19") + by_zstd(text[50:], "--ultra", "-22")
    elf.add(".zdebug_line", elf.chdr(text, kind=2, stream=parts), flags=COMPRESSED).add(".zdebug_str", older(info))
    yield "zstd_of_two_frames", elf.file(), plain(elf, {".zdebug_line": text, ".zdebug_str": info})


def one(content, name=".debug_info", flags=COMPRESSED, bits=64, **more):
    return Elf(bits).add(name, content, flags=flags, **more).file()


def damaged(content):
    return content[:-1] + bytes([content[-1] ^ 1])


def refused():
    """Rows of files that are refused, and those that are as they were to be."""
    elf, text = Elf(), b"plain text, plain text"
    yield "no_compressed_section", Elf().add(".debug_info", text).file(), "as it is"
    yield "an_empty_one", one(b""), "as it is"
    yield "without_bytes", one(b"", kind=8, size=24), "as it is"
    yield "no_elf_file", b"!<arch>\n" + bytes(60), "Read(NotElf): File can't be read"
    yield "outside", one(b"", size=100, place=2 ** 40), "Read(SectionRange): File can't be read"
    yield "shorter_than_its_header", one(elf.chdr(text)[:23]), "Header: Bad header of a compressed section"
    yield "shorter_than_its_header_32", one(bytes(11), bits=32), "Header: Bad header of a compressed section"
    yield "no_older_header", one(b"zlib" + older(text)[4:], ".zdebug_info", 0), "Header: Bad header of a compressed section"
    yield "shorter_than_an_older_header", one(older(text)[:11], ".zdebug_str", 0), "Header: Bad header of a compressed section"
    yield "type_3", one(elf.chdr(text, kind=3)), "UnknownType(3): Unknown type of compression"
    yield "type_0", one(elf.chdr(text, kind=0)), "UnknownType(0): Unknown type of compression"
    stream = "Section compressed by zlib can't be read"
    yield "check_sum", one(damaged(elf.chdr(text))), f"Zlib(CheckSum): {stream}"
    yield "a_byte_more_said", one(elf.chdr(text, size=23)), f"Zlib(TooShort): {stream}"
    yield "a_byte_less_said", one(elf.chdr(text, size=21)), f"Zlib(TooLong): {stream}"
    yield "out_of_reach", one(elf.chdr(text, size=2 ** 63)), f"Zlib(Unreachable): {stream}"
    yield "ends_early", one(elf.chdr(text)[:-5]), f"Zlib(EndOfInput): {stream}"
    first = Elf().add(".debug_a", elf.chdr(text), flags=COMPRESSED).add(".debug_b", elf.chdr(text, kind=3), flags=COMPRESSED)
    first.add(".debug_c", bytes(9), flags=COMPRESSED)
    yield "the_first_that_has_a_fault", first.file(), "UnknownType(3): Unknown type of compression"
    stream, zstd = "Section compressed by zstd can't be read", elf.chdr(text, kind=2)
    yield "zstd_no_frame", one(elf.chdr(text, kind=2, stream=zlib.compress(text))), f"Zstd(Magic): {stream}"
    yield "zstd_check_sum", one(damaged(zstd)), f"Zstd(CheckSum): {stream}"
    yield "zstd_a_byte_more_said", one(elf.chdr(text, kind=2, size=23)), f"Zstd(TooShort): {stream}"
    yield "zstd_a_byte_less_said", one(elf.chdr(text, kind=2, size=21)), f"Zstd(TooLong): {stream}"
    yield "zstd_out_of_reach", one(elf.chdr(text, kind=2, size=2 ** 63)), f"Zstd(Unreachable): {stream}"
    yield "zstd_ends_early", one(zstd[:-5]), f"Zstd(EndOfInput): {stream}"
    yield "zstd_by_the_older_name", one(b"ZLIB" + struct.pack(">Q", 22) + by_zstd(text), ".zdebug_info", 0), \
        "Zlib(Header): Section compressed by zlib can't be read"
    yield "zstd_first_and_damaged_zlib", Elf().add(".debug_a", damaged(zstd), flags=COMPRESSED).add(
        ".debug_b", damaged(elf.chdr(text)), flags=COMPRESSED).file(), f"Zstd(CheckSum): {stream}"
    yield "zstd_of_more_than_zlib_could_write", one(elf.chdr(bytes(1 << 21), kind=2)), \
        "Unrepresentable: Decompressed file can't be written"
    data = Elf().file(elf.chdr(b"other names"))
    yield "compressed_names_by_which_names_change", data, "Unrepresentable: Decompressed file can't be written"


def length_of(data, contents, added=0):
    """How many bytes a file of 64 bits has once its sections have these contents, and so many bytes of names are added."""
    sections = read(data)
    names = len(sections[-1][4]) + added if added else 0
    return (len(data) + sum(map(len, contents)) + names + 7) // 8 * 8 + 64 * len(sections)


def sized():
    """Rows of other calls: the call, a name, the bytes, what must be printed."""
    info, text = b"info" * 9, bytes(range(40)) * 3
    elf = Elf()
    elf.add(".debug_info.dwo", elf.chdr(info), flags=COMPRESSED).add(".other", elf.chdr(text), flags=COMPRESSED)
    elf.add(".zdebug_line.dwo", older(text)).add(".zdebug_other", older(text)).add(".debug_line", elf.chdr(text), flags=COMPRESSED)
    elf.add(".debug_line_str", elf.chdr(text), flags=COMPRESSED)
    asked = {".debug_info.dwo": info, ".zdebug_line.dwo": text, ".debug_line_str": text}
    yield "asked", "names_that_nobody_uses", elf.file(), "; ".join(plain(elf, asked))
    added = len(".debug_line.dwo") + len(".debug_other") + 2
    yield "plain_length", "of_all", elf.file(), f"Ok(Some({length_of(elf.file(), [info, *[text] * 5], added)}))"
    yield "plain_length", "of_a_damaged_stream", one(damaged(elf.chdr(info))), f"Ok(Some({length_of(one(elf.chdr(info)), [info])}))"
    yield "plain_length", "no_compressed_section", one(info, flags=0), "Ok(None)"
    yield "plain_length", "out_of_reach", one(elf.chdr(text, size=2 ** 63)), "Err(Zlib(Unreachable))"
    yield "plain_length", "zstd_out_of_reach", one(elf.chdr(text, kind=2, size=2 ** 63)), "Err(Zstd(Unreachable))"
    most = 1032 * len(one(elf.chdr(text, kind=2)))
    data = one(elf.chdr(text, kind=2, size=most))
    yield "plain_length", "zstd_as_many_as_zlib_could_write", data, f"Ok(Some({length_of(data, [bytes(most)])}))"
    yield "plain_length", "zstd_more_than_zlib_could_write", one(elf.chdr(text, kind=2, size=most + 1)), "Err(Unrepresentable)"
    yield "overlaps", "nothing", elf.file(), "false"
    stream = elf.chdr(bytes(1 << 16)) + bytes(400)
    elf = Elf().add(".debug_info.dwo", stream, flags=COMPRESSED)
    for name in (".debug_line.dwo", ".debug_str.dwo", ".debug_info"):
        elf.add(name, b"", flags=COMPRESSED, size=len(stream), place=64)
    yield "overlaps", "four_over_one_stream", elf.file(), "true"
    elf = Elf().add(".debug_info.dwo", stream, flags=COMPRESSED)
    for name in (".other", ".another", ".third"):
        elf.add(name, b"", flags=COMPRESSED, size=len(stream), place=64)
    yield "overlaps", "three_that_nobody_uses_over_one_stream", elf.file(), "false"


def compressed(data, kind):
    """The same file with its debug sections compressed."""
    elf = Elf()
    for name, type_, flags, link, content, _ in read(data)[1:]:
        if name.startswith(".debug_") and kind == "older":
            elf.add(name.replace(".debug_", ".zdebug_"), older(content), type_, flags, link)
        elif name.startswith(".debug_"):
            elf.add(name, elf.chdr(content, kind=int(kind)), type_, flags | COMPRESSED, link)
        elif name != ".shstrtab":
            elf.add(name, content, type_, flags, link)
    return elf.file()


def main():
    if sys.argv[1:2] == ["compress"] and len(sys.argv) in (4, 5):
        data = pathlib.Path(sys.argv[2]).read_bytes()
        pathlib.Path(sys.argv[3]).write_bytes(compressed(data, (*sys.argv, "1")[4]))
        return
    if len(sys.argv) != 2:
        sys.exit(__doc__)
    folder = pathlib.Path(sys.argv[1]).resolve()
    rows, told = ["# a name and a file's bytes, made by bench/decompress_rows.py: each section of the file that is made, or its error"], []
    with tempfile.TemporaryDirectory() as place:
        made = [("gcc_gz", *made_by_gcc(pathlib.Path(place), "-gz")),
                ("gcc_gz_gnu", *made_by_gcc(pathlib.Path(place), "-gz=zlib-gnu")),
                ("gcc_and_objcopy_zstd", *made_by_gcc(pathlib.Path(place), compress=["--compress-debug-sections=zstd"]))]
    for name, data, lines in [*taken(), *made, *refused()]:
        rows.append(f"decompressed {name} {data.hex()}")
        told += [rows[-1], "    " + (lines if isinstance(lines, str) else "; ".join(lines))]
    for call, name, data, line_ in sized():
        rows.append(f"{call} {name} {data.hex()}")
        told += [rows[-1], "    " + line_]
    (folder / "decompress.rows").write_text("\n".join(rows) + "\n")
    (folder / "told").write_text("\n".join(["decompress.rows", *told]) + "\n")


if __name__ == "__main__":
    main()
