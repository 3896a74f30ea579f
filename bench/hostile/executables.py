"""Executables, and the objects that they name, which cost a careless packer much time or memory."""
import os
import struct

from elf_files import ABBREVIATIONS, uleb, elf, unit, type_unit, index, package, write


def far_codes_of_an_executable(n):
    """The same, in an executable whose units name their objects: none of them is there."""
    fields = bytes.fromhex("1100b04208b142070000")
    table = b"".join(uleb(code) + fields for code in range(1, n + 1)) + b"\0"
    units = bytearray()
    for id in range(n):
        body = struct.pack("<HIB", 4, 0, 8) + uleb(n) + b"a\0" + struct.pack("<Q", id)
        units += struct.pack("<I", len(body)) + body
    return elf([(".debug_abbrev", table), (".debug_info", bytes(units))])


def paths_of_an_executable(n, long_name, turns=1):
    """An executable of n units that all name one path, which is ten letters a unit long and longer than
    what is printed of it: the name of the object, or the directory. With more turns they name it and its
    ends by turns."""
    fields = bytes.fromhex("011100b0420e1b0eb14207000000")
    strings = b"a.dwo\0/" + b"/" + b"x" * max(10 * n, 5000) + b"\0"
    units = bytearray()
    for id in range(n):
        name, directory = (6 + id % turns, 0) if long_name else (0, 6 + id % turns)
        body = struct.pack("<HIBBIIQ", 4, 0, 8, 1, name, directory, id)
        units += struct.pack("<I", len(body)) + body
    return elf([(".debug_abbrev", fields), (".debug_info", bytes(units)), (".debug_str", strings)])


def relocations(n):
    """An executable whose units have a million relocations, each at a place of its own."""
    info = unit(5) + b"".join(unit(6) for _ in range(4 * n // 20 + 1))
    table = b"".join(struct.pack("<QQq", 4 * place, 10, 0) for place in range(n))
    return elf([(".debug_abbrev", ABBREVIATIONS), (".debug_info", info)], (2, table))


def type_unit_of_dwarf_5(signature, place):
    return struct.pack("<IHBBIQIB", 21, 5, 6, 8, 0, signature, 24 + place, 1)


def skeletons_of(names, n, in_the_unit, first=()):
    """An executable of n units that name these objects by turns, by strings in the units or by strings of its own, behind units
    that name the first ones."""
    form = "08" if in_the_unit else "0e"
    strings = b"".join(name.encode() + b"\0" for name in [*first, *names])
    field = lambda name: name.encode() + b"\0" if in_the_unit else struct.pack("<I", strings.index(name.encode()))
    before, fields = [field(name) for name in first], [field(name) for name in names]
    units = bytearray()
    for id in range(1, len(before) + n + 1):
        named = before[id - 1] if id <= len(before) else fields[id % len(fields)]
        body = struct.pack("<HIB", 4, 0, 8) + b"\1" + named + struct.pack("<Q", id)
        units += struct.pack("<I", len(body)) + body
    declared = bytes.fromhex("011100b042" + form + "b142070000" + "00")
    return elf([(".debug_abbrev", declared), (".debug_info", bytes(units)), (".debug_str", b"" if in_the_unit else strings)])


def object_of_types(path, signatures, abbreviations=b""):
    """An object of type units of DWARF 5, each of which differs from the others."""
    units = b"".join(type_unit_of_dwarf_5(signature, place) for place, signature in enumerate(signatures))
    write(path, elf([
        (".debug_info.dwo", units),
        (".debug_abbrev.dwo", bytes.fromhex("0141000000" + "00") + abbreviations),
    ]))


def skeletons_of_objects(n, folder, count, in_the_unit):
    """An executable whose n units name some objects of n type units by turns, which lack them."""
    names = [os.path.abspath(os.path.join(folder, f"object_of_types_{place}.dwo")) for place in range(count)]
    for name in names:
        object_of_types(name, range(1, n + 1))
    return skeletons_of(names, n, in_the_unit)


def skeletons_of_objects_behind_another(n, folder, other):
    """An executable whose first unit names an object that has it, and n others two objects of a type by turns that lack them."""
    names = [os.path.abspath(os.path.join(folder, name)) for name in ("first.dwo", "type_0.dwo", "type_1.dwo")]
    write(names[0], other)
    for name in names[1:]:
        write(name, elf([(".debug_types.dwo", type_unit(17))]))
    return skeletons_of(names[1:], n, False, names[:1])


def skeletons_of_one_object_of_sections(n, folder):
    """The same of one object of n sections, none of them of info."""
    name = os.path.abspath(os.path.join(folder, "object_of_sections.dwo"))
    write(name, elf([(".debug_types.dwo", type_unit(id)) for id in range(min(n, 60_000))]))
    return skeletons_of([name], n, False)


def skeletons_of_one_object_of_differing_types(n, folder):
    """The same of one object, whose n type units have one signature."""
    name = os.path.abspath(os.path.join(folder, "object_of_differing_types.dwo"))
    object_of_types(name, [1] * n)
    return skeletons_of([name], n, False)


def skeletons_of_one_object_with_abbreviations(n, folder):
    """The same of one object with a type unit and n bytes of abbreviations."""
    name = os.path.abspath(os.path.join(folder, "object_with_abbreviations.dwo"))
    object_of_types(name, [1], bytes(n))
    return skeletons_of([name], n, False)


def skeletons_of_two_objects_without_units(n, folder):
    """The same of two objects by turns, of lines and no unit."""
    names = [os.path.abspath(os.path.join(folder, f"object_of_lines_{place}.dwo")) for place in range(2)]
    for name in names:
        write(name, elf([(".debug_line.dwo", bytes(12 * n))]))
    return skeletons_of(names, n, False)


def many_paths(n, folder, name):
    """Paths of a file in a folder, each spelled in a way of its own."""
    folder = os.path.abspath(folder)
    steps = max(n - 1, 1).bit_length()
    return [folder + "".join("/." if id >> bit & 1 else "/" for bit in range(steps)) + "/" + name for id in range(n)]


def skeletons_of_one_object_by_many_paths(n, folder):
    """The same, where each unit spells the object's path in a way of its own."""
    object_of_types(os.path.join(folder, "object.dwo"), [1], bytes(n))
    return skeletons_of(many_paths(n, folder, "object.dwo"), n, True)


def skeletons_of_one_library_by_many_paths(n, folder):
    """The same of a file of n sections, none of which is used."""
    write(os.path.join(folder, "library.so"), library(n))
    return skeletons_of(many_paths(n, folder, "library.so"), n, True)


def library(n):
    return elf([(".text", bytes(16))] * min(n, 60_000))


def executables_of_one_library(n, folder):
    """A response file that names an executable n times, which names such a file."""
    names = [os.path.abspath(os.path.join(folder, name)) for name in ("library.so", "app")]
    write(names[0], library(n))
    write(names[1], skeletons_of(names[:1], 1, True))
    return b"--skip-missing\n" + f"-e {names[1]}\n".encode() * n


def inputs_and_executables(n, folder):
    """A response file of a prefix, n inputs and n executables, in which nothing is split."""
    write(os.path.join(folder, "lines.dwo"), elf([(".debug_line.dwo", bytes(12))]))
    write(os.path.join(folder, "app"), elf([(".text", bytes(16))]))
    words = ["--prefix-map /from=/to", *many_paths(n, folder, "lines.dwo")]
    words += [f"-e {path}" for path in many_paths(n, folder, "app")]
    return "".join(word + "\n" for word in words).encode()


def attributes_of_an_executable(n):
    """An executable of n units whose abbreviation has n attributes without bytes before the identifier."""
    fields = b"\x01\x11\x00" + bytes.fromhex("b04208") + b"\x01\x19" * n + bytes.fromhex("b142070000") + b"\0"
    units = bytearray()
    for id in range(n):
        body = struct.pack("<HIB", 4, 0, 8) + b"\1a\0" + struct.pack("<Q", id)
        units += struct.pack("<I", len(body)) + body
    return elf([(".debug_abbrev", fields), (".debug_info", bytes(units))])


def checked_control_path(n, folder):
    """An executable whose n units name one object by 4,000 control characters, and a package that lacks them."""
    write(os.path.join(folder, "one_unit.dwp"), package(unit(1 << 60), ABBREVIATIONS, [(1 << 60, (0, 20), (0, 9))]))
    return skeletons_of(["\1" * 4000], n, False)


def checked_paths(n, long_name, folder, turns=1):
    """An executable's paths, and a package that lacks its units."""
    write(os.path.join(folder, "one_unit.dwp"), package(unit(1 << 60), ABBREVIATIONS, [(1 << 60, (0, 20), (0, 9))]))
    return paths_of_an_executable(n, long_name, turns)
