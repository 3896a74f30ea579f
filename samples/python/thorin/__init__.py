"""Packages of split DWARF, read and packed by libthorin.so: `Package` reads a file, `pack` makes one's bytes, `skeletons` tells
which objects an executable names, and `decompress` makes the sections of an object plain.

The library is that of the folder THORIN_LIB, else of the checkout that this file lies in, else the one that is installed.
The structures are those of include/thorin.h."""
import ctypes as c
import mmap
import os
from pathlib import Path
from typing import Any, Callable, Iterator, List, NamedTuple, Optional, Sequence, Tuple, Union

__version__ = "1.2.0"
__all__ = ["COMPILATION", "TYPE_UNIT", "SECTIONS", "Error", "Found", "Lookup", "Package", "Packed", "Skeleton", "Skeletons", "Unit",
           "decompress", "differing_types", "pack", "skeletons", "version"]

DONE, MALFORMED_FILE, TOO_SMALL, REFUSED, UNFINISHED, NOT_COMPRESSED = 0, 3, 10, 11, 12, 14
COMPILATION, TYPE_UNIT = 1, 2
SECTIONS = ("info", "types", "abbreviations", "line", "loc", "loclists", "rnglists", "str_offsets", "macinfo", "macro")


class Bytes(c.Structure):
    _fields_ = [("at", c.c_void_p), ("size", c.c_size_t)]


class Range(c.Structure):
    _fields_ = [("offset", c.c_uint64), ("size", c.c_uint64)]


class Unit(c.Structure):
    _fields_ = [(name, Range) for name in SECTIONS] + [
        ("row", c.c_uint32), ("slots", c.c_uint32), ("version", c.c_uint16),
        ("offset_size", c.c_uint8), ("address_size", c.c_uint8)]


class Opened(c.Structure):
    _fields_ = [(name, Range) for name in (*SECTIONS, "strings", "cu_index", "tu_index")] + [("big_endian", c.c_uint64)]


class Name(c.Structure):
    _fields_ = [("id", c.c_uint64), ("row", c.c_uint32), ("kind", c.c_uint8)]


class Lookup(c.Structure):
    _fields_ = [("id", c.c_uint64), ("kind", c.c_uint8), ("status", c.c_int32), ("unit", Unit)]


class Named(c.Structure):
    _fields_ = [("id", c.c_uint64), ("path_size", c.c_uint64), ("kind", c.c_uint8)]


class Report(c.Structure):
    _fields_ = [("size", c.c_uint64), ("input", c.c_uint64), ("differing", c.c_uint64),
                ("packs_again", c.c_uint32), ("fault", c.c_uint32), ("text_size", c.c_uint32), ("text", c.c_char * 256)]


assert [c.sizeof(s) for s in (Bytes, Range, Unit, Opened, Name, Lookup, Named, Report)] == [16, 16, 176, 216, 16, 192, 24, 296]


def _library() -> c.CDLL:
    named, here = os.environ.get("THORIN_LIB"), Path(__file__).resolve().parents
    if named:
        return c.CDLL(str(Path(named) / "libthorin.so"))
    checkout = here[3] / "lib/libthorin.so" if len(here) > 3 and (here[3] / "include/thorin.h").exists() else None
    return c.CDLL(str(checkout) if checkout and checkout.exists() else "libthorin.so.1")


_lib = _library()


def _call(name: str, *types: Any, result: Any = c.c_int32) -> Callable[..., int]:
    call: Any = getattr(_lib, name)
    call.argtypes, call.restype = types, result
    typed: Callable[..., int] = call
    return typed


_OPENED = (c.POINTER(Opened), c.c_void_p, c.c_size_t)
_status_text = _call("thorin_status_text", c.c_int32, c.c_char_p, c.c_size_t, result=c.c_size_t)
_open = _call("thorin_open", c.c_void_p, c.c_size_t, c.POINTER(Opened))
_find_in = _call("thorin_find_in", *_OPENED, c.c_uint8, c.c_uint64, c.POINTER(Unit))
_find_row_in = _call("thorin_find_row_in", *_OPENED, c.c_uint8, c.c_uint64, c.POINTER(Unit))
_find_each = _call("thorin_find_each", c.c_void_p, c.c_size_t, c.POINTER(Lookup), c.c_size_t)
_find_rows = _call("thorin_find_rows", c.c_void_p, c.c_size_t, c.POINTER(Lookup), c.c_size_t)
_content_in = _call("thorin_content_in", *_OPENED, c.c_uint8, c.c_uint64, c.c_uint8, c.POINTER(Bytes))
_string_in = _call("thorin_string_in", *_OPENED, c.c_uint8, c.c_uint64, c.c_uint64, c.POINTER(Bytes))
_list_in = _call("thorin_list_in", *_OPENED, c.POINTER(Name), c.c_size_t, c.POINTER(c.c_uint64))
_pack = _call("thorin_pack", c.POINTER(Bytes), c.c_size_t, c.c_void_p, c.c_size_t, c.POINTER(Report))
_differing_types = _call("thorin_differing_types", c.POINTER(Bytes), c.c_size_t, c.POINTER(c.c_uint64), c.c_size_t,
                         c.POINTER(Report))
_decompress = _call("thorin_decompress", c.c_void_p, c.c_size_t, c.c_void_p, c.c_size_t, c.POINTER(c.c_uint64))
_skeletons = _call("thorin_skeletons", c.c_void_p, c.c_size_t, c.POINTER(Named), c.c_size_t, c.c_void_p, c.c_size_t,
                   c.POINTER(c.c_uint64), c.POINTER(Report))
_version = _call("thorin_version", result=c.c_uint32)


def version() -> Tuple[int, int, int]:
    """The version of the library."""
    number = _version()
    return number >> 16, number >> 8 & 255, number & 255


class Error(Exception):
    """What a call answered: `status`; of a package that can't be made also `input` and `fault`."""

    def __init__(self, status: int, report: Optional[Report] = None) -> None:
        text = c.create_string_buffer(64)
        self.status, self.input, self.fault = status, None, None  # type: int, Optional[int], Optional[int]
        size = _status_text(status, text, 64)
        message = text.raw[:size].decode()
        if report is not None and status in (REFUSED, UNFINISHED):
            self.fault, message = report.fault, report.text.decode()
            self.input = report.input if status == REFUSED else None
        super().__init__(message)


def _answer(status: int, report: Optional[Report] = None) -> None:
    if status != DONE:
        raise Error(status, report)


class Found(NamedTuple):
    """A unit of a package with its name: COMPILATION or TYPE_UNIT, and the DWO id or type signature."""

    kind: int
    identifier: int
    unit: Unit


class Package:
    """A package's file, mapped into memory as long as the `with` lasts. Going through it gives its units."""

    def __init__(self, path: Union[str, "os.PathLike[str]"]) -> None:
        self._path = path

    def __enter__(self) -> "Package":
        with open(self._path, "rb") as file:
            if os.fstat(file.fileno()).st_size == 0:
                raise Error(MALFORMED_FILE)
            self._map = mmap.mmap(file.fileno(), 0, access=mmap.ACCESS_COPY)
        self._view = (c.c_char * len(self._map)).from_buffer(self._map)
        self._at, self._size, self._opened = c.addressof(self._view), len(self._map), Opened()
        try:
            _answer(_open(self._at, self._size, self._opened))
        except Error:
            self.__exit__()
            raise
        return self

    def __exit__(self, *_: Any) -> None:
        del self._view
        self._map.close()

    def __iter__(self) -> Iterator[Found]:
        for kind, identifier in self.names():
            yield Found(kind, identifier, self.find(kind, identifier))

    def names(self) -> List[Tuple[int, int]]:
        """The units that the indexes name, as pairs of a kind and an identifier."""
        count = c.c_uint64()
        _answer(_list_in(self._opened, self._at, self._size, None, 0, count))
        names = (Name * max(count.value, 1))()
        _answer(_list_in(self._opened, self._at, self._size, names, count.value, count))
        return [(name.kind, name.id) for name in names[:count.value]]

    def find(self, kind: int, identifier: int) -> Unit:
        """The unit of a name."""
        unit = Unit()
        _answer(_find_in(self._opened, self._at, self._size, kind, identifier, unit))
        return unit

    def find_row(self, kind: int, identifier: int) -> Unit:
        """The same by the indexes alone: no version and no sizes of offsets and addresses."""
        unit = Unit()
        _answer(_find_row_in(self._opened, self._at, self._size, kind, identifier, unit))
        return unit

    def _look_up(self, call: Callable[..., int], names: Sequence[Tuple[int, int]]) -> List[Lookup]:
        lookups = (Lookup * max(len(names), 1))()
        for lookup, (kind, identifier) in zip(lookups, names):
            lookup.kind, lookup.id = kind, identifier
        _answer(call(self._at, self._size, lookups, len(names)))
        return lookups[:len(names)]

    def find_each(self, names: Sequence[Tuple[int, int]]) -> List[Lookup]:
        """What comes of looking each of these names up: `status`, and `unit`."""
        return self._look_up(_find_each, names)

    def find_rows(self, names: Sequence[Tuple[int, int]]) -> List[Lookup]:
        """The same by the indexes alone."""
        return self._look_up(_find_rows, names)

    def _lent(self, call: Callable[..., int], *words: int) -> bytes:
        found = Bytes()
        _answer(call(self._opened, self._at, self._size, *words, found))
        return c.string_at(found.at, found.size)

    def content(self, kind: int, identifier: int, section: str) -> bytes:
        """A copy of a unit's bytes in a section, one of SECTIONS."""
        return self._lent(_content_in, kind, identifier, SECTIONS.index(section))

    def string(self, kind: int, identifier: int, number: int) -> bytes:
        """A unit's string of a number."""
        return self._lent(_string_in, kind, identifier, number)

    def strings(self, kind: int, identifier: int) -> Iterator[bytes]:
        """The strings of a unit, in order, up to the first that can't be read."""
        number = 0
        while True:
            try:
                yield self.string(kind, identifier, number)
            except Error:
                return
            number += 1


class Packed(NamedTuple):
    """A package's bytes; how many type units were passed over that differ; whether it may be an input again."""

    package: bytes
    differing: int
    packs_again: bool


def _inputs(inputs: Sequence[bytes]) -> Tuple[Any, List[Any]]:
    # c_char_p keeps the bytes object that it was made of.
    kept = [c.c_char_p(bytes_) for bytes_ in inputs]
    lent = [Bytes(c.cast(at, c.c_void_p).value, len(bytes_)) for at, bytes_ in zip(kept, inputs)]
    return (Bytes * max(len(lent), 1))(*lent), kept


def pack(inputs: Sequence[bytes]) -> Packed:
    """The package of objects and packages."""
    lent, _kept = _inputs(inputs)
    room, report, status = 4096 + sum(map(len, inputs)), Report(), TOO_SMALL
    while status == TOO_SMALL:
        room = max(room, report.size)
        out = c.create_string_buffer(room)
        status = _pack(lent, len(inputs), out, room, report)
    _answer(status, report)
    return Packed(out.raw[:report.size], report.differing, report.packs_again == 1)


def differing_types(inputs: Sequence[bytes]) -> List[int]:
    """The signatures of type units that packing passes over and that differ from those kept."""
    (lent, _kept), report = _inputs(inputs), Report()
    _answer(_differing_types(lent, len(inputs), None, 0, report), report)
    types = (c.c_uint64 * max(report.differing, 1))()
    _answer(_differing_types(lent, len(inputs), types, report.differing, report), report)
    found: List[int] = types[:report.differing]
    return found


def decompress(file: bytes) -> bytes:
    """A file with plain sections in place of compressed ones: an object, a package or an executable. The same where all are plain."""
    length, room, status = c.c_uint64(), 0, TOO_SMALL
    while status == TOO_SMALL:
        room = length.value
        out = c.create_string_buffer(max(room, 1))
        status = _decompress(file, len(file), out, room, length)
    if status == NOT_COMPRESSED:
        return file
    _answer(status)
    return out.raw[:length.value]


class Skeleton(NamedTuple):
    """A unit that an executable names: its kind, its DWO id or type signature, and the path of its object."""

    kind: int
    identifier: int
    path: bytes


class Skeletons(NamedTuple):
    """The units that an executable names, in order; where a fault ended the list its number and its text, else 0 and nothing."""

    units: List[Skeleton]
    fault: int
    text: str


def skeletons(executable: bytes) -> Skeletons:
    """The units that an executable names, up to the first that can't be read."""
    count, report, room, paths_room = c.c_uint64(), Report(), 0, 0
    while True:
        names, paths = (Named * max(room, 1))(), c.create_string_buffer(max(paths_room, 1))
        status = _skeletons(executable, len(executable), names, room, paths, paths_room, count, report)
        if status != REFUSED:
            _answer(status)
        if count.value <= room and report.size <= paths_room:
            break
        room, paths_room = count.value, report.size
    units, at = [], 0
    for name in names[:count.value]:
        units.append(Skeleton(name.kind, name.id, paths.raw[at:at + name.path_size]))
        at += name.path_size + 1
    return Skeletons(units, report.fault, report.text.decode())
