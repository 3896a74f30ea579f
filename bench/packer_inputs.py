"""The inputs of bench/compare_packers.py: programs compiled in many ways, and files that are wrong."""
import shutil
import struct
import subprocess
from dataclasses import dataclass, field
from pathlib import Path

C_MAIN = """#include <stdio.h>
#define SIDE 4
struct point { int x, y; };
int squared(struct point from, struct point to);
int main(void) { struct point a = {0, 0}, b = {3, SIDE}; printf("%d\\n", squared(a, b)); return 0; }
"""
C_PART = """struct point { int x, y; };
int squared(struct point from, struct point to) { int x = to.x - from.x, y = to.y - from.y; return x * x + y * y; }
"""
C_ARRAY = """#include <stdio.h>
struct row { int cells[1]; };
int first(struct row *row) { printf("%d", row->cells[0]); return 1; }
"""
C_CALLER = """struct row { int cells[1]; };
int first(struct row *);
int main(void) { struct row row = {{7}}; return first(&row) - 1; }
"""
CXX_MAIN = """#include <map>
#include <string>
#include <vector>
struct Point { int x, y; };
int squared(const std::vector<Point> &points, const std::string &name, Point to);
int main() {
  std::map<std::string, int> seen;
  seen["corner"] = squared({{0, 0}, {3, 4}}, "corner", {3, 4});
  return int(seen.size()) - 1;
}
"""
CXX_PART = """#include <map>
#include <string>
#include <vector>
struct Point { int x, y; };
int squared(const std::vector<Point> &points, const std::string &name, Point to) {
  std::map<std::string, int> seen; seen[name] = 1; return points[1].x * to.x + points[1].y * to.y;
}
"""
RUST = """struct Point { x: i32, y: i32 }
#[inline(never)]
fn squared(to: Point) -> i32 { to.x * to.x + to.y * to.y }
fn main() { println!("{}", squared(Point { x: 3, y: 4 })); }
"""
RUST_CRATES = {
    "shape": """pub struct Point { pub x: i32, pub y: i32 }
#[inline(never)]
pub fn squared(to: Point) -> i32 { to.x * to.x + to.y * to.y }
""",
    "scale": """pub fn doubled(from: shape::Point) -> i32 { shape::squared(shape::Point { x: 2 * from.x, y: 2 * from.y }) }
""",
    "app": """fn main() { println!("{} {}", shape::squared(shape::Point { x: 3, y: 4 }), scale::doubled(shape::Point { x: 1, y: 1 })); }
""",
}
OBJECTS = ["main.o", "part.o"]


@dataclass
class Question:
    """What a debugger is asked: to stop in a function, and to show a variable there, or the frame where none is named."""

    function: str = "squared"
    variable: str = "to"
    # What the variable is shown as.
    answer: str = r"[({]\s*x(?: =|:) 3,?\s+y(?: =|:) 4\s*[)}]"
    # A macro that it is to show too, which is 4.
    macro: str = ""


@dataclass
class Program:
    """A folder with a linked program `app` and its objects."""

    title: str
    where: Path
    # Inputs of a packer; none: the executable.
    inputs: list
    # The files that have its split units.
    units_in: list
    # The option of thorin's that is for such a program.
    option: list = field(default_factory=list)
    question: Question = field(default_factory=Question)


def must(words, where):
    subprocess.run(words, cwd=where, check=True, capture_output=True)


def split_objects(where):
    return sorted(str(it.relative_to(where)) for it in where.rglob("*.dwo"))


def groups(folder):
    """Programs in C, C++ and Rust, of split objects."""
    for compiler in ("gcc", "clang", "g++", "clang++"):
        cxx = compiler.endswith("+")
        for version in ("4", "5"):
            for types in ([], ["-fdebug-types-section"]) if cxx else ([],):
                where = folder / f"{compiler}{version}{len(types)}"
                where.mkdir()
                end = "cpp" if cxx else "c"
                (where / f"main.{end}").write_text(CXX_MAIN if cxx else C_MAIN)
                (where / f"part.{end}").write_text(CXX_PART if cxx else C_PART)
                flags = ["-g", f"-gdwarf-{version}", "-gsplit-dwarf", *types]
                must([compiler, *flags, "-c", f"main.{end}", f"part.{end}"], where)
                must([compiler, "-o", "app", *OBJECTS], where)
                title = f"{compiler} -gdwarf-{version}{' ' + types[0] if types else ''}"
                yield Program(title, where, [], ["main.dwo", "part.dwo"])
    for version in ("4", "5"):
        where = folder / f"array{version}"
        where.mkdir()
        (where / "array.c").write_text(C_ARRAY)
        (where / "caller.c").write_text(C_CALLER)
        must(["gcc", "-g", f"-gdwarf-{version}", "-gsplit-dwarf", "-c", "array.c"], where)
        must(["gcc", "-o", "app", "array.o", "caller.c"], where)
        title = f"gcc -gdwarf-{version}, a struct with an array"
        yield Program(title, where, [], ["array.dwo"], question=Question("first", "row->cells[0]", "= 7"))
    if shutil.which("rustc"):
        for version in ("4", "5"):
            where = folder / f"rustc{version}"
            where.mkdir()
            (where / "app.rs").write_text(RUST)
            more = ["-Cdwarf-version=5"] if version == "5" else []
            must(["rustc", "-g", "-Csplit-debuginfo=unpacked", *more, "app.rs"], where)
            made = split_objects(where)
            yield Program(f"rustc, DWARF {version}", where, [], made, question=Question("app::squared"))


@dataclass
class Way:
    """A way of compiling the program in C. In its words {} is the folder that it is compiled in."""

    title: str
    compiler: str
    flags: list
    link: list = field(default_factory=list)
    # Flags of the second source alone.
    second: list = field(default_factory=list)
    option: list = field(default_factory=list)
    question: Question = field(default_factory=Question)

    def keeps_units(self):
        """Whether the split units stand in the objects themselves."""
        return "-gsplit-dwarf=single" in self.flags


MACROS, PACKED, NAMELESS = ["--last-macros"], ["--decompress"], ["--skip-nameless"]
# (a unit whose source includes a header, or the one that is split)
IN_MAIN = Question("main", "a", r"x = -?[0-9]+,?\s+y = ")
WITH_MACRO = Question("main", "a", IN_MAIN.answer, "SIDE")
FRAME = Question("squared", "", r"squared.* at .*part\.c:2")
WAYS = [
    Way("gcc -gdwarf-4 -g3", "gcc", ["-gdwarf-4", "-g3"], option=MACROS, question=WITH_MACRO),
    Way("gcc -gdwarf-5 -g3", "gcc", ["-gdwarf-5", "-g3"], option=MACROS, question=WITH_MACRO),
    Way("clang -gdwarf-4 -g3 -fdebug-macro", "clang", ["-gdwarf-4", "-g3", "-fdebug-macro"], question=WITH_MACRO),
    Way("clang -gdwarf-5 -g3 -fdebug-macro", "clang", ["-gdwarf-5", "-g3", "-fdebug-macro"], question=WITH_MACRO),
    Way("gcc -gdwarf-4 -gz", "gcc", ["-gdwarf-4", "-gz"], option=PACKED),
    Way("gcc -gdwarf-5 -gz", "gcc", ["-gdwarf-5", "-gz"], option=PACKED),
    Way("clang -gdwarf-5 -gz", "clang", ["-gdwarf-5", "-gz"], option=PACKED),
    Way("clang 19 -g3 -fdebug-macro -gz=zstd", "clang-19", ["-g3", "-fdebug-macro", "-gz=zstd"], ["-fuse-ld=lld"], option=PACKED),
    Way("gcc -g1", "gcc", ["-g1"], question=FRAME),
    Way("clang -gmlt", "clang", ["-gmlt"], option=NAMELESS),
    Way("clang -gmlt -fno-split-dwarf-inlining", "clang", ["-gmlt", "-fno-split-dwarf-inlining"], option=NAMELESS),
    Way("clang, -gmlt for one source of two", "clang", [], second=["-gmlt"], option=NAMELESS, question=IN_MAIN),
    Way("clang -gdwarf-4 -gsplit-dwarf=single", "clang", ["-gdwarf-4", "-gsplit-dwarf=single"]),
    Way("clang -gsplit-dwarf=single", "clang", ["-gsplit-dwarf=single"]),
    Way("gcc -gdwarf-5 -gdwarf64", "gcc", ["-gdwarf-5", "-gdwarf64"]),
    Way("clang -gdwarf-5 -gdwarf64", "clang", ["-gdwarf-5", "-gdwarf64"]),
    Way("gcc -flto", "gcc", ["-flto"], ["-flto"]),
    Way("clang -flto", "clang", ["-flto"], ["-flto", "-fuse-ld=lld"]),
    Way("clang -flto=thin", "clang", ["-flto=thin"], ["-flto=thin", "-fuse-ld=lld"]),
    Way("clang 19 -flto=thin", "clang-19", ["-flto=thin"], ["-flto=thin", "-fuse-ld=lld"]),
    Way("gcc, the sources' folder mapped to another name", "gcc", ["-fdebug-prefix-map={}=/nowhere"],
        option=["--prefix-map", "/nowhere/={}/"]),
    Way("gcc, the objects moved after linking", "gcc", [], option=["--prefix-map", "{}/={}/moved/"]),
    Way("an archive of clang -gsplit-dwarf=single", "clang", ["-gsplit-dwarf=single"], option=["--archives"]),
    Way("an archive of gcc's .dwo files", "gcc", [], option=["--archives"]),
]


def compiled(way, where):
    """The program of a way, in a folder of its own; none where the compiler isn't there or doesn't take the flags."""
    (where / "main.c").write_text(C_MAIN)
    (where / "part.c").write_text(C_PART)
    flags = [it.replace("{}", str(where)) for it in way.flags]
    split = [] if way.keeps_units() else ["-gsplit-dwarf"]
    try:
        must([way.compiler, "-g", *split, *flags, "-c", "main.c"], where)
        must([way.compiler, "-g", *split, *flags, *way.second, "-c", "part.c"], where)
        must([way.compiler, "-g", *split, *way.link, "-o", "app", *OBJECTS], where)
    except (subprocess.CalledProcessError, FileNotFoundError):
        return None
    inputs = []
    if "archive" in way.title:
        must(["ar", "rc", "both.a", *(OBJECTS if way.keeps_units() else split_objects(where))], where)
        inputs = ["both.a"]
    if "moved" in way.title:
        (where / "moved").mkdir()
        for it in split_objects(where):
            (where / it).rename(where / "moved" / it)
    option = [it.replace("{}", str(where)) for it in way.option]
    return Program(way.title, where, inputs, OBJECTS if way.keeps_units() else split_objects(where), option, way.question)


def rlibs(where):
    """A Rust program of three crates, whose split units the rlibs of two have; those of the last are objects."""
    flags = ["-g", "-Csplit-debuginfo=unpacked", "--edition=2021", "-L."]
    for name, source in RUST_CRATES.items():
        (where / f"{name}.rs").write_text(source)
        kind = [] if name == "app" else ["--crate-type=rlib"]
        must(["rustc", *flags, *kind, f"{name}.rs"], where)
        flags += ["--extern", name]
    units_in = split_objects(where)
    own = [it for it in units_in if it.startswith("app.")]
    return Program("rlibs of rustc", where, [*own, "libscale.rlib", "libshape.rlib"], units_in, ["--archives"], Question("shape::squared"))


def ways(folder):
    """Other ways of compiling: the program in C, and one in Rust of several crates."""
    for number, way in enumerate(WAYS):
        where = folder / f"way{number}"
        where.mkdir()
        program = compiled(way, where)
        if program:
            yield program
    if shutil.which("rustc"):
        where = folder / "rlibs"
        where.mkdir()
        yield rlibs(where)


def compile_again(where):
    """Compiles an object of a program once more, by gcc in DWARF 4, with one function more, and doesn't link it."""
    (where / "part.c").write_text(C_PART + "int more(void) { return 1; }\n")
    must(["gcc", "-g", "-gdwarf-4", "-gsplit-dwarf", "-c", "part.c"], where)


def section(data, name):
    """Place and size of a section of a 64-bit little-endian ELF file, and the place of its header."""
    headers, = struct.unpack_from("<Q", data, 40)
    count, names = struct.unpack_from("<HH", data, 60)
    base, = struct.unpack_from("<Q", data, headers + 64 * names + 24)
    for i in range(count):
        at = headers + 64 * i
        text, = struct.unpack_from("<I", data, at)
        place, size = struct.unpack_from("<QQ", data, at + 24)
        if data[base + text:data.index(b"\0", base + text)] == name:
            return place, size, at
    raise KeyError(name)


def changed(data, name, at, number, size=4):
    """The file with a number written at a place of a section."""
    place, _, _ = section(data, name)
    return data[:place + at] + number.to_bytes(size, "little") + data[place + at + size:]


def damaged(folder, objects):
    """Inputs that are wrong: what is wrong, and the names of files of the folder."""

    def file(name, data):
        (folder / name).write_bytes(data)
        return [name]

    data = {v: (objects[v] / "main.dwo").read_bytes() for v in ("4", "5")}
    packages = {v: (objects[v] / "made.dwp").read_bytes() for v in ("4", "5")}
    good = file("good.dwo", data["4"])
    yield "a file that isn't there", ["nowhere.dwo"]
    yield "an empty file", file("empty.dwo", b"")
    yield "a text", file("text.dwo", b"no object\n")
    must(["ar", "rc", "archive.a", "good.dwo"], folder)
    yield "an archive of an object", ["archive.a"]
    yield "the same object twice", good + good
    yield "objects of DWARF 4 and 5", good + file("five.dwo", data["5"])
    small = Path(__file__).resolve().parent.parent / "command_lines" / "data"
    orders = [file(name, (small / name).read_bytes())[0] for name in ("x.dwo", "big32.dwo")]
    yield "objects of both byte orders", orders
    (folder / "plain.c").write_text("int x;\n")
    must(["gcc", "-c", "plain.c"], folder)
    yield "an object without debug information", ["plain.o"]
    must(["objcopy", "--compress-debug-sections=zlib", "good.dwo", "compressed.dwo"], folder)
    yield "compressed sections", ["compressed.dwo"]
    for v in ("4", "5"):
        offsets, header = b".debug_str_offsets.dwo", 8 if v == "5" else 0
        yield f"half of an object, DWARF {v}", file(f"half{v}.dwo", data[v][:len(data[v]) // 2])
        yield f"a unit longer than its section, DWARF {v}", file(f"long{v}.dwo", changed(data[v], b".debug_info.dwo", 0, 0x10000))
        yield f"a string offset past the strings, DWARF {v}", file(f"past{v}.dwo", changed(data[v], offsets, header, 0x7fffffff))
        place, size, _ = section(data[v], b".debug_str.dwo")
        endless = data[v][:place + size - 1] + b"x" + data[v][place + size:]
        yield f"a last string without its end, DWARF {v}", file(f"endless{v}.dwo", endless)
        _, _, header_at = section(data[v], b".debug_abbrev.dwo")
        outside = data[v][:header_at + 24] + b"\xff" * 4 + data[v][header_at + 28:]
        yield f"abbreviations past the end of the file, DWARF {v}", file(f"abbrev{v}.dwo", outside)
    for v in ("4", "5"):
        index = b".debug_cu_index"
        package = packages[v]
        place, _, _ = section(package, index)
        slots, = struct.unpack_from("<I", package, place + 12)
        columns, rows = struct.unpack_from("<II", package, place + 4)
        yield f"a package whose index is of version 7, DWARF {v}", file(f"seven{v}.dwp", changed(package, index, 0, 7))
        yield f"a package with 3 slots, DWARF {v}", file(f"slots{v}.dwp", changed(package, index, 12, 3))
        yield f"a package of 2^30 units, DWARF {v}", file(f"units{v}.dwp", changed(package, index, 8, 1 << 30))
        outside = changed(package, index, 16 + 12 * slots + 4 * columns, 0x7fffffff)
        yield f"a package with a contribution outside its section, DWARF {v}", file(f"range{v}.dwp", outside)
