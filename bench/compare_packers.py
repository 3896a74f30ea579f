#!/usr/bin/env python3
"""Packs the same real and damaged inputs by thorin, llvm-dwp, binutils' dwp and the Rust crate, and writes what came of each.

    bench/compare_packers.py THORIN [--dwp PROGRAM] [--crate PROGRAM] [--rounds N] [--note TEXT] [--debugger COMMAND].. >
        docs/COMPARISON.md

It needs gcc, g++, clang, clang++, ar, objcopy, llvm-dwarfdump and the packers in PATH, and rustc, clang-19, lld and
llvm-dwp-19 if they are there. The PROGRAM of --dwp is another dwp of binutils, that of --crate bench/crate_program.source,
built. Nothing of this is part of the gate. Each run has 20 seconds and 4 GiB of memory. packer_inputs.py makes the inputs; N
(200 without it) is how many files are damaged at random. TEXT is put at the end of the head. COMMAND is a gdb or an lldb, as
'gdb' or 'chroot DIR gdb'; DIR needs /proc, and /tmp of outside (mount --bind /tmp DIR/tmp)."""
import collections
import contextlib
import random
import re
import resource
import shutil
import signal
import struct
import subprocess
import sys
import tempfile
import textwrap
from pathlib import Path

sys.dont_write_bytecode = True
from packer_inputs import compile_again, damaged, groups, section, ways  # noqa: E402

SECONDS = 20


def limits_of_debugger():
    resource.setrlimit(resource.RLIMIT_CORE, (0, 0))


def limits():
    resource.setrlimit(resource.RLIMIT_CORE, (0, 0))
    resource.setrlimit(resource.RLIMIT_AS, (4 << 30, resource.getrlimit(resource.RLIMIT_AS)[1]))


def run(words, where, limited=limits):
    """Status, standard error and output of a command; the status None where it gave no answer in time."""
    try:
        done = subprocess.run(words, cwd=where, capture_output=True, timeout=SECONDS, preexec_fn=limited, stdin=subprocess.DEVNULL)
        return done.returncode, (done.stderr + done.stdout).decode("utf-8", "replace")
    except subprocess.TimeoutExpired:
        return None, ""


def units(path):
    """The names of the entries of each unit, by its DWO id or type signature, as llvm-dwarfdump reads them."""
    # (LLVM 14 doesn't read zstd)
    words = ["llvm-dwarfdump-19" if shutil.which("llvm-dwarfdump-19") else "llvm-dwarfdump", "--debug-info", "--debug-types", path]
    done = subprocess.run(words, capture_output=True, text=True, errors="replace", timeout=120)
    found, name, texts, is_split = {}, None, [], True

    def close():
        if name is not None:
            found[name] = tuple(texts)

    for line in done.stdout.splitlines():
        part = re.match(r"(\.\S+) contents:", line)
        if part:
            close()
            name, is_split = None, part[1].endswith(".dwo")
        if not is_split:
            continue
        unit = re.match(r"0x[0-9a-f]+: (Compile|Type) Unit: .*", line)
        if unit:
            close()
            key = re.search(r"(?:type_signature|DWO_id) = (0x[0-9a-f]+)", line)
            name, texts = (unit[1], int(key[1], 16)) if key else (unit[1], line), []
            continue
        key = re.search(r"DW_AT_GNU_dwo_id\s+\((0x[0-9a-f]+)\)", line)
        if key:
            name = ("Compile", int(key[1], 16))
        text = re.search(r'(DW_AT_\w+)\s+\("(.*)"\)', line)
        if text:
            texts.append(text[0].split(None, 1)[-1])
    close()
    return found


def lengths_are_right(path):
    """Whether the string offsets of DWARF 5 in a package are headers, each followed by as many bytes as its length says."""
    data = path.read_bytes()
    try:
        index, _, _ = section(data, b".debug_cu_index")
        place, size, _ = section(data, b".debug_str_offsets.dwo")
    except KeyError:
        return True
    at = place
    if struct.unpack_from("<H", data, index)[0] != 5:
        return True
    while at < place + size:
        (length,), first = struct.unpack_from("<I", data, at), 4
        if length == 0xffffffff:
            (length,), first = struct.unpack_from("<Q", data, at + 4), 12
        if data[at + first:at + first + 2] != b"\5\0":
            return False
        at += first + length
    return at == place + size


class Packer:
    def __init__(self, title, command, program, takes_options=False):
        self.title, self.command, self.program, self.takes_options = title, command, program, takes_options

    def version(self):
        return self.title.split()[-1]

    def kept(self, program, option):
        """Where the package of a program is kept for the debuggers."""
        return program.where / f"{'option' if option else 'plain'}-{self.program[0].rpartition('/')[2]}"

    def pack(self, where, inputs, executable=None, option=()):
        """Packs to OUT; what is to be said of it, and whether there is a package."""
        out = where / "OUT"
        out.unlink(missing_ok=True)
        words = [*self.program, *option, "-o", "OUT", *(["-e", executable] if executable else []), *inputs]
        status, text = run(words, where)
        if status is None:
            return f"no answer in {SECONDS} s", False
        if status < 0:
            return f"crash: {signal.Signals(-status).name}", False
        lines = [line for line in text.replace(f"{where}/", "").splitlines() if line.strip()]
        panic = [line for line in lines if "panicked at" in line]
        if panic:
            return "panic" + (f": {lines[lines.index(panic[0]) + 1]}" if lines[-1] != panic[0] else ""), False
        if status:
            crash = [line for line in lines if "Stack dump" in line or "PLEASE submit" in line]
            said = "crash" if crash else short(lines[0]) if lines else "no word"
            return f"{said} ({status})", False
        of_macros = sum("several .debug_macro.dwo" in line for line in lines)
        if lines and len(lines) == of_macros + sum(line.startswith("warning: type unit") for line in lines):
            return f"packed, but: {len(lines)} warning{'s' * (len(lines) > 1)}{' of macros' * (of_macros > 0)}", out.exists()
        return (f"packed, but: {short(lines[0])}" if lines else "packed"), out.exists()


def judged(packer, where, inputs, wanted, executable=None, option=(), kept=None):
    """How many of the wanted units are in the package with all their names. The package may be kept."""
    said, is_there = packer.pack(where, inputs, executable, option)
    if not is_there:
        return "no package, status 0" + said.removeprefix("packed") if said.startswith("packed") else said
    if kept:
        shutil.copy(where / "OUT", kept)
    found = units(where / "OUT")
    right = sum(found.get(name) in variants for name, variants in wanted.items())
    size = (where / "OUT").stat().st_size
    said = "" if said == "packed" else "; " + said.removeprefix("packed, but: ")
    said += "" if lengths_are_right(where / "OUT") else "; wrong lengths of string offsets"
    if right == len(wanted):
        return f"all {right}, {size:,} bytes{said}"
    return f"**{right} of {len(wanted)}**, {size:,} bytes{said}"


def judged_linked(packer, program, wanted):
    """The same of a linked program, or of the inputs that stand for it. Each package is kept for the debuggers."""
    said, executable = {}, None if program.inputs else "app"
    for option in ([], program.option) if packer.takes_options else ([],):
        kept = packer.kept(program, option)
        said[" ".join(option)] = judged(packer, program.where, program.inputs, wanted, executable, option, kept)
    if "unexpected argument" in said.get(" ".join(program.option), ""):
        program.option = []
    return with_option(program, said[""], said.get(" ".join(program.option)))


def with_option(program, plain, opted):
    """A text of what came of a program, and what came of it with the option that is for it."""
    if not program.option or opted is None:
        return plain
    name = f"`{program.option[0]}`"
    if plain is None:
        return f"with {name} {opted}"
    return f"{plain}, also with {name}" if plain == opted else f"with {name} {opted}, without {plain}"


def wanted_of(paths):
    wanted = collections.defaultdict(set)
    for path in paths:
        for name, texts in units(path).items():
            wanted[name].add(texts)
    return wanted


class Debugger:
    """A debugger, which is to show something of a program whose package lies beside it, and whose objects are gone."""

    def __init__(self, command):
        self.command, self.is_lldb = command.split(), "lldb" in command.split()[-1]
        said = subprocess.run([*self.command, "--version"], capture_output=True, text=True).stdout
        self.title = f"{'lldb' if self.is_lldb else 'gdb'} {re.search(r'([0-9]+)[.][0-9]+', said)[1]}"

    def words(self, question):
        """Those of a command line that puts a question."""
        last = [f"print {question.macro}"] if question.macro else []
        if self.is_lldb:
            show = f"frame variable {question.variable}" if question.variable else "frame info"
            asked = [f"breakpoint set --name {question.function}", "run", show, *last]
            return [*self.command, "--no-lldbinit", "-b", *(it for ask in asked for it in ("-o", ask))]
        show = f"print {question.variable}" if question.variable else "frame"
        asked = [f"break {question.function}", "run", show, *last]
        return [*self.command, "-nx", "-batch", "-iex", "set debuginfod enabled off", *(it for ask in asked for it in ("-ex", ask))]

    def shows(self, where, question):
        """What came of a question: yes, no, crash or no answer."""
        # (a chroot begins at its root, so the executable has its whole path)
        status, text = run([*self.words(question), str(where / "app")], where, limits_of_debugger)
        if status is None:
            return "no answer"
        if re.search(question.answer, text):
            has_macro = question.macro and re.search(r"^(?:\(int\) )?(?:\$[0-9] = )?4$", text, re.M)
            return "yes, macros too" if has_macro else "yes"
        return "crash" if status < 0 or "internal to GDB" in text or "PLEASE submit" in text else "no"


@contextlib.contextmanager
def without_objects(where):
    """Objects and archives of a folder are somewhere else for a while."""
    away = where.parent / "away"
    taken = [it for it in where.rglob("*") if it.suffix in (".dwo", ".o", ".a", ".rlib")]
    for number, it in enumerate(taken):
        away.mkdir(exist_ok=True)
        it.rename(away / str(number))
    try:
        yield
    finally:
        for number, it in enumerate(taken):
            (away / str(number)).rename(it)


def answers(program, package, debuggers):
    """What debuggers show of a program with a package beside it, or without one."""
    beside = program.where / "app.dwp"
    beside.unlink(missing_ok=True)
    if package:
        shutil.copy(package, beside)
    return {it.title: it.shows(program.where, program.question) for it in debuggers}


def together(said):
    """Answers of debuggers as a text: those that are the same stand together."""
    kinds = collections.defaultdict(list)
    for title, answer in said.items():
        kinds[answer].append(title)
    return "; ".join(f"{', '.join(titles)}: {answer}" for answer, titles in kinds.items())


def debugged(programs, packers, debuggers):
    """What debuggers show of each program by its objects, and by the packages that were kept of it: a row for each."""
    for program in programs:
        by_objects = answers(program, None, debuggers)
        with without_objects(program.where):
            # (a variable can't be shown without any)
            alone = {} if program.question.variable else answers(program, None, debuggers)
            needless = {title: "needs none" for title, said in alone.items() if said == "yes"}
            asked, known, cells = [it for it in debuggers if it.title not in needless], {}, [together(by_objects)]
            for packer in packers:
                said = {}
                for option in ([], program.option):
                    package = packer.kept(program, option)
                    if package.exists():
                        # (packers may write the same package)
                        data = package.read_bytes()
                        known[data] = known.get(data) or answers(program, package, asked)
                        said[" ".join(option)] = together(known[data] | needless)
                cells.append(with_option(program, said.get(""), said.get(" ".join(program.option))) or "no package")
        yield program.title, cells


def short(text):
    text = text.strip()
    return text if len(text) <= 110 else text[:107] + "..."


def cell(text):
    return text.replace("|", "\\|").strip()


def briefly(text, with_sizes):
    """A cell in few words: of an error that it was refused, of a package whether it has all units."""
    found = re.fullmatch(r"with (`[^`]*`) (.*), without (.*)", text)
    if found:
        return f"with {found[1]} {briefly(found[2], with_sizes)}, without {briefly(found[3], with_sizes)}"
    found = re.fullmatch(r"(.*), also with (`[^`]*`)", text)
    if found:
        return f"{briefly(found[1], with_sizes)}, also with {found[2]}"
    said, leaves, _ = text.partition("; leaves a file")
    if re.search(r"\(\d+\)$", said):
        return "refused" + leaves
    said = re.sub(r"(packed), but: .*", r"\1, with a warning", said)
    said = re.sub(r"(no package, status 0), but: .*", r"\1", said)
    found = re.match(r"(?:(all) \d+|(\*\*\d+ of \d+\*\*))(, [\d,]+ bytes)?(.*)", said)
    if found:
        lengths = "; wrong lengths" if "wrong lengths" in found[4] else ""
        said = (found[1] or found[2]) + (found[3] if with_sizes and found[1] and found[3] else "") + lengths
    return said + leaves


def in_one(packers, cells):
    """Cells with those of another version of a packer in the column of the first: what came of it where that isn't the same."""
    kept = list(cells)
    first = len(cells) - len(packers)
    for place in range(len(packers) - 1, 0, -1):
        before, it = packers[place - 1], packers[place]
        if before.command == it.command:
            said = kept.pop(first + place)
            if said != kept[first + place - 1]:
                kept[first + place - 1] += f"; {it.version()}: {said}"
    return tuple(kept)


def columns(packers):
    """The titles of packers, those of versions of one as one."""
    found = []
    for before, it in zip([None, *packers], packers):
        if before and before.command == it.command:
            found[-1] += f" and {it.version()}"
        else:
            found.append(it.title)
    return found


def table(title, packers, rows, about="", before=(), counts=False):
    """Prints the rows that differ, those of the same cells as one, and behind them a line for all others."""
    print(f"\n## {title}\n" + (f"\n{wrapped(about)}\n" if about else ""))
    titles = ["input", *before, *columns(packers)]
    print(f"| {' | '.join(titles)} |")
    print("|---" * len(titles) + "|")
    kinds = collections.defaultdict(list)
    for name, cells in rows:
        sizes = [int(size.replace(",", "")) for text in cells for size in re.findall(r"all \d+, ([\d,]+) bytes", text)]
        with_sizes = bool(sizes) and max(sizes) - min(sizes) > 500
        kinds[in_one(packers, [briefly(text, with_sizes) for text in cells])].append(re.sub(r": \d+ objects?$", "", name))
    alike = {cells: names for cells, names in kinds.items() if len(set(cells)) == 1 and not counts}
    for cells, names in kinds.items():
        if cells not in alike:
            print(f"| {'; '.join(names)} | " + " | ".join(cell(text) for text in cells) + " |")
    for cells, names in alike.items():
        print("\n" + wrapped(f"The same in each column, {cells[0]}: {'; '.join(names)}."))
    sys.stdout.flush()


def of_page(title):
    """A part of the page as it was committed, which this script doesn't measure."""
    page = subprocess.run(["git", "show", "HEAD:docs/COMPARISON.md"], cwd=Path(__file__).parent, capture_output=True, text=True, check=True).stdout
    return re.search(rf"^## {title}\n(?:(?!## ).*\n)*", page, re.M)[0].rstrip("\n")


def said_of_stale(packer, where, linked):
    """What came of an executable that was linked with other units than its objects have."""
    said, is_there = packer.pack(where, [], "app")
    return "packed without the unit" if is_there and not linked.keys() <= units(where / "OUT").keys() else said


def at_random(packer, where, files, rounds):
    """What comes of files with some bytes changed, counted."""
    counts = collections.Counter()
    for seed in range(rounds):
        generator = random.Random(seed)
        data = bytearray(generator.choice(files))
        for _ in range(generator.randint(1, 8)):
            data[generator.randrange(len(data))] = generator.choice([0, 1, 0x7F, 0xFF, generator.randrange(256)])
        (where / "random.dwo").write_bytes(data)
        said, is_there = packer.pack(where, ["random.dwo"])
        kind = "packed" if is_there else next((k for k in ("no answer", "crash", "panic") if said.startswith(k)), "refused")
        counts[kind] += 1
    return counts


def version(program, pattern):
    return re.search(pattern, subprocess.run([program, "--version"], capture_output=True, text=True).stdout)[1]


def main():
    words = sys.argv[1:]
    if not words or words[0].startswith("-"):
        sys.exit(__doc__)
    thorin, rounds, note = Path(words.pop(0)).resolve(), 200, ""
    llvm, binutils = version("llvm-dwp", r"version ([0-9.]+)"), version("dwp", r"([0-9]+[.][0-9.]+)")
    packers = [Packer("`thorin`", "thorin pack -o OUT INPUT..", [str(thorin), "pack"], takes_options=True),
               Packer(f"`llvm-dwp` {llvm}", "llvm-dwp -o OUT INPUT..", ["llvm-dwp"]),
               Packer(f"`dwp` of binutils {binutils}", "dwp -o OUT INPUT..", ["dwp"])]
    if shutil.which("llvm-dwp-19"):
        newer = version("llvm-dwp-19", r"version ([0-9.]+)")
        packers.insert(2, Packer(f"`llvm-dwp` {newer}", "llvm-dwp-19 -o OUT INPUT..", ["llvm-dwp-19"]))
    debuggers = []
    while words:
        word = words.pop(0)
        if word == "--crate":
            packers.append(Packer("the Rust crate 0.10.0", "PROGRAM -o OUT INPUT..", [str(Path(words.pop(0)).resolve())]))
        elif word == "--dwp":
            program = words.pop(0)
            title = f"`dwp` of binutils {version(program, '([0-9]+[.][0-9.]+)')}"
            packers.append(Packer(title, "dwp -o OUT INPUT..", [program]))
        elif word == "--debugger":
            debuggers.append(Debugger(words.pop(0)))
        elif word == "--note":
            note = " " + words.pop(0)
        elif word == "--rounds":
            rounds = int(words.pop(0))
        else:
            sys.exit(__doc__)
    folder = Path(tempfile.gettempdir()) / "compare_packers"  # always the same: identifiers come of paths too
    shutil.rmtree(folder, ignore_errors=True)
    folder.mkdir()
    compare(folder, packers, debuggers, rounds, note)


def wrapped(text, begin=""):
    """A paragraph of at most 100 columns, or an item of a list; code stays whole."""
    text = re.sub(r"`[^`]*`", lambda code: code[0].replace(" ", "\0"), text)
    lines = textwrap.wrap(text, 100, initial_indent=begin, subsequent_indent=" " * len(begin), break_on_hyphens=False)
    return "\n".join(lines).replace("\0", " ")


def head(commands, compilers, note):
    """What stands above the tables."""
    return "\n\n".join([
        "# Beside the other packers",
        wrapped("For whoever wonders what another packer does with the same input. After this page you know which of them "
                "packs it whole, and which refuses it, loses units, crashes or never returns."),
        wrapped("`bench/compare_packers.py` writes this page; its head says how to run it. Each cell is what one command did: "
                + ", ".join(f"`{c}`" for c in commands) + ". For an executable `-e app` stands in the place of INPUT. "
                f"A run had {SECONDS} seconds and 4 GiB. The inputs were made by {compilers}. Time and memory are in "
                f"[bench/README.md](../bench/README.md).{note}"),
        "\n".join([
            wrapped("**All**: llvm-dwarfdump finds all units of the inputs in the package by DWO id or type signature, and reads "
                    "from each the same names and strings as from the objects. **K of N**: it does so for only K of them. The "
                    "size stands behind it where the packages differ by more than 500 bytes.", "- "),
            wrapped("**Wrong lengths**: a header of DWARF 5 string offsets doesn't have the length of what follows it (DWARF 5, "
                    "7.26).", "- "),
            wrapped("**With** an option of `thorin`'s that is for such an input, and **without** it: what came of each.", "- "),
            wrapped("**Refused**: it ended with another status than 0 and a message. **Leaves a file**: one that was begun and is "
                    "no package. **Packed without the unit**: that which the executable names is lost without a word.", "- "),
            wrapped("Inputs of which the same came stand in one row, and those of which the same came of each packer in a line "
                    "below.", "- ")])])


def compare(folder, packers, debuggers, rounds, note):
    numbers = r"([0-9]+[.][0-9]+[.][0-9]+)"
    compilers = ", ".join(f"{c.partition('-')[0]} {version(c, numbers)}" for c in ("gcc", "clang", "clang-19", "rustc") if shutil.which(c))
    print(head(list(dict.fromkeys(p.command for p in packers)), compilers, note))
    split, objects = list(groups(folder)), {}
    rows, again, linked = [], [], []
    for it in split:
        wanted, inputs = wanted_of(it.where / name for name in it.units_in), it.units_in
        count = f"{len(inputs)} object{'s' * (len(inputs) > 1)}"
        rows.append((f"{it.title}: {count}", [judged(p, it.where, inputs, wanted) for p in packers]))
        linked.append((it.title, [judged_linked(p, it, wanted) for p in packers]))
        packers[0].pack(it.where, inputs)
        shutil.copy(it.where / "OUT", it.where / "made.dwp")
        again.append((it.title, [judged(p, it.where, ["made.dwp"], wanted) for p in packers]))
        if it.title in ("gcc -gdwarf-4", "gcc -gdwarf-5"):
            objects["4" if "-4" in it.title else "5"] = it.where
    table("Objects", packers, rows)
    table("Executables", packers, linked)
    table("A package packed again", packers, again, "Each packer is given the package that `thorin` made.")
    rows, asked = [], list(split)
    for it in ways(folder):
        wanted = wanted_of(it.where / name for name in it.units_in)
        rows.append((it.title + ("" if wanted else ": nothing is split"), [judged_linked(p, it, wanted) for p in packers]))
        asked += [it] if wanted else []
    table("Other ways of compiling", packers, rows, "A program of two units in C, in the last row one of three crates in "
          "Rust. Each packer is given the executable, or the archives that a row names.")
    if debuggers:
        table("In a debugger", packers, debugged(asked, packers, debuggers), "The debugger stops in a function, mostly of the "
              "program's second unit, and shows a parameter or a local; with `-g1`, which has neither, the line. The package lies "
              "beside the executable; objects and archives are gone. The first column has what it shows by the objects alone, "
              "where they were made. **Macros too**: where macros were compiled in, it knows one of the source. **Needs none**: "
              "it shows that without objects and package.", ["no package, but the objects"])
    print("\n" + of_page("Real programs in a debugger"))
    wrong = folder / "wrong"
    wrong.mkdir()
    rows = []
    for title, inputs in damaged(wrong, objects):
        cells = []
        for packer in packers:
            said, is_there = packer.pack(wrong, inputs)
            cells.append(said + ("" if is_there or not (wrong / "OUT").exists() else "; leaves a file"))
        rows.append((title, cells))
    lost = objects["4"]
    linked = units(lost / "part.dwo")
    (lost / "part.dwo").unlink()
    rows.append(("an executable, an object of which is gone", [p.pack(lost, [], "app")[0] for p in packers]))
    compile_again(lost)
    rows.append(("an executable, an object of which was compiled again", [said_of_stale(p, lost, linked) for p in packers]))
    table("Damaged inputs", packers, rows)
    files = [(it.where / "main.dwo").read_bytes() for it in split if "main.dwo" in it.units_in]
    files += [(where / "made.dwp").read_bytes() for where in objects.values()]
    counts = [at_random(p, wrong, files, rounds) for p in packers]
    kinds = ["packed", "refused", "crash", "panic", "no answer"]
    table(f"{rounds} objects and packages with one to eight bytes changed at random", packers,
          [(kind, [str(c[kind]) for c in counts]) for kind in kinds], counts=True)


if __name__ == "__main__":
    main()
