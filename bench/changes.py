#!/usr/bin/env python3
"""Changes lines of the crates' code by a little, and sees whether the prover refuses what no test sees.

    bench/changes.py [--seed N] [--all N] [--most N] [--list] TREE [CRATE..]
    bench/changes.py [--seed N] [--all N] [--most N] --page [TREE]

TREE is a copy of the repository in which each crate was proved and built by rt ci, as .ci/wrong-bodies has it. A change
names an error's neighbour, adds one to a number, or takes a comparison's neighbour. Of all that could be changed --all
are drawn by the seed, at most --most in a function, from the given crates or all. bench/changed_tests.py runs the tests over
each change. Either script may come first: what a test sees isn't proved, and what is refused isn't tested. A change that
doesn't compile is drawn anew. Changes of different functions are proved together, with the groups of .ci/wrong-bodies; a
change counts as refused where its own function is told as not proved, and as let through where that is told as proved. What
came of each is written to out/changes/CRATE.json. --list prints what would be changed, and tries nothing. --page writes what
both scripts left in out/changes of the changes of TREE, of this checkout without one, into the table and the list of
bench/changes.md, and keeps that page's reasons, and its rows of crates of which nothing is left; what the table counts under
none of the three kinds is open, and then the status is 1.
"""
import functools
import glob
import json
import os
import random
import re
import shutil
import subprocess
import sys
import tempfile
import textwrap

sys.dont_write_bytecode = True
ROOT = os.path.dirname(os.path.dirname(os.path.realpath(__file__)))
sys.path.insert(0, f"{ROOT}/.ci")
import edits as of_edits  # noqa: E402
import kit  # noqa: E402

wrong = kit.load("wrong_bodies", f"{ROOT}/.ci/wrong-bodies")
# Crates whose lines aren't changed: those of tests and of examples.
IS_LEFT_OUT = re.compile(r"test_|example_")
ALIASES = {"ElfReadError": "ReadError", "DwarfReadError": "ReadError", "ElfWriteError": "WriteError", "DwarfWriteError": "WriteError"}
LATER = {"<": "<=", "<=": "<", ">": ">=", ">=": ">", "==": "!=", "!=": "=="}
NUMBER = re.compile(r"(?:(?<=\.\.)|(?<![\w.]))(0x[0-9a-f_]+|\d[\d_]*)(?!\w|\.\d)")
# What bench/changes.md says of a change that nobody explained yet.
OPEN = "not explained"
STILL = ("still proved with it", "not refused: ")
# The draw that the page is of: its seed, how many changes, and how many of them at most in a function.
SEED, COUNT, MOST = 20261201, 400, 2
PROVED = re.compile(r"fn (\S+): proved")


def texts_of(crate):
    """The files of a crate's code, by their names below its folder."""
    files = [os.path.join(at, it) for at, _, names in os.walk(f"{crate.folder}/src") for it in names if it.endswith(".rt")]
    found = {}
    for path in sorted(files):
        with open(path, encoding="utf-8") as it:
            found[os.path.relpath(path, crate.folder)] = it.read()
    return found


def variants(crates):
    """Of each enum of errors the lists of variants with the same values, in order."""
    found = {}
    for crate in crates:
        for file, text in texts_of(crate).items():
            for enum, body in re.findall(r"enum (\w*Error|Flaw) \{\n(.*?)\n\}", text, re.S):
                for name, values in re.findall(r"^    (\w+)(\(.*\))?,$", body, re.M):
                    found.setdefault((enum, crate.name, file, values), []).append(name)
    return found


def neighbours(crates):
    """Of each error, by its enum's name and its own, the next of the same values, or the one before it."""
    found = {}
    for (enum, *_place, _values), names in variants(crates).items():
        for at, name in enumerate(names):
            if len(names) > 1:
                found.setdefault((enum, name), names[at + 1] if at + 1 < len(names) else names[at - 1])
    return found


def changed_crates(tree):
    """The crates of a tree whose lines are changed, lowest first."""
    return [it for it in kit.crates_of(tree).values() if not IS_LEFT_OUT.match(it.name)]


class Change:
    """A change of one line of a function; .ci/wrong-bodies tries it as it does an edit of must-fail/."""

    def __init__(self, crate, file, line, column, old, new):
        self.crate, self.file, self.line, self.column, self.old, self.new = crate, file, line, column, old, new
        self.name = f"{file}:{line + 1}:{column + 1} {old} -> {new}"
        self.is_alone, self.is_bare, self.pairs = False, False, [(file, old, new)]

    @functools.cached_property
    def meant(self):
        text = of_edits.text_of(self.crate, self.file)
        return of_edits.function_at(text, self.file, start_of(text, self.line + 1))

    @functools.cached_property
    def functions(self):
        return {self.meant}

    words = of_edits.Edit.words

    def applied(self, texts):
        lines = (texts.get(self.file) or of_edits.text_of(self.crate, self.file)).split("\n")
        line = lines[self.line]
        if line[self.column : self.column + len(self.old)] != self.old:
            return None, "another change is in its line"
        lines[self.line] = line[: self.column] + self.new + line[self.column + len(self.old) :]
        return {**texts, self.file: "\n".join(lines)}, None


def bodies(lines):
    """The numbers of the lines that are code of a function with a body."""
    for first, last, _name in of_edits.functions_in(lines):
        indent = re.match(r"\s*", lines[first])[0]
        if not lines[last].startswith(f"{indent}}}"):
            continue
        begins = next((at for at in range(first, last) if lines[at] == f"{indent}{{"), None)
        if begins is None:
            begins = next(at for at in range(first, last + 1) if lines[at].rstrip().endswith("{"))
        skipped = False
        for at in range(begins + 1, last):
            text = lines[at].strip()
            skipped = skipped or bool(re.match(r"(requires|ensures|ghost|prove!|#\[|decreases)", text))
            if not skipped and not text.startswith("//"):
                yield at
            skipped = skipped and not re.search(r"(\}|;|\])$", text)


def changes_of_line(line, integers, after):
    """The column, the old and the new text of each change of a line."""
    pattern = line.find(" =>")
    for it in re.finditer(r"\b(\w*Error|Flaw)::(\w+)", line):
        new = after.get((ALIASES.get(it[1], it[1]), it[2]))
        if new and it.start() > pattern:
            yield it.start(2), it[2], new
    for it in re.finditer(r" (<=|>=|==|!=|<|>) (\w*)", line):
        new = "<=" if it[1] == "==" and re.match(r"[1-9]", it[2]) else LATER[it[1]]
        yield it.start(1), it[1], new
    for it in NUMBER.finditer(line):
        if line.count('"', 0, it.start()) % 2 == 0 and "#[" not in line:
            yield it.start(), it[1], str(int(it[1].replace("_", ""), 0) + 1)
    for it in re.finditer(r"(?<![\w:.])[A-Z][A-Z0-9_]+\b(?!::|\()", line):
        if it[0] in integers and it.start() > pattern and "|" not in line:
            yield it.start(), it[0], f"({it[0]} + 1)"


def changes_of(crate, after):
    """All changes of a crate's code."""
    texts = texts_of(crate)
    integers = {it for text in texts.values() for it in re.findall(r"const (\w+): (?:u8|u16|u32|u64|usize) =", text)}
    for file, text in texts.items():
        lines = text.split("\n")
        for at in sorted(set(bodies(lines))) if not file.endswith(("laws.rt", "text.rt")) else []:
            for column, old, new in changes_of_line(lines[at], integers, after):
                yield Change(crate, file, at, column, old, new)


def drawn(crates, seed, count, most):
    """So many changes in the order that the seed gives, and the rest, which stand in for those that don't compile."""
    after = neighbours(crates)
    every = [it for crate in crates for it in changes_of(crate, after)]
    random.Random(seed).shuffle(every)
    taken, rest, held = [], [], {}
    for it in every:
        is_taken = len(taken) < count and held.get((it.crate.name, it.meant), 0) < most
        (taken if is_taken else rest).append(it)
        if is_taken:
            held[it.crate.name, it.meant] = held.get((it.crate.name, it.meant), 0) + 1
    return taken, rest, len(every)


def start_of(text, line):
    """Where a line of a text begins, by its number from 1 on."""
    return sum(len(it) + 1 for it in text.split("\n")[: line - 1])


def refused_by_the_front_end(crate, group):
    """The changes of a group in whose lines the front end finds an error, and what it says."""
    with tempfile.TemporaryDirectory(prefix="changes-") as room:
        for part in kit.library.PARTS:
            if os.path.isdir(f"{crate.folder}/{part}"):
                shutil.copytree(f"{crate.folder}/{part}", f"{room}/{part}")
        for path, text in group.texts.items():
            with open(f"{room}/{path}", "w", encoding="utf-8") as it:
                it.write(text)
        words = kit.check_words(crate, ["--start", "no function"])
        told = subprocess.run(["nice", "-n", "5", *words], cwd=room, capture_output=True, text=True, errors="replace")
    lines = [it for it in (told.stdout + told.stderr).split("\n") if re.search(r"\berror(\[|:)", it) and "no function" not in it]
    places = {(m[1], int(m[2])) for it in lines for m in re.finditer(r"(src/\S+?):(\d+)", it)}
    near = lambda it, by: any(file == it.file and abs(line - it.line - 1) <= by for file, line in places)
    # (an arm that can't be reached any more stands below the one that was changed, the use of what has another type anywhere)
    names = {of_edits.function_at(of_edits.text_of(crate, file), file, start_of(of_edits.text_of(crate, file), line)) for file, line in places}
    function = [it for it in group.edits if it.meant in names]
    return [it for it in group.edits if near(it, 0)] or [it for it in group.edits if near(it, 1)] or function, lines


def that_compile(crate, mine, rest, most):
    """The drawn changes of a crate that compile; for one that doesn't another of the crate is drawn."""
    good, waiting, anew = [], list(mine), 0
    while waiting:
        for group in of_edits.grouped(waiting):
            bad, said = refused_by_the_front_end(crate, group)
            if said and not bad:
                print(f"{crate.name}: not placed: {said[:3]}", flush=True)
            waiting = [it for it in waiting if it not in group.edits]
            if bad:
                # (the front end may stop at the first stage that finds any, so the others are read again)
                waiting += [it for it in group.edits if it not in bad]
            else:
                good += group.edits
            for it in bad:
                anew += 1
                held = lambda name: sum(one.meant == name for one in good + waiting)
                other = next((one for one in rest if one.crate is crate and held(one.meant) < most), None)
                if other:
                    rest.remove(other)
                    waiting.append(other)
            if bad:
                break
    return good, anew


class Crate(wrong.Crate):
    """The changes of a crate; what came of them is written after each check."""

    def __init__(self, crate, good, room, anew, into):
        super().__init__(crate, good, room)
        self.anew, self.into = anew, into

    def try_group(self, group):
        tried = super().try_group(group)
        self.write()
        return tried

    def judge_assuming(self, group, lines):
        """Lets those through whose functions are proved over the contracts of the others: no proof reads another's body."""
        super().judge_assuming(group, lines)
        proved = {it[1] for line in lines for it in [PROVED.match(line)] if it}
        is_proved = lambda edit: all(any(wrong.belongs(it, name) for it in proved) for name in group.functions_of(edit))
        self.failed |= {it.name: STILL[0] for it in self.doubted if is_proved(it)}
        self.doubted = [it for it in self.doubted if it.name not in self.failed]

    def write(self):
        names = {it.name: it.meant for it in self.edits}
        let = {name: why for name, why in self.failed.items() if name in names and why.startswith(STILL)}
        other = {name: why for name, why in self.failed.items() if name not in let}
        kept = {"refused": self.refused, "let_through": let, "other": other, "anew": self.anew, "seconds": round(self.seconds), "checks": self.checks, "functions": names}
        os.makedirs(self.into, exist_ok=True)
        # (another run may read it meanwhile)
        with open(f"{self.into}/{self.crate.name}.new", "w", encoding="utf-8") as out:
            json.dump(kept, out, indent=1)
        os.replace(out.name, f"{self.into}/{self.crate.name}.json")
        return let, other


def try_crate(crate, mine, rest, most, into):
    """Tries the changes of a crate that no test sees."""
    tests = tests_of_changes()
    good, anew = that_compile(crate, [it for it in mine if key_of(it) not in tests], rest, most)
    print(f"{crate.name}: {len(good)} of {len(mine)} changes, {anew} drawn anew", flush=True)
    with tempfile.TemporaryDirectory(prefix="changes-kept-") as room:
        it = Crate(crate, good, room, anew, into)
        it.run_all()
    let, other = it.write()
    print(f"{crate.name}: {len(it.refused)} refused, {len(let)} let through, {len(other)} other; {it.checks} checks, {it.seconds:.0f} s of one core", flush=True)
    for name, why in {**let, **other}.items():
        print(f"  {name}: {why[:200]}", flush=True)


def key_of(change):
    """A change's name among those of all crates."""
    return f"{change.crate.name} {change.name}"


def tests_of_changes():
    """Of each change that a test tells, the programs that do: from the files of bench/changed_tests.py."""
    found = {}
    for file in sorted(glob.glob(f"{ROOT}/out/changes/*.seen.json")):
        with open(file, encoding="utf-8") as it:
            told = {key for key, one in json.load(it).items() if one["seen"]}
        for key in told:
            found.setdefault(key, []).append(os.path.basename(file).removesuffix(".seen.json"))
    return found


def tried_of(crate):
    """What the prover told of a crate's changes, by their names among those of all crates: all that it tried, and what it refused."""
    file = f"{ROOT}/out/changes/{crate}.json"
    if not os.path.exists(file):
        return None, set()
    with open(file, encoding="utf-8") as it:
        told = json.load(it)
    # (a change that took away a name says nothing of what the body means)
    refused = {f"{crate} {it}" for it, why in told["refused"].items() if not why.startswith(wrong.ONLY_NAMES)}
    return [f"{crate} {it}" for it in told["functions"]], refused


def refused_by_the_prover():
    """The changes of all crates that the prover refused."""
    names = (os.path.basename(it).removesuffix(".json") for it in glob.glob(f"{ROOT}/out/changes/*.json"))
    return {change for name in names if not name.endswith(".seen") for change in tried_of(name)[1]}


def row_of(name, keys, tests, reasons):
    """The counts of a crate's row: its changes, those that the prover refuses, that a test sees, that are explained; and all that are neither of the first two."""
    tried, refused = tried_of(name)
    every = dict.fromkeys(keys if tried is None else [*(it for it in keys if it in tests), *tried])
    seen = {it for it in every if it in tests} - refused
    neither = [it for it in every if it not in seen | refused]
    return [len(every), len(refused), len(seen), sum(it in reasons for it in neither)], neither


def kept_row(name, text):
    """The same as a page has it."""
    row = re.search(rf"^\| `{name}` ((?:\| \d+ ){{4}})", text, re.M)
    return [int(it) for it in re.findall(r"\d+", row[1])] if row else [0] * 4, re.findall(rf"^- `({name} src/[^`]*)`", text, re.M)


def reasons_of(text):
    """What a page says of changes."""
    told = re.findall(r"^- `(\w+ src/[^`]*)`:\s(.*(?:\n  .*)*)", text, re.M)
    return {key: " ".join(why.split()) for key, why in told if why != OPEN}


def write_page(taken, crates):
    """Writes the table and the list of bench/changes.md anew; how many changes nobody refuses, sees or explains."""
    page = f"{ROOT}/bench/changes.md"
    with open(page, encoding="utf-8") as it:
        text = it.read()
    reasons, tests, rows, neither = reasons_of(text), tests_of_changes(), {}, []
    for name in crates:
        keys = [key_of(it) for it in taken if it.crate.name == name]
        is_left = os.path.exists(f"{ROOT}/out/changes/{name}.json") or any(it in tests for it in keys)
        rows[name], mine = row_of(name, keys, tests, reasons) if is_left else kept_row(name, text)
        neither += mine
    rows["all"] = [sum(it) for it in zip(*rows.values())]
    still = rows["all"][0] - sum(rows["all"][1:])
    heads = ["crate", "changed", "refused by the prover", "seen by a test", "explained", *["open"] * (still > 0)]
    lines = [f"{text[: text.index('| crate |')]}| {' | '.join(heads)} |", "|---" * len(heads) + "|"]
    for name, row in rows.items():
        row += [row[0] - sum(row[1:])] * (still > 0)
        lines += [f"| `{name}` | {' | '.join(str(it) for it in row)} |"] * (row[0] > 0)
    how = {"subsequent_indent": "  ", "break_long_words": False, "break_on_hyphens": False}
    lines += ["", "## Explained", "", *(textwrap.fill(f"- `{it}`: {reasons.get(it, OPEN)}", 100, **how) for it in neither)]
    with open(page, "w", encoding="utf-8") as it:
        it.write("\n".join(lines) + "\n")
    return still


def number(words, flag, usual):
    """Takes a flag and its number out of the words."""
    if flag not in words:
        return usual
    at = words.index(flag)
    value = int(words[at + 1])
    del words[at : at + 2]
    return value


def list_drawn(asked, taken, every):
    """Prints what would be changed in the crates that were asked for."""
    print(f"{every} could be changed, {len(taken)} are drawn")
    for name in asked:
        mine = [it for it in taken if it.crate.name == name]
        print(name, len(mine), len({it.meant for it in mine}))
        for it in mine:
            print("   ", it.name, it.meant)
    return 0 if taken else 1


def main(words):
    seed, count, most = number(words, "--seed", SEED), number(words, "--all", COUNT), number(words, "--most", MOST)
    is_list = "--list" in words
    words = [it for it in words if it != "--list"]
    is_page = words[:1] == ["--page"]
    words = (words[1:] or [ROOT]) if is_page else words
    if not words or words[0].startswith("-"):
        sys.exit(__doc__)
    crates = {it.name: it for it in changed_crates(os.path.abspath(words[0]))}
    taken, rest, every = drawn([*crates.values()], seed, count, most)
    if is_page:
        return 1 if write_page(taken, crates) else 0
    asked = words[1:] or [*crates]
    if is_list:
        return list_drawn(asked, taken, every)
    for name in asked:
        try_crate(crates[name], [it for it in taken if it.crate.name == name], rest, most, f"{ROOT}/out/changes")
    return 0


if __name__ == "__main__":
    sys.exit(main(sys.argv[1:]))
