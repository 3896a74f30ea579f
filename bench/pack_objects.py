#!/usr/bin/env python3
"""Makes real split objects, and measures how long the programs that pack them take.

    pack_objects.py make FOLDER [--seed N] [COUNT [KIND..]]      writes COUNT sources (40 if left out) and compiles each as each
                                                 KIND (4 and 5 if left out): FOLDER/KIND/*.dwo
    pack_objects.py run FOLDER RUNS NAME=PROGRAM..      packs each folder's objects by each program, RUNS times in turn

KIND 4 and 5 are by g++ as DWARF 4 and 5, 4t and 5t the same with type units, c5 and c5t by clang++ -O2 as DWARF 5. With
--seed the C++ sources differ in what they include and have, so that most units are of 20 KB to 2 MB. Two kinds need it: r4
and r5 are by rustc, one object for each crate; one4 is one unit of COUNT thousand classes by g++ (72 make 35 MB).

A PROGRAM is called as `PROGRAM -o OUT INPUT..`; of thorin write 'thorin=path/to/thorin pack'. Wall time and peak
memory are those of GNU time (/usr/bin/time); a line gives the least wall time of the runs, and in brackets the most,
the least user and system times, the most memory that a run held, and the package's size. The files are read once
before the first run, so that all of them are in memory.
"""
import os
import pathlib
import random
import subprocess
import sys

HEADERS = """#include <algorithm>
#include <functional>
#include <iostream>
#include <map>
#include <regex>
#include <string>
#include <unordered_map>
#include <vector>
"""

FURTHER = ["chrono", "deque", "future", "iomanip", "list", "memory", "numeric", "random", "set", "sstream", "thread", "variant"]

BODY = """
struct Key@ { int number; std::string text; bool operator<(const Key@ &other) const { return number < other.number; } };
template <class T> struct Box@ {
  std::vector<T> items; std::map<T, std::vector<T>> groups; std::unordered_map<std::string, T> names;
  void add(const T &item) { items.push_back(item); groups[item].push_back(item); names["name@"] = item; std::sort(items.begin(), items.end()); }
};
int search@(const std::string &text) {
  std::regex pattern("a+b*@"); std::smatch found; Box@<int> numbers; numbers.add(@); Box@<std::string> texts; texts.add(text);
  Box@<Key@> keys; keys.add(Key@{@, text}); std::function<int(int)> sum = [&](int x) { return x + int(text.size()); };
  std::cout << text; return std::regex_search(text, found, pattern) ? sum(@) : 0;
}
"""


KINDS = {
    "4": ["g++", "-gdwarf-4"],
    "4t": ["g++", "-gdwarf-4", "-fdebug-types-section"],
    "5": ["g++", "-gdwarf-5"],
    "5t": ["g++", "-gdwarf-5", "-fdebug-types-section"],
    "c5": ["clang++", "-gdwarf-5", "-O2"],
    "c5t": ["clang++", "-gdwarf-5", "-O2", "-fdebug-types-section"],
    "one4": ["g++", "-gdwarf-4", "-fpermissive", "-w"],
    "r4": ["rustc", "-Cdwarf-version=4"],
    "r5": ["rustc", "-Cdwarf-version=5"],
}

WORDS = ["count", "first", "index", "key", "last", "left", "limit", "name", "next", "node", "parent", "right", "size", "total", "value"]
LIGHT = ["algorithm", "array", "functional", "iomanip", "iostream", "list", "memory", "numeric", "optional", "set", "tuple", "variant"]
CPP_TYPES = ["int", "long", "double", "std::string", "unsigned char", "const char *"]
RUST_TYPES = ["u32", "u64", "String", "Vec<u8>", "f64", "Option<String>", "Vec<String>"]


def names(chance, least, most):
    """Distinct names of fields."""
    return dict.fromkeys(f"{chance.choice(WORDS)}{chance.randrange(60)}" for _ in range(chance.randint(least, most)))


def cpp_source(chance):
    """A C++ source that differs in size from others."""
    lines = [f"#include <{name}>" for name in ["map", "string", "vector", *chance.sample(LIGHT, chance.randrange(4))]]
    if chance.random() < 0.1:
        lines += ["#include <regex>", "#include <thread>"]
    for i in range(chance.choice([0, 1, 2, 3, 4, 10])):
        fields = " ".join(f"{chance.choice(CPP_TYPES)} {name};" for name in names(chance, 2, 9))
        item = f"Item{i}_{chance.randrange(10 ** 6)}"
        held = chance.choice([f"std::vector<{item}>", f"std::vector<std::vector<{item}>>", "std::vector<std::string>"])
        lines.append(f"struct {item} {{ {fields} int order; }};")
        lines.append(f"int work_{item}(const std::string &text) {{ std::map<std::string, {held}> all; {held} one; all[text] = one;"
                     " int sum = 0; for (auto &each : all) sum += int(each.second.size()); return sum; }")
    return "\n".join(lines)


def rust_source(chance):
    """A Rust crate that differs in size from others."""
    lines = ["use std::collections::{BTreeMap, HashMap};"]
    for i in range(chance.randint(1, 4)):
        fields = ", ".join(f"pub {name}: {chance.choice(RUST_TYPES)}" for name in names(chance, 2, 8))
        item = f"Item{i}N{chance.randrange(10 ** 6)}"
        table = chance.choice(["HashMap<String,", "BTreeMap<usize,"])
        lines.append(f"#[derive(Clone)] pub struct {item} {{ {fields} }}")
        lines.append(f"pub fn sum_{i}(items: &[{item}]) -> usize {{ items.iter().map(|item| std::mem::size_of_val(item)).sum() }}")
        if chance.random() < 0.7:
            lines.append(f"pub fn grown_{i}(mut items: Vec<{item}>) -> Vec<{item}> {{ items.extend_from_within(..); items }}")
        if chance.random() < 0.1:
            lines.append(f"pub fn add_{i}(table: &mut {table} {item}>, item: {item}) {{ table.insert(Default::default(), item); }}")
    return "\n".join(lines)


def one_source(chance, count):
    """A C++ source of so many classes."""
    lines = []
    for i in range(count):
        fields = " ".join(f"{chance.choice(['int', 'long', 'short', 'void *'])} {name}_{i};" for name in names(chance, 4, 14))
        calls = "".join(f" int get_{name}(int x, long y) {{ int {name} = x; return {name}; }}" for name in names(chance, 1, 4))
        lines.append(f"struct Class{i} {{ {fields}{calls} }}; Class{i} object{i};")
    return "\n".join(lines)


def sources(count, kind, seed):
    """The names of a kind's sources, and their texts."""
    chance = random.Random(f"{seed} {kind}")
    if kind == "one4":
        return {"source.cpp": one_source(chance, 1000 * count)}
    if kind.startswith("r"):
        return {f"source{i}.rs": rust_source(chance) for i in range(count)}
    if seed is not None:
        return {f"source{i}.cpp": cpp_source(chance) for i in range(count)}
    more = ["".join(f"#include <{FURTHER[(i + k) % len(FURTHER)]}>\n" for k in range(i % 5)) for i in range(count)]
    return {f"source{i}.cpp": HEADERS + more[i] + BODY.replace("@", str(i)) for i in range(count)}


def make(folder, count, kinds, seed):
    for kind in kinds:
        place = folder / kind
        place.mkdir(parents=True, exist_ok=True)
        flags = ["-std=c++17", "-c", "-g", "-gsplit-dwarf"]
        if kind.startswith("r"):
            flags = ["--edition=2021", "--crate-type=rlib", "-g", "-Csplit-debuginfo=unpacked", "-Ccodegen-units=1", "-Awarnings"]
        for name, text in sources(count, kind, seed).items():
            (place / name).write_text(text)
            subprocess.run([*KINDS[kind], *flags, name], cwd=place, check=True)


def measure(words, out):
    """The wall, user and system times in seconds and the peak memory in KiB of one run, or none where it was refused."""
    out.unlink(missing_ok=True)
    notes = out.with_suffix(".time")
    run = subprocess.run(["/usr/bin/time", "-o", notes, "-f", "%e %U %S %M", *words], capture_output=True, text=True)
    if run.returncode != 0:
        return None, (run.stderr.strip().splitlines() or ["no word"])[-1]
    return tuple(float(x) for x in notes.read_text().split()), ""


def run(folder, runs, programs):
    for version in ("4", "5"):
        objects = sorted((folder / version).glob("*.dwo"))
        total = sum(len(path.read_bytes()) for path in objects)
        print(f"DWARF {version}: {len(objects)} objects, {total / 1e6:.1f} MB")
        seen = {name: [] for name, _ in programs}
        refused = {}
        for _ in range(runs):
            for name, words in programs:
                out = folder / f"{name}{version}.dwp"
                figures, fault = measure([*words, "-o", out, *objects], out)
                if figures is None:
                    refused[name] = fault
                else:
                    seen[name].append((*figures, out.stat().st_size))
        for name, _ in programs:
            if name in refused:
                print(f"  {name}: refused: {refused[name]}")
                continue
            wall, user, system, memory, size = zip(*seen[name])
            print(f"  {name}: {min(wall):.2f} s ({max(wall):.2f} s), user {min(user):.2f} s, system {min(system):.2f} s, "
                  f"{max(memory) / 1024:.0f} MiB, package {size[0] / 1e6:.1f} MB")


def main():
    words, seed = sys.argv[1:], None
    if "--seed" in words[:-1]:
        at = words.index("--seed")
        seed = int(words[at + 1])
        del words[at:at + 2]
    match words:
        case ["make", folder, *rest]:
            make(pathlib.Path(folder), int(rest[0]) if rest else 40, rest[1:] or ["4", "5"], seed)
        case ["run", folder, runs, *programs]:
            pairs = [word.split("=", 1) for word in programs]
            run(pathlib.Path(folder).resolve(), int(runs), [(name, words.split()) for name, words in pairs])
        case _:
            sys.exit(__doc__)


main()
