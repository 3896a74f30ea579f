#!/usr/bin/env python3
"""Packs split objects by thorin, llvm-dwp and another packer, and compares the contents of the sections.

    bench/pack_like_peers.py THORIN [--other PROGRAM] GROUP=GLOB ..

Each group of objects is packed by `THORIN pack -o OUT INPUT..`, by `llvm-dwp -o OUT INPUT..` and by
`PROGRAM -o OUT INPUT..`; a line for each pair names the sections that differ, with both sizes. A packer
that gives no answer within 20 seconds is named.
"""
import glob
import os
import re
import subprocess
import sys
import tempfile


def run(command):
    try:
        done = subprocess.run(command, capture_output=True, text=True, timeout=20)
        return done.stdout, done.stderr
    except subprocess.TimeoutExpired:
        return "", "no answer in 20 seconds"


def sections(path):
    listed, _ = run(["readelf", "-SW", path])
    data = open(path, "rb").read()
    found = {}
    for m in re.finditer(r"\[\s*\d+\]\s+(\.debug\S+)\s+\S+\s+\S+\s+([0-9a-f]+)\s+([0-9a-f]+)", listed):
        place, size = int(m.group(2), 16), int(m.group(3), 16)
        found[m.group(1)] = data[place:place + size]
    return found


def main():
    words = sys.argv[1:]
    thorin = words.pop(0)
    peers = [("llvm-dwp", ["llvm-dwp", "-o"])]
    if words and words[0] == "--other":
        words.pop(0)
        program = words.pop(0)
        peers.append((os.path.basename(program), [program, "-o"]))
    with tempfile.TemporaryDirectory() as folder:
        for word in words:
            group, pattern = word.split("=", 1)
            inputs = sorted(glob.glob(pattern))
            ours, theirs = os.path.join(folder, "ours.dwp"), os.path.join(folder, "theirs.dwp")
            _, fault = run([thorin, "pack", "-o", ours] + inputs)
            if fault:
                print(group, "thorin:", fault.strip())
                continue
            a = sections(ours)
            units = run([thorin, "list", ours])[0].count("\n")
            for name, command in peers:
                if os.path.exists(theirs):
                    os.remove(theirs)
                _, fault = run(command + [theirs] + inputs)
                if not os.path.exists(theirs):
                    print(group, name, "gave no file:", fault.strip()[:80])
                    continue
                b = sections(theirs)
                unlike = [f"{k} ({len(a.get(k, b''))}, {len(b.get(k, b''))})" for k in sorted(set(a) | set(b)) if a.get(k) != b.get(k)]
                print(group, f"{len(inputs)} objects, {units} units, {name}:", len(set(a) | set(b)), "sections,", "unlike: " + ", ".join(unlike) if unlike else "all alike")


main()
