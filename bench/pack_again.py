#!/usr/bin/env python3
"""Packs split objects, each alone and in groups chosen by a seed, packs each package again, and that one again.

    bench/pack_again.py THORIN [--groups N] [--seed N] FOLDER..

Of each FOLDER all .dwo files below it are taken. A line for each folder says how many packages were made, how many of
them were accepted as an input, how many list the same units afterwards, and how many have the same bytes once and
twice packed again. The status is 1 where a package of the program's own is refused, lists other units, or has other
bytes the second time.
"""
import argparse
import pathlib
import random
import subprocess
import sys
import tempfile


def words():
    known = argparse.ArgumentParser(description=__doc__.splitlines()[0])
    known.add_argument("thorin")
    known.add_argument("--groups", type=int, default=30)
    known.add_argument("--seed", type=int, default=11)
    known.add_argument("folders", nargs="+")
    return known.parse_args()


def run(thorin, *rest):
    return subprocess.run([thorin, *rest], capture_output=True, text=True)


def again(thorin, objects, room):
    """What came of one package: whether it was made, taken, lists alike, has the same bytes, and these the second time."""
    first, second, third = (f"{room}/{name}.dwp" for name in ("first", "second", "third"))
    made = run(thorin, "pack", "-o", first, *objects)
    if made.returncode:
        return False, False, False, False, False
    taken = run(thorin, "pack", "-o", second, first)
    if taken.returncode:
        print(taken.stderr, end="", file=sys.stderr)
        return True, False, False, False, False
    alike = run(thorin, "list", first).stdout == run(thorin, "list", second).stdout
    run(thorin, "pack", "-o", third, second)
    bytes_of = [pathlib.Path(it).read_bytes() for it in (first, second, third)]
    return True, True, alike, bytes_of[0] == bytes_of[1], bytes_of[1] == bytes_of[2]


def main():
    said = words()
    chosen = random.Random(said.seed)
    status = 0
    for folder in said.folders:
        objects = sorted(str(it) for it in pathlib.Path(folder).rglob("*.dwo"))
        sets = [[it] for it in objects]
        sets += [chosen.sample(objects, min(len(objects), chosen.randint(2, 12))) for _ in range(said.groups)]
        with tempfile.TemporaryDirectory() as room:
            counted = [sum(it) for it in zip(*(again(said.thorin, it, room) for it in sets))]
        made, taken, alike, once, twice = counted
        print(f"{folder}: {made} of {len(sets)} made, {taken} taken again, {alike} list the same, "
              f"{once} have the same bytes, {twice} the second time", flush=True)
        if not made == taken == alike == twice:
            status = 1
    return status


sys.exit(main())
