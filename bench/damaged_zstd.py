#!/usr/bin/env python3
"""Damaged streams of zstd beside the `zstd` tool: what each gives, or that it refuses.

    bench/run_source --keep out/zstd zstd FILE; bench/damaged_zstd.py out/zstd NUMBER SEED FILE..

Each stream is a part of one of the files, compressed by the tool at a level by chance, of which a bit or a byte was changed, some
bytes were taken out or put in, or the end was cut off. Prints how many both read alike, both refuse, or only one reads, and of these
the first of each error.
"""
import collections
import os
import random
import struct
import subprocess
import sys
import tempfile

LEVELS = ["--fast=5", "-1", "-3", "-9", "-19", "-16 --long=27"]


def tool(words, room, files, ending):
    """What the tool makes of each of these bytes, or None."""
    names = [f"{room}/{n}" for n in range(len(files))]
    for name, file in zip(names, files):
        with open(name + ending, "wb") as it:
            it.write(file)
    subprocess.run(["timeout", "300", "zstd", "-q", "-f", *words, *(it + ending for it in names)], stderr=subprocess.DEVNULL, check=False)
    made = [f"{it}{'' if ending else '.zst'}" for it in names]
    return [open(it, "rb").read() if os.path.exists(it) else None for it in made]


def damaged(rng, stream):
    """The stream with one damage, mostly behind the frame's magic number."""
    at, some = rng.randrange(4, len(stream)), rng.randrange(1, 5)
    how = rng.randrange(6)
    if how < 2:
        return stream[:at] + bytes([stream[at] ^ 1 << rng.randrange(8)]) + stream[at + 1:]
    if how < 4:
        return stream[:at] + rng.randbytes(1) + stream[at + 1:]
    if how == 4:
        return stream[:at] + rng.choice([b"", rng.randbytes(some)]) + stream[at + some - 1:]
    return stream[:at]


def answers(program, streams, file):
    """What the program prints of each stream: its bytes, or its error."""
    with open(file, "wb") as it:
        for size, stream in streams:
            it.write(struct.pack("<QQ", size, len(stream)) + stream)
    said = subprocess.run([program, file], capture_output=True, check=True).stdout
    for _ in streams:
        line, _, said = said.partition(b"\n")
        if line.startswith(b"ok "):
            size = int(line[3:])
            yield said[:size], "read"
            said = said[size:]
        else:
            yield None, line.decode()


def main(program, number, seed, files):
    rng, found, shown, streams = random.Random(int(seed)), collections.Counter(), {}, []
    parts = [open(it, "rb").read() for it in files]
    for level in LEVELS:
        some = []
        for _ in range(int(number) // len(LEVELS)):
            part = rng.choice(parts)
            at = rng.randrange(len(part))
            some.append(part[at:at + rng.choice([50, 500, 5000, 50000])])
        # (a sum would hide what the decoder takes)
        with tempfile.TemporaryDirectory() as room:
            made = tool([*level.split(), "--no-check"], room, some, "")
        streams += [(len(part), damaged(rng, stream)) for part, stream in zip(some, made)]
    with tempfile.TemporaryDirectory() as room:
        theirs = tool(["-d", "--long=31"], room, [it for _, it in streams], ".zst")
        streams = [(size if given is None else len(given), it) for (size, it), given in zip(streams, theirs)]
        told = list(answers(program, streams, f"{room}/all"))
    for (ours, said), their, (size, stream) in zip(told, theirs, streams):
        if ours == their:
            kind = "both refuse" if ours is None else "alike"
        else:
            kind = f"only the tool reads: {said}" if ours is None else "only this reads" if their is None else "OTHER BYTES"
            shown.setdefault(kind, (size, stream))
        found[kind] += 1
    for kind, many in found.most_common():
        print(many, kind, *(f"{size} {stream.hex()[:400]}" for size, stream in [shown[kind]] if kind in shown) if kind in shown else "")


if __name__ == "__main__":
    if len(sys.argv) < 5:
        sys.exit(__doc__)
    main(*sys.argv[1:4], sys.argv[4:])
