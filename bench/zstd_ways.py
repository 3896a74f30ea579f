#!/usr/bin/env python3
"""Packs objects that zstd compressed in many ways, and compares the packages with that of the plain objects, byte for byte.

    bench/zstd_ways.py THORIN FOLDER [OPTION..]

FOLDER has plain .dwo files, of 64 bits and little endian, that can be packed together; OPTIONs are given to `thorin pack`.
It needs the zstd tool, and an objcopy that knows zstd. Prints a line for each way; the status is 1 where a package differs."""
import struct
import subprocess
import sys
import tempfile
from pathlib import Path

sys.dont_write_bytecode = True
from decompress_rows import COMPRESSED, Elf, by_zstd, read  # noqa: E402


def frames(content):
    """Two frames, and one between them that is passed over (RFC 8878, 3.1.2)."""
    half = len(content) // 2
    return by_zstd(content[:half]) + struct.pack("<II", 0x184D2A53, 5) + b"other" + by_zstd(content[half:], "--no-check", "-19")


FLAGS = [["-1"], ["-3"], ["-5"], ["-7"], ["-9"], ["-12"], ["-15"], ["-18"], ["--ultra", "-22"], ["--fast=1"], ["--fast=9"],
         ["--long=27", "-19"], ["--no-check", "-6"]]
WAYS = {" ".join(flags): lambda content, flags=flags: by_zstd(content, *flags) for flags in FLAGS}
WAYS["with its size"] = lambda content: by_zstd(content, f"--stream-size={len(content)}")
WAYS["frames"] = frames


def compressed(data, way):
    """The same file with its debug sections compressed."""
    elf = Elf()
    for name, kind, flags, link, content, _ in read(data)[1:]:
        if name.startswith(".debug_") and content:
            elf.add(name, elf.chdr(content, kind=2, stream=way(content)), kind, flags | COMPRESSED, link)
        elif name != ".shstrtab":
            elf.add(name, content, kind, flags, link)
    return elf.file()


def main(thorin, folder, options):
    files, differ = sorted(Path(folder).glob("*.dwo")), 0
    with tempfile.TemporaryDirectory() as place:
        def packed(inputs, *more):
            out = Path(place, "out.dwp")
            subprocess.run([thorin, "pack", *options, *more, "-o", out, *inputs], check=True)
            return out.read_bytes()

        plain = packed(files)
        for way in (*WAYS, "objcopy"):
            made = [Path(place, file.name) for file in files]
            for file, to in zip(files, made):
                if way == "objcopy":
                    subprocess.run(["objcopy", "--compress-debug-sections=zstd", file, to], check=True)
                else:
                    to.write_bytes(compressed(file.read_bytes(), WAYS[way]))
            is_same = packed(made, "--decompress") == plain
            differ += not is_same
            print(f"{way}: {sum(it.stat().st_size for it in made):,} bytes, {'the same' if is_same else 'ANOTHER'} package", flush=True)
    return differ > 0


if __name__ == "__main__":
    if len(sys.argv) < 3:
        sys.exit(__doc__)
    sys.exit(main(sys.argv[1], sys.argv[2], sys.argv[3:]))
