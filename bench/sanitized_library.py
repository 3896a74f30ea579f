#!/usr/bin/env python3
"""sanitized_library.py FOLDER: makes the proved library for C once more, with AddressSanitizer inside: each read and write of
the proved code is watched. Leaves FOLDER/proved.o, in which the exports are called proved_thorin_*, and FOLDER/places.o,
which calls them; prints the words with which to link a program.

It comes after ./build-library, and proves nothing: it takes what that left of the proof of thorin_c. The compiler hands the
library to its clang as one LLVM module; here a clang in its place keeps that module, whose functions are then marked."""
import os
import re
import subprocess
import sys
from pathlib import Path

sys.dont_write_bytecode = True
ROOT = Path(__file__).resolve().parent.parent
sys.path.insert(0, str(ROOT / ".ci"))
KEEPS = """#!/bin/bash
for word in "$@"; do
    case $word in *.bc | *.ll) cp "$word" {kept} ;; esac
done
exec -a clang {clang} "$@"
"""


def clang(toolchain, *words):
    """Runs the kit's clang; it goes by the name that it is called by."""
    subprocess.run(["clang", *words], executable=toolchain / "bin/clang", check=True)


def module_of(folder, kit_module):
    """The LLVM module of the proved library."""
    toolchain, kept = Path(kit_module.HOME) / "toolchain", folder / "module.bc"
    tools = folder / "toolchain"
    (tools / "bin").mkdir(parents=True, exist_ok=True)
    for it in [toolchain / "lib", *(toolchain / "bin").iterdir()]:
        link = tools / it.relative_to(toolchain)
        link.unlink(missing_ok=True)
        if it.name != "clang":
            link.symlink_to(it)
    (tools / "bin/clang").write_text(KEEPS.format(kept=kept, clang=toolchain / "bin/clang"))
    (tools / "bin/clang").chmod(0o755)
    kept.unlink(missing_ok=True)
    crate = kit_module.crates_of(str(ROOT))["thorin_c"]
    words = crate.words(["--jobs", "1", "--toolchain", str(tools), "--backend", "llvm"], keeps=False)
    if (ROOT / "crates/thorin_c/out/checked").is_dir():
        for flag in ("--jobs", "--logic-built"):
            at = words.index(flag)
            del words[at:at + 2]
        words += ["--crate-checked", "out/checked"]
    else:
        words += kit_module.library.KEPT
    subprocess.run([kit_module.library.RATTLE, "build", *words, "-o", str(folder / "libthorin_c.a")], cwd=crate.folder, check=True,
                   stdout=subprocess.DEVNULL)
    return kept


def sanitized(folder):
    """What to link for a program that calls the library with AddressSanitizer inside."""
    import kit
    at = os.getcwd()
    folder.mkdir(parents=True, exist_ok=True)
    home, text = Path(kit.HOME), folder / "module.ll"
    toolchain = home / "toolchain"
    to_text = ["--target=x86_64-unknown-linux-gnu", "--no-default-config", "-x", "ir"]
    clang(toolchain, *to_text, module_of(folder, kit), "-S", "-emit-llvm", "-o", text)
    os.chdir(at)
    lines = text.read_text()
    marked = re.sub(r"^(attributes #\d+ = \{ )(?!.*sanitize_address)", r"\1sanitize_address ", lines, flags=re.M)
    # Alone attributes of functions that are defined.
    defined = set(re.findall(r"^define .*(#\d+) ", lines, re.M))
    text.write_text("\n".join(new if new.split(" ")[1:2] and new.split(" ")[1] in defined else old
                              for old, new in zip(lines.split("\n"), marked.split("\n"))))
    exports = set(re.findall(r"^define (?!internal)[^@]*@(thorin_\w+)\(", lines, re.M)) - {"thorin_version"}
    proved, places = folder / "proved.o", folder / "places.o"
    clang(toolchain, *to_text, "-march=x86-64", "-fPIC", "-O1", "-g", "-fsanitize=address", "-c", "-o", proved, text)
    names = [f"--redefine-sym={name}=proved_{name}" for name in sorted(exports)]
    subprocess.run(["objcopy", *names, proved], check=True)
    subprocess.run([os.environ.get("CC", "cc"), "-std=c11", "-O1", "-g", "-fPIC", f"-I{ROOT}/include", "-c", "-o", places,
                    ROOT / "include/null_places.c"], check=True)
    return [places, proved, "-Wl,--whole-archive", home / "c/asan.a", "-Wl,--no-whole-archive", home / "c/liblibc_c.a", "-lpthread",
            "-ldl", "-lm", "-lrt", "-lstdc++"]


if __name__ == "__main__":
    print(*sanitized(Path(sys.argv[1])))
