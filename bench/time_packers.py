#!/usr/bin/env python3
"""Measures packers beside one another, in turn, over groups of split objects.

    time_packers.py RUNS [--limit SECONDS] NAME=COMMAND.. -- GROUP=GLOB..

A COMMAND is called as `COMMAND -o OUT INPUT..`; of thorin write 'thorin=path/to/thorin pack'. For each group each
program runs once in turn, RUNS times over; the files are read once before. A row of the table tells, for each
program, the least and the median wall time in milliseconds, the least time of the processor (user and system), and the
most memory that a run held in MiB. A program that refuses, or doesn't end within the limit (60 seconds), is named so.
"""
import glob
import os
import pathlib
import statistics
import sys
import tempfile
import time


def measure(words, notes, limit):
    """Wall and processor time in milliseconds and peak memory in MiB of one run, or none and why."""
    command = ["/usr/bin/time", "-o", notes, "-f", "%M", "timeout", str(limit), *words]
    start = time.perf_counter()
    child = os.posix_spawn(command[0], command, os.environ, file_actions=[
        (os.POSIX_SPAWN_OPEN, 1, "/dev/null", os.O_WRONLY, 0), (os.POSIX_SPAWN_OPEN, 2, notes + ".err", os.O_WRONLY | os.O_CREAT | os.O_TRUNC, 0o644)])
    _, status, usage = os.wait4(child, 0)
    wall = time.perf_counter() - start
    code = os.waitstatus_to_exitcode(status)
    if code != 0:
        word = (pathlib.Path(notes + ".err").read_text(errors="replace").strip().splitlines() or [""])[-1]
        return None, f"no answer in {limit} s" if code == 124 else f"refused: {word[:70]}"
    memory = int(pathlib.Path(notes).read_text().split()[-1])
    return (wall * 1e3, (usage.ru_utime + usage.ru_stime) * 1e3, memory / 1024), ""


def main():
    words = sys.argv[1:]
    if "--" not in words or not words[0].isdigit():
        sys.exit(__doc__)
    runs, limit = int(words.pop(0)), 60
    if words[0] == "--limit":
        limit = int(words[1])
        words = words[2:]
    split = words.index("--")
    programs = [(name, command.split()) for name, command in (word.split("=", 1) for word in words[:split])]
    print("| group | " + " | ".join(name for name, _ in programs) + " |\n|---" * 1 + "|---" * len(programs) + "|")
    with tempfile.TemporaryDirectory() as folder:
        for word in words[split + 1:]:
            group, pattern = word.split("=", 1)
            inputs = sorted(path for part in pattern.split(",") for path in glob.glob(part))
            total = sum(len(pathlib.Path(path).read_bytes()) for path in inputs)
            seen, refused, sizes = {name: [] for name, _ in programs}, {}, {}
            for _ in range(runs):
                for name, command in programs:
                    if name in refused:
                        continue
                    out = os.path.join(folder, name + ".dwp")
                    if os.path.exists(out):
                        os.remove(out)
                    figures, fault = measure([*command, "-o", out, *inputs], os.path.join(folder, "notes"), limit)
                    if figures is None:
                        refused[name] = fault
                    else:
                        seen[name].append(figures)
                        sizes[name] = os.path.getsize(out)
            cells = []
            for name, _ in programs:
                if name in refused:
                    cells.append(refused[name])
                    continue
                wall, busy, memory = zip(*seen[name])
                cells.append(f"{min(wall):.1f} / {statistics.median(wall):.1f} ms, {min(busy):.0f} busy, {max(memory):.0f} MiB")
            print(f"| {group}: {len(inputs)} inputs, {total / 1e6:.1f} MB | " + " | ".join(cells) + " |", flush=True)


main()
