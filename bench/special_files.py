#!/usr/bin/env python3
"""Runs `thorin` over pipes and files of /proc, and over outputs that can't simply be replaced, each within ten seconds.

    bench/special_files.py [PROGRAM]     crates/thorin_bin/out/thorin_bin if left out

A pipe that a command line names is read, whether as an object or as an executable. An object that an executable names is
read only where it is a regular file: a pipe, a directory or a file of /proc there is refused at once, or passed over by
--skip-missing and --partial, and listed by --missing.

An output keeps its permissions and group, but for setuid and setgid; where it is a bind mount or another's file in a sticky
folder, it is written in place. Where it is a symbolic link, the file that it leads to is replaced, or stays as it was where the
package can't be written. What an interrupted run left beside it is removed, and what a running one has there stays, also one
whose process can't be seen: runs that write one output at once, each in a namespace of its own, leave a whole package. Response
files inside one another are read up to a depth. Where a warning can't be printed the status is 1, and the package is written but for one of --partial. What this
machine doesn't let one make (a mount, a file of another owner) is told and left out.
"""
import fcntl
import os
import resource
import shutil
import signal
import stat
import struct
import subprocess
import sys
import tempfile
import threading

HERE = os.path.dirname(os.path.abspath(__file__))
DATA = os.path.join(HERE, "..", "command_lines", "data")


def bytes_of(name):
    with open(os.path.join(DATA, name), "rb") as it:
        return it.read()


def write_late(path, data):
    """Writes into a pipe once somebody reads it."""
    with open(path, "wb") as it:
        it.write(data)


def run(program, folder, words):
    """The status of a command, what it told, and whether it left a package; None where it hangs."""
    out = os.path.join(folder, "out.dwp")
    if os.path.exists(out):
        os.remove(out)
    try:
        done = subprocess.run([program, *words], cwd=folder, capture_output=True, text=True, timeout=10, check=False)
    except subprocess.TimeoutExpired:
        return None
    return done.returncode, done.stderr, os.path.exists(out)


def rows(folder):
    """A name for each row, the words, what is fed to pipes, and what has to come of it."""
    pack = ["pack", "-o", "out.dwp"]
    unread, lacking = "error: Failed to read input file\n", "error: Unit 0x00000005 referenced by executable was not found\n"
    yield "an object that is a pipe", [*pack, "fed"], {"fed": bytes_of("x.dwo")}, (0, "", True)
    yield "an executable that is a pipe", [*pack, "-e", "fed"], {"fed": bytes_of("app")}, (0, "", True)
    os.remove(os.path.join(folder, "x.dwo"))
    for made in [os.mkfifo, os.mkdir]:
        made(os.path.join(folder, "x.dwo"))
        note = "note: x.dwo, named by app: not a regular file\n"
        yield f"{made.__name__}: an object that an executable names", [*pack, "-e", "app"], {}, (1, unread + note, False)
        yield f"{made.__name__}: the same, passed over", [*pack, "--skip-missing", "-e", "app"], {}, (1, lacking + note, False)
        warning = note.replace("note: ", "warning: unit 0x00000005: ")
        yield f"{made.__name__}: the same, left out", [*pack, "--partial", "-e", "app"], {}, (0, warning, True)
        yield f"{made.__name__}: the same, listed", ["pack", "--missing", "-e", "app"], {}, (1, "", False)
        fed = warning.replace("by app", "by fed")
        yield f"{made.__name__}: named by a pipe", [*pack, "--partial", "-e", "fed"], {"fed": bytes_of("app")}, (0, fed, True)
        yield f"{made.__name__}: named by a pipe, listed", ["pack", "--missing", "-e", "fed"], {"fed": bytes_of("app")}, (1, "", False)
        (os.rmdir if made is os.mkdir else os.remove)(os.path.join(folder, "x.dwo"))
    os.symlink("/proc/kmsg", os.path.join(folder, "x.dwo"))
    yield "a file of /proc that an executable names", [*pack, "--skip-missing", "-e", "app"], {}, None


def is_packed(path):
    """Whether a file is an ELF file that ends behind its section headers, as a package does."""
    with open(path, "rb") as it:
        file = it.read()
    return file[:4] == b"\x7fELF" and struct.unpack_from("<Q", file, 40)[0] + 64 * struct.unpack_from("<H", file, 60)[0] == len(file)


# What stands where a package is to go: more bytes than it has.
OLD = "old" * 1000


def old_output(folder, mode, name="old.dwp"):
    """A file with these permissions, where a package is to go."""
    path = os.path.join(folder, name)
    with open(path, "w", encoding="utf-8") as it:
        it.write(OLD)
    os.chmod(path, mode)
    return path


def pack(program, folder, out, **options):
    """The status of packing one object into a file."""
    words = [program, "pack", "-o", out, os.path.join(folder, "y.dwo")]
    return subprocess.run(words, cwd=folder, timeout=10, check=False, stderr=subprocess.DEVNULL, **options).returncode


def keeps_permissions(program, folder):
    for mode in [0o600, 0o640, 0o4751, 0o2755]:
        out = old_output(folder, mode)
        if pack(program, folder, out) or not is_packed(out) or stat.S_IMODE(os.stat(out).st_mode) != mode & 0o777:
            return False
    return True


def keeps_the_group(program, folder):
    out = old_output(folder, 0o660)
    if os.geteuid() == 0:
        os.chown(out, -1, 65534)
    group = os.stat(out).st_gid
    return not pack(program, folder, out) and (os.stat(out).st_gid, stat.S_IMODE(os.stat(out).st_mode)) == (group, 0o660)


def writes_through_a_link(program, folder):
    out, link = old_output(folder, 0o644), os.path.join(folder, "link.dwp")
    os.symlink(out, link)
    return not pack(program, folder, link) and os.path.islink(link) and is_packed(out)


def writes_little():
    """The next program can write files of a hundred bytes at most."""
    signal.signal(signal.SIGXFSZ, signal.SIG_IGN)
    resource.setrlimit(resource.RLIMIT_FSIZE, (100, 100))


def keeps_what_a_link_leads_to(program, folder):
    out, link = old_output(folder, 0o644), os.path.join(folder, "link.dwp")
    os.symlink("old.dwp", link)
    before = set(os.listdir(folder))
    status = pack(program, folder, link, preexec_fn=writes_little)
    with open(out, encoding="utf-8") as it:
        return status == 1 and it.read() == OLD and set(os.listdir(folder)) == before


def writes_what_the_system_links_to(program, folder):
    """/dev/stdout stands for an open file: no other takes its place."""
    path = old_output(folder, 0o644)
    with open(path, "r+b") as out:
        return not pack(program, folder, "/dev/stdout", stdout=out) and is_packed(path) and os.stat(path).st_ino == os.fstat(out.fileno()).st_ino


def gives_each_run_a_file(program, folder):
    out, apart = os.path.join(folder, "out.dwp"), ["unshare", "-pfm"]
    if not shutil.which("unshare") or subprocess.run([*apart, "true"], capture_output=True, check=False).returncode:
        return None
    for _ in range(10):
        runs = [subprocess.Popen([*apart, program, "pack", "-o", out, "y.dwo"], cwd=folder, stderr=subprocess.DEVNULL) for _ in range(3)]
        if any(run.wait(10) for run in runs) or not is_packed(out) or [name for name in os.listdir(folder) if name.endswith(".tmp")]:
            return False
    return True


def leaves_what_is_locked(program, folder):
    """A file of a process that can't be seen from here, which holds its lock."""
    out = old_output(folder, 0o644)
    ended = subprocess.Popen(["true"])
    ended.wait()
    with open(old_output(folder, 0o600, f"old.dwp.{ended.pid}.1.tmp"), "r+b") as held:
        fcntl.flock(held, fcntl.LOCK_EX)
        if pack(program, folder, out) or not os.path.exists(held.name):
            return False
    return not pack(program, folder, out) and not os.path.exists(held.name)


def reads_response_files_to_a_depth(program, folder):
    for number in range(1, 71):
        with open(os.path.join(folder, f"deep_{number}"), "w", encoding="utf-8") as it:
            it.write(f"@deep_{number + 1}\n" if number < 70 else "y.dwo\n")
    told = [subprocess.run([program, "pack", "-o", "out.dwp", f"@deep_{first}"], cwd=folder, capture_output=True, text=True, check=False)
            for first in (7, 6)]
    return [(it.returncode, it.stderr) for it in told] == [(0, ""), (1, "error: Response file deep_70 is inside 64 others\n")]


def writes_a_bind_mount(program, folder):
    out, other = old_output(folder, 0o644), old_output(folder, 0o644, "mounted")
    if not shutil.which("mount") or subprocess.run(["mount", "--bind", other, out], capture_output=True, check=False).returncode:
        return None
    try:
        return not pack(program, folder, out) and is_packed(other)
    finally:
        subprocess.run(["umount", out], capture_output=True, check=False)


def writes_anothers_file(program, folder):
    if os.geteuid() != 0:
        return None
    sticky = os.path.join(folder, "sticky")
    os.mkdir(sticky)
    os.chmod(sticky, 0o1777)
    out = old_output(sticky, 0o666)
    number = os.stat(out).st_ino
    own = os.path.join(folder, "own")
    shutil.copy(program, own)
    os.chmod(own, 0o755)
    return not pack(own, folder, out, user=65534, group=65534, extra_groups=[]) and is_packed(out) and os.stat(out).st_ino == number


def removes_what_was_left(program, folder):
    """Of a run that ended, and not of one that runs; and a hundred of them don't make the next one write in place."""
    out = old_output(folder, 0o644)
    ended = subprocess.Popen(["true"])
    ended.wait()
    left = old_output(folder, 0o600, f"old.dwp.{ended.pid}.tmp")
    running = old_output(folder, 0o600, f"old.dwp.{os.getpid()}.tmp")
    if pack(program, folder, out) or os.path.exists(left) or not os.path.exists(running):
        return False
    os.remove(running)
    with open("/proc/sys/kernel/pid_max", encoding="utf-8") as it:
        beyond = int(it.read())
    for number in range(100):
        old_output(folder, 0o600, f"old.dwp.{beyond + number}.tmp")
    before = os.stat(out).st_ino
    return not pack(program, folder, out) and os.stat(out).st_ino != before


def tells_that_warnings_were_lost(program, folder):
    """One of type units, which comes behind the package, and one of --partial, which comes before."""
    told = []
    for words in [["tx.dwo", "ty.dwo"], ["--partial", "-e", "app"]]:
        out = os.path.join(folder, f"warned{len(told)}.dwp")
        with open("/dev/full", "w", encoding="utf-8") as full:
            done = subprocess.run([program, "pack", "-o", out, *words], cwd=folder, timeout=10, check=False, stderr=full)
        told.append((done.returncode, os.path.exists(out) and is_packed(out)))
    return told == [(1, True), (1, False)]


OUTPUTS = [
    keeps_permissions, keeps_the_group, writes_through_a_link, keeps_what_a_link_leads_to, writes_what_the_system_links_to,
    writes_a_bind_mount, writes_anothers_file, removes_what_was_left, gives_each_run_a_file, leaves_what_is_locked,
    reads_response_files_to_a_depth, tells_that_warnings_were_lost,
]


def try_outputs(program):
    """Each in a folder of its own: how many failed."""
    failed = 0
    for it in OUTPUTS:
        with tempfile.TemporaryDirectory() as folder:
            os.chmod(folder, 0o755)
            for name in ["app", "y.dwo", "tx.dwo", "ty.dwo"]:
                with open(os.path.join(folder, name), "wb") as file:
                    file.write(bytes_of(name))
            well = it(program, folder)
            if not well:
                print(f"{it.__name__}: {'left out: this machine does not allow it' if well is None else 'failed'}")
            failed += well is False
    print(f"{failed} of {len(OUTPUTS)} kinds of outputs failed")
    return failed


def main(program):
    failed = count = 0
    with tempfile.TemporaryDirectory() as folder:
        for name in ["app", "x.dwo", "y.dwo"]:
            with open(os.path.join(folder, name), "wb") as it:
                it.write(bytes_of(name))
        for name, words, fed, wanted in rows(folder):
            count += 1
            for pipe, data in fed.items():
                os.mkfifo(os.path.join(folder, pipe))
                threading.Thread(target=write_late, args=(os.path.join(folder, pipe), data), daemon=True).start()
            given = run(program, folder, words)
            for pipe in fed:
                os.remove(os.path.join(folder, pipe))
            # (of a file of /proc: refused, whatever it tells)
            if given is None or (given != wanted if wanted else (given[0], given[2]) != (1, False)):
                failed += 1
                print(f"{name}: {given}, not {wanted}")
    print(f"{failed} of {count} commands over special files failed")
    return 1 if failed + try_outputs(program) else 0


if __name__ == "__main__":
    sys.exit(main(os.path.abspath(sys.argv[1] if len(sys.argv) > 1 else os.path.join(HERE, "..", "crates", "thorin_bin", "out", "thorin_bin"))))
