"""Proves a copy of the repository by `rt ci`, tells how far it is, and what each crate took of the processor."""
import os
import re
import shutil
import subprocess
import sys
import tempfile
import threading
import time

TOP = os.path.dirname(os.path.dirname(os.path.realpath(__file__)))
# What `./build` and the gate took of one core of the reference machine, by crate.
COSTS = os.path.join(os.path.dirname(os.path.realpath(__file__)), "costs")
# A quick piece of work by which `./build` estimates, and what it takes on the reference machine.
ADDITIONS, REFERENCE_ADDITIONS = "s = 0\nfor i in range(10**7): s += i", 1.9
CODE = f"import time\nt = time.process_time()\n{ADDITIONS}\nprint(time.process_time() - t)"
# A crate whose check is the fixed work that the gate's budgets are measured against: a change of it needs another figure. It takes
# 11.7 s of this toolchain where all checks take some 0.85 times as long as on the reference machine, by the sums of whole runs.
FIXED_CRATE, REFERENCE_CHECK, REFERENCE_KIT = os.path.join(os.path.dirname(os.path.realpath(__file__)), "fixed"), 13.8, "rattle-kit-13f"


def speed():
    """About how many times as long as on the reference machine the cores take for a check, when all are at it."""
    many = [subprocess.Popen([sys.executable, "-c", CODE], stdout=subprocess.PIPE, text=True) for _ in range(len(os.sched_getaffinity(0)))]
    seconds = sorted(float(it.communicate()[0]) for it in many)
    # (a quicker core gains less for a check, which waits for memory more: where additions took 0.64, 0.75, 0.85 and 1.5 times as long,
    # checks took some 0.7, 0.85, 1 and 1.3 times as long)
    return 0.5 + 0.5 * seconds[len(seconds) // 2] / REFERENCE_ADDITIONS


def fixed_checks(number):
    """The processor seconds that so many checks of the fixed crate side by side take, each."""
    import kit

    with tempfile.TemporaryDirectory(prefix="fixed-check-") as room:
        os.makedirs(f"{room}/src")
        shutil.copy2(FIXED_CRATE, f"{room}/src/lib.rt")
        words = [kit.library.RATTLE, "check", "--crate-name", "fixed", "src/lib.rt", "--extern", f"std={kit.HOME}/rlibs/std.rlib"]
        words += ["-L", f"dependency={kit.HOME}/rlibs", "--antt-project", f"{kit.HOME}/rattle/logic/antt-project.json"]
        words += ["--logic-built", f"{kit.HOME}/logic_built", "--jobs", "1"]
        quiet = dict.fromkeys(("stdin", "stdout", "stderr"), subprocess.DEVNULL)
        every, found = [subprocess.Popen(words, cwd=room, **quiet) for _ in range(number)], []
        for it in every:
            _pid, status, used = os.wait4(it.pid, 0)
            it.returncode = os.waitstatus_to_exitcode(status)
            found.append(used.ru_utime + used.ru_stime)
    wrong = [it.returncode for it in every if it.returncode]
    if wrong:
        raise RuntimeError(f"the check of {FIXED_CRATE} ended with status {wrong[0]}")
    return found


class Gauge(threading.Thread):
    """How fast the cores are while a run goes on: the fixed check every five minutes, since they may be shared and differ by the hour."""

    def __init__(self):
        super().__init__(daemon=True)
        # The measures, of which the first is the mean of as many checks as a run begins with, and all their seconds.
        self.measures, self.seconds, self.ended = [], 0.0, threading.Event()
        self.measure(lanes())

    def measure(self, number):
        found = fixed_checks(number)
        self.measures.append(sum(found) / number)
        self.seconds += sum(found)

    def run(self):
        while not self.ended.wait(300):
            self.measure(1)

    def end(self):
        self.ended.set()
        self.join()

    def speed(self):
        """How many times as long as on the reference machine the work took, in the mean."""
        return sum(self.measures) / len(self.measures) / REFERENCE_CHECK


def is_of_another_kit():
    """Whether the fixed check's figure is of another toolchain than this."""
    import kit

    with open(f"{kit.HOME}/KIT-ID", encoding="utf-8") as it:
        return REFERENCE_KIT not in it.read()


def costs():
    """The seconds of one core that each crate's proof, and that of its tests, took in the run that `costs` is of."""
    with open(COSTS, encoding="utf-8") as it:
        rows = [line.split() for line in it if line.strip() and not line.startswith("#")]
    return {(crate, part): float(seconds) for crate, part, seconds in rows}


def crates_listed(tree):
    """The lines of crates.txt: the crates and what each stands on, the kit's libraries among them."""
    found = {}
    with open(f"{tree}/crates.txt", encoding="utf-8") as it:
        for line in it:
            head, colon, rest = line.partition(":")
            if colon and not line.startswith("#"):
                found[head.split()[0]] = rest.split()
    return found


def below(listed, names):
    """These crates and all that they stand on."""
    found = set()

    def add(name):
        if name in listed and name not in found:
            found.add(name)
            for it in listed[name]:
                add(it)

    for name in names:
        add(name)
    return found


class Copy:
    """A copy of the repository's files, or of some crates, without wrong bodies: it is removed at the end."""

    def __init__(self, names=None, with_wrong_bodies=False):
        self.at = tempfile.mkdtemp(prefix="thorin-proved-")
        os.chmod(self.at, 0o711)
        os.mkdir(f"{self.at}/.git")
        listed = crates_listed(TOP)
        self.crates = below(listed, names) if names else set(listed)
        for path in self.files():
            parts = path.split("/")
            if not with_wrong_bodies and "must-fail" in parts or parts[0] == "crates" and parts[1] not in self.crates:
                continue
            os.makedirs(os.path.dirname(f"{self.at}/{path}"), exist_ok=True)
            shutil.copy2(f"{TOP}/{path}", f"{self.at}/{path}", follow_symlinks=False)
        if names:
            with open(f"{TOP}/crates.txt", encoding="utf-8") as it:
                kept = [line for line in it if line.startswith("#") or re.split(r"[ :]", line)[0] in self.crates]
            with open(f"{self.at}/crates.txt", "w", encoding="utf-8") as it:
                it.writelines(kept)

    @staticmethod
    def files():
        """The files of the checkout, those that git doesn't track yet among them; all where git doesn't answer."""
        listed = subprocess.run(["git", "ls-files", "-co", "--exclude-standard", "-z"], cwd=TOP, capture_output=True, check=False)
        if listed.returncode == 0:
            return [it for it in listed.stdout.decode().split("\0") if it and os.path.lexists(f"{TOP}/{it}")]
        found = [os.path.relpath(f"{at}/{name}", TOP) for at, _, names in os.walk(TOP) for name in names]
        return [it for it in found if not {"out", "bin", "lib", ".git"} & {*it.split("/")}]

    def remove(self):
        shutil.rmtree(self.at, ignore_errors=True)


def processes():
    """The parent of each process, when it began, and its processor seconds, with those of the copies that it has waited for."""
    found, tick = {}, os.sysconf("SC_CLK_TCK")
    for name in os.listdir("/proc"):
        if name.isdigit():
            try:
                with open(f"/proc/{name}/stat", encoding="utf-8", errors="replace") as it:
                    fields = it.read().rpartition(")")[2].split()
                found[int(name)] = int(fields[1]), fields[19], sum(int(it) for it in fields[11:15]) / tick
            except (OSError, IndexError, ValueError):
                continue
    return found


def is_below(process, root, every):
    """Whether one process is another or was begun below it."""
    while process and process != root:
        process = every[process][0] if process in every else 0
    return process == root


def crate_of(process):
    """The crate that a check or a build is of, and whether it is its tests or a program's build."""
    try:
        with open(f"/proc/{process}/cmdline", encoding="utf-8", errors="replace") as it:
            words = it.read().split("\0")
    except OSError:
        return None
    if not words[0].endswith("/rattle") or "--crate-name" not in words:
        return None
    part = "tests" if "--test" in words else "build" if "--crate-checked" in words else "proof"
    return words[words.index("--crate-name") + 1], part


def checks_below(root):
    """How many checks and builds go on below a process, where those that a check's own copies do count as one."""
    every = processes()
    own = {it: crate_of(it) for it in every if is_below(it, root, every)}
    return sum(crate is not None and own.get(every[it][0]) != crate for it, crate in own.items())


class Meter(threading.Thread):
    """The processor time of the checks and builds of each crate below a process, looked at twice a second."""

    def __init__(self, root):
        super().__init__(daemon=True)
        self.root, self.seen, self.ended = root, {}, threading.Event()

    def run(self):
        while not self.ended.wait(0.5):
            self.look()

    def look(self):
        every = processes()
        for process, (parent, start, seconds) in every.items():
            known = self.seen.get((process, start))
            if not known and is_below(process, self.root, every):
                crate = crate_of(process)
                known = (crate, 0) if crate and crate_of(parent) != crate else None
            if known:
                self.seen[process, start] = known[0], seconds

    def table(self):
        """The seconds of each crate and part."""
        self.ended.set()
        self.look()
        total = {}
        for crate, seconds in [*self.seen.values()]:
            total[crate] = total.get(crate, 0) + seconds
        return total


def lanes():
    """How many crates are proved at once, each by one job: several jobs load the same things. A check holds up to 3 GB."""
    with open("/proc/meminfo", encoding="utf-8") as it:
        free = 1024 * int(re.search(r"MemAvailable:\s+(\d+)", it.read())[1])
    return max(1, min(len(os.sched_getaffinity(0)), free // 3_000_000_000))


def prove(copy, say, on_proved=lambda name: None, shown=lambda line: False, anew=False, idle_cores=False):
    """Runs `rt ci` in the copy, over what earlier runs on this machine proved or anew; its status, its last line, and the seconds of one core by crate and part."""
    listed, start = crates_listed(copy.at), time.time()
    left, known = set(listed), costs()
    words = [f"{os.path.dirname(COSTS)}/kept-ci", *["--anew"] * anew, *["--idle-cores"] * idle_cores]
    asked = {**os.environ, "RT_JOBS": os.environ.get("RT_JOBS") or str(lanes())}
    ran = subprocess.Popen(words, cwd=copy.at, env=asked, stdin=subprocess.DEVNULL, stdout=subprocess.PIPE, stderr=subprocess.STDOUT, text=True, errors="replace")
    meter = Meter(ran.pid)
    meter.start()
    last, log, about = "", [], 0
    for line in ran.stdout:
        line = line.rstrip("\n")
        log.append(line)
        # (what is said of a crate begins with such a line, and ends with whether it is proved)
        about = len(log) if line.startswith("== ") else about
        last = line if re.match(r"\d+ passed, \d+ failed$", line) else last
        done = re.match(r"rt: (\S+) (proved|NOT PROVED|is kept)", line)
        tests = re.match(r"rt: (\S+): its tests are (proved|NOT PROVED)", line)
        if done and done[1] in left:
            left.discard(done[1])
            rest = sum(known.get((it, "proof"), 0) for it in left) / 60
            minutes, state = (time.time() - start) / 60, "from an earlier run" if done[2] == "is kept" else done[2]
            say(f"{minutes:5.1f} min: {done[1]} {state}; {len(left)} crates left, about {rest:.0f} minutes of one core of the reference machine")
            if done[2] != "NOT PROVED":
                on_proved(done[1])
            elif ": its library " in line:
                say(line)
            else:
                say("\n".join(it for it in log[about:] if not it.endswith(": proved") and not it.startswith("statements ")))
        elif tests:
            say(f"{(time.time() - start) / 60:5.1f} min: {tests[1]}: its tests {tests[2]}")
        elif shown(line):
            say(line)
    return ran.wait(), last, meter.table(), log
