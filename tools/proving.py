"""Proves a crate and those below it with the kit, several crates at a time: for tools/install.

`rt` lets only one command at a time use a library of a checkout. So each crate is proved in a tree of its own below one directory: a copy of it and
of what it depends on, with the libraries as they were built in their own trees. The trees stay there with what `rt` keeps in them.
"""

import contextlib
import fcntl
import os
import re
import shutil
import signal
import subprocess
import sys
import time
from pathlib import Path

from machine import GIB, free_memory, processors

ROOT = Path(__file__).resolve().parent.parent
PARTS = ["src", "specs", "proofs"]
# The memory of a check, and of each of its jobs if these are many; what the trees take on disk; and the most jobs that make a check faster.
LANE, JOB, DISK, MOST = 4 * GIB, 2 * GIB, 10 * GIB, 8
LAST_LINES = 15
NO_KIT = """tools/install: the command rt is not on PATH. It belongs to the Rattle kit, which proves and builds strc: unpack the kit, and add
its directory bin/, which has rt, to PATH. `rt version` prints the name of a kit, and README.md has the name of the one that strc was proved with."""


def stop(why):
    sys.exit(f"tools/install: {why}")


def shown(seconds):
    return f"{int(seconds) // 60}:{int(seconds) % 60:02}"


def half(jobs):
    return -(-jobs // 2)


def counted(number, word):
    return f"{number} {word}" + "s" * (number != 1)


# ---- the crates


def read_crates():
    """The line of each crate in crates.txt, and the crates that it depends on."""
    rows = [line.partition("#")[0].strip() for line in (ROOT / "crates.txt").read_text(encoding="utf-8").splitlines()]
    lines = {row.partition(":")[0].split()[0]: row for row in rows if row}
    return lines, {name: [it for it in row.partition(":")[2].split() if it in lines] for name, row in lines.items()}


def with_below(crate, uses):
    """The crate and all that it depends on, each after those that it depends on itself."""
    found = []
    for name in uses[crate]:
        found += [it for it in with_below(name, uses) if it not in found]
    return [*found, crate]


def ways(order, uses):
    """How much work is between the beginning of each crate and the end of the last one. A crate counts by the bytes of its source, which are
    nearly in proportion to the time that its proof takes."""
    found = {}
    for name in reversed(order):
        own = sum(it.stat().st_size for it in (ROOT / "crates" / name / "src").rglob("*.rt"))
        found[name] = own + max((found[it] for it in found if name in uses[it]), default=0)
    return found


def replace(folder, source):
    """Puts a copy of a directory in the place of another. It is made of links: `rt` changes no source, and no file of a built library."""

    def link_or_copy(one, other):
        try:
            os.link(one, other)
        except OSError:
            shutil.copy2(one, other)

    shutil.rmtree(folder, ignore_errors=True)
    if source.is_dir():
        shutil.copytree(source, folder, copy_function=link_or_copy)


class Trees:
    """The trees below a directory, and the commands that work in them."""

    def __init__(self, top, goal):
        self.top, self.running = top, {}
        self.lines, self.uses = read_crates()
        if goal not in self.lines:
            stop(f"crates.txt has no crate {goal}")
        self.order = with_below(goal, self.uses)
        # The sources as they are now, whatever is edited meanwhile.
        shutil.rmtree(top / "sources", ignore_errors=True)
        for name in self.order:
            shutil.copytree(ROOT / "crates" / name, top / "sources" / name, ignore=shutil.ignore_patterns("out", "must-fail", "edits", "rows"))

    def folder(self, crate):
        return self.top / crate / "crates" / crate

    def log(self, crate):
        return self.top / f"{crate}.log"

    def lay_out(self, crate):
        """Makes the tree of a crate whose libraries are built. What earlier commands kept of the crate itself stays."""
        names, crates = with_below(crate, self.uses), self.folder(crate).parent
        crates.mkdir(parents=True, exist_ok=True)
        for old in [it for it in crates.iterdir() if it.name not in names]:
            shutil.rmtree(old)
        for name in names:
            for part in PARTS:
                replace(crates / name / part, self.top / "sources" / name / part)
            if name != crate:
                replace(crates / name / "out" / "rlib", self.folder(name) / "out" / "rlib")
        (self.top / crate / "crates.txt").write_text("".join(self.lines[it] + "\n" for it in names), encoding="utf-8")
        shutil.copy(ROOT / "HANDLES", self.top / crate)

    def start(self, crate, jobs):
        """Starts `rt` in the tree of a crate: for a program `rt run`, which also builds it."""
        self.lay_out(crate)
        given = self.top / "sources" / crate / "stdin"
        verb = "run" if (self.folder(crate) / "src" / "main.rt").is_file() else "lib"
        with open(self.log(crate), "wb") as log, open(given if given.is_file() else os.devnull, "rb") as stdin:
            words, how = ["rt", verb, "--jobs", str(jobs)], {"stdin": stdin, "stdout": log, "stderr": subprocess.STDOUT}
            self.running[crate] = subprocess.Popen(words, cwd=self.folder(crate), start_new_session=True, **how), time.monotonic()

    def progress(self, crate):
        """How long the command of a crate has run, and how many functions of how many it has checked, if `rt` has said so."""
        found = re.findall(rb"^so far: (\d+ of \d+) functions", self.log(crate).read_bytes(), re.M)
        seconds = shown(time.monotonic() - self.running[crate][1])
        return f"{crate} {seconds}" + (f" ({found[-1].decode()} functions)" if found else "")

    def ended(self):
        """Yields the name, the status and the seconds of each command that has ended."""
        for name, (process, began) in list(self.running.items()):
            if process.poll() is not None:
                del self.running[name]
                yield name, process.returncode, time.monotonic() - began

    def end_all(self):
        """Ends the commands that still run. When `rt` ends, all that it has started ends."""
        for process, _ in self.running.values():
            with contextlib.suppress(ProcessLookupError):
                os.killpg(process.pid, signal.SIGTERM)
        for process, _ in self.running.values():
            process.wait()


# ---- the proofs


class Screen:
    """Standard output: lines and, on a terminal, a status below them, which is written again and again."""

    def __init__(self):
        self.is_terminal = sys.stdout.isatty()

    def line(self, text):
        print(f"\r\033[K{text}" if self.is_terminal else text, flush=True)

    def status(self, text):
        if self.is_terminal:
            print(f"\r\033[K{text[: shutil.get_terminal_size().columns - 1]}", end="", flush=True)


def report_failure(trees, screen, name, status):
    """Prints the end of the log of a command that failed."""
    lines = trees.log(name).read_text(encoding="utf-8", errors="replace").splitlines()
    screen.line(f"{name}: failed. {trees.log(name)} ends with:")
    print("".join(f"    {line}\n" for line in lines[-LAST_LINES:]), end="")
    if status == -signal.SIGKILL:
        print("It was killed, most likely for lack of memory: `--jobs 1` takes less")


def jobs_of(crate, others, way, jobs, lanes):
    """How many jobs a crate has beside these others: all of them if there are no others, half of them if it has the longest way, and else one. A
    proof with several jobs ends earlier, but takes more processor time."""
    if lanes == 1 or not others:
        return min(MOST, jobs)
    return min(MOST, half(jobs)) if way[crate] >= max(way[it] for it in others) else 1


def prove_all(trees, jobs, lanes, screen):
    """Proves all crates, and returns whether that succeeded."""
    way, done, began = ways(trees.order, trees.uses), set(), time.monotonic()
    while len(done) < len(trees.order):
        waiting = [it for it in trees.order if it not in done and it not in trees.running]
        ready = sorted((it for it in waiting if done.issuperset(trees.uses[it])), key=lambda it: -way[it])
        for name in ready[: lanes - len(trees.running)]:
            others = {*ready, *trees.running} - {name}
            number = jobs_of(name, others, way, jobs, lanes)
            screen.line(f"{name}: begins, with {counted(number, 'job')}")
            trees.start(name, number)
        for name, status, seconds in trees.ended():
            if status:
                report_failure(trees, screen, name, status)
                return False
            done.add(name)
            is_new = re.search(rb"^logic=proved ", trees.log(name).read_bytes(), re.M)
            word = f"proved in {shown(seconds)}" if is_new else "was proved before"
            screen.line(f"{name}: {word} ({len(done)} of {len(trees.order)})")
        works = ", ".join(map(trees.progress, trees.running))
        screen.status(f"{len(done)} of {len(trees.order)} crates proved, {shown(time.monotonic() - began)}; now {works}")
        time.sleep(0.2)
    screen.line(f"tools/install: {counted(len(done), 'crate')} proved in {shown(time.monotonic() - began)}")
    return True


# ---- what is needed


def check_kit():
    """Stops if there is no kit, and says so if it is another one than that of the README."""
    if shutil.which("rt") is None:
        sys.exit(NO_KIT)
    found = subprocess.run(["rt", "version"], capture_output=True, text=True, check=False, timeout=60).stdout.strip()
    known = re.search(r"Proved with `rt version`: `(.*?)`", (ROOT / "README.md").read_text(encoding="utf-8"))
    if known and found != known[1]:
        print(f"tools/install: this kit is {found or 'without a name'}, and README.md names {known[1]}: some proofs may fail")


def shares(asked):
    """How many jobs there are, and how many crates at a time. Together these may have up to half as many jobs again, since no check has work
    for all of its jobs all the time."""
    free, word = free_memory(), os.environ.get("RT_JOBS", "")
    number = asked or (int(word) if word.isdigit() else 0)
    if free < LANE and not number:
        stop(f"a proof takes up to {LANE // GIB} GB of memory, and {free / GIB:.1f} GB are free. `--jobs 1` tries all the same")
    jobs = number or min(processors(), free // JOB)
    return jobs, max(1, min(half(jobs + half(jobs)), free // max(LANE, JOB * min(MOST, half(jobs)))))


@contextlib.contextmanager
def alone_in(work):
    """Makes the directory of the trees. Stops if another call works there, or if the disk is too small."""
    other = "name another directory with --work"
    try:
        work.mkdir(parents=True, exist_ok=True)
        lock = open(work / "lock", "w", encoding="utf-8")
    except OSError as error:
        stop(f"{work} cannot be written ({error.strerror}): {other}")
    with lock:
        try:
            fcntl.flock(lock, fcntl.LOCK_EX | fcntl.LOCK_NB)
        except OSError:
            stop(f"another call works in {work}: wait until it has ended, or {other}")
        held = sum(it.lstat().st_blocks * 512 // it.lstat().st_nlink for it in work.rglob("*") if it.is_file())
        free = shutil.disk_usage(work).free
        if held + free < DISK:
            stop(f"the work takes about {DISK // GIB} GB of disk, and {free / GIB:.1f} GB are free in {work}: {other}")
        yield


def prove(work, goal, asked):
    """Proves a crate and those below it, and returns where its program is, if it is one."""
    check_kit()
    jobs, lanes = shares(asked)
    with alone_in(work):
        trees = Trees(work, goal)
        number = counted(len(trees.order), "crate")
        print(f"tools/install: {number}, at most {lanes} at a time, on {counted(jobs, 'processor')}; the work is kept in {work}", flush=True)
        is_proved = False
        try:
            is_proved = prove_all(trees, jobs, lanes, Screen())
        except KeyboardInterrupt:
            print("\ntools/install: interrupted. The next call goes on from here", flush=True)
            sys.exit(130)
        finally:
            if not is_proved:
                signal.signal(signal.SIGINT, signal.SIG_IGN)
                trees.end_all()
        if not is_proved:
            stop("nothing is installed. What was proved is kept for the next call")
        program = trees.folder(goal) / "out" / goal
        if program.is_file():
            # tools/example tells by this that the program is newer than its tree.
            os.utime(program)
        return program
