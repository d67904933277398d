"""Which crates take how much processor time below a process, by phases: for tools/gate."""

import os
import re
import threading
from pathlib import Path

PHASES = ["proof", "tests", "base", "edits", "runs"]
TICKS = os.sysconf("SC_CLK_TCK")
PAUSE = 0.5
RUN = re.compile(r"/rt-run-[^/]*/bin/(\w+)$")


def phase_of(words, is_of_edits):
    """The crate and the phase that a command works on, or None. A check below tools/edits is one of edits, whatever its words are."""
    if "--crate-name" in words[:-1]:
        crate = words[words.index("--crate-name") + 1]
        kept = words[words.index("--incremental") + 1] if "--incremental" in words[:-1] else ""
        if kept or is_of_edits:
            return crate, "base" if kept.endswith("/seed") else "edits"
        return crate, "tests" if any(word.endswith("_tests.o") for word in words) else "proof"
    started = next((found for word in words if (found := RUN.search(word))), None)
    return (started[1].removesuffix("_tests"), "runs") if started else None


def processes():
    """The process, its parent, when it began and the ticks that it has used, its ended children's among them, for each process that there is."""
    for entry in Path("/proc").iterdir():
        if entry.name.isdigit():
            try:
                fields = (entry / "stat").read_text(encoding="latin-1").rpartition(")")[2].split()
            except OSError:
                continue
            yield int(entry.name), int(fields[1]), fields[19], sum(map(int, fields[11:15]))


def words_of(process):
    """The command line of a process, or a list of one empty word if it has ended."""
    try:
        text = Path(f"/proc/{process}/cmdline").read_text(encoding="utf-8", errors="replace")
    except OSError:
        return [""]
    return text.removesuffix("\0").split("\0")


class Meter:
    """Looks at the processes below one, again and again, and keeps how many ticks each of them that works on a crate has used, and how many of
    them there are at the moment."""

    def __init__(self, top):
        self.top = top
        self.busy = 0
        self.used = {}
        self.works = {}
        self.is_of_edits = {}
        self.has_ended = threading.Event()

    def learn(self, key, is_below_edits):
        """Notes what a process works on, once."""
        if self.works.get(key) is None:
            words = words_of(key[0])
            self.is_of_edits[key] = is_below_edits or any(word.endswith("tools/edits") for word in words)
            self.works[key] = phase_of(words, self.is_of_edits[key])

    def look(self):
        children = {}
        for process, parent, began, ticks in processes():
            children.setdefault(parent, []).append((process, began, ticks))
        waiting, busy = [(it, False) for it in children.get(self.top, ())], 0
        while waiting:
            (process, began, ticks), is_below_edits = waiting.pop()
            key = process, began
            self.learn(key, is_below_edits)
            if self.works[key] is None:
                waiting += [(it, self.is_of_edits[key]) for it in children.get(process, ())]
            else:
                self.used[key] = ticks
                busy += 1
        self.busy = busy

    def run(self):
        while not self.has_ended.wait(PAUSE):
            self.look()

    def minutes(self):
        """The processor minutes of each crate by phases."""
        table = {}
        for key, ticks in self.used.items():
            crate, phase = self.works[key]
            row = table.setdefault(crate, dict.fromkeys(PHASES, 0.0))
            row[phase] += ticks / TICKS / 60
        return table


def print_table(table):
    """Prints the processor minutes, the dearest crate first."""
    print(f"{'processor minutes':20}" + "".join(f"{it:>8}" for it in [*PHASES, "all"]))
    for crate, row in sorted(table.items(), key=lambda it: -sum(it[1].values())):
        print(f"{crate:20}" + "".join(f"{it:8.1f}" for it in [*row.values(), sum(row.values())]))
    sums = [sum(row[phase] for row in table.values()) for phase in PHASES]
    print(f"{'all':20}" + "".join(f"{it:8.1f}" for it in [*sums, sum(sums)]), flush=True)
