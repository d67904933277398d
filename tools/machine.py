"""What the machine has: for tools/gate and tools/install."""

import os
import re
from pathlib import Path

GIB = 2**30


def number_in(file, pattern=r"(\d+)"):
    """The first number of a file that the pattern finds, or None."""
    try:
        found = re.search(pattern, Path(file).read_text(encoding="utf-8"))
    except OSError:
        return None
    return int(found[1]) if found else None


def free_memory():
    """Bytes that are free, by the limit of the control group too, if it has one."""
    free = 1024 * number_in("/proc/meminfo", r"MemAvailable:\s+(\d+)")
    limit, used = number_in("/sys/fs/cgroup/memory.max"), number_in("/sys/fs/cgroup/memory.current")
    return free if limit is None or used is None else min(free, limit - used)


def processors():
    """Processors that this process may use, by the quota of the control group too, if it has one."""
    found = len(os.sched_getaffinity(0))
    quota, period = number_in("/sys/fs/cgroup/cpu.max"), number_in("/sys/fs/cgroup/cpu.max", r"^\d+ (\d+)")
    return found if quota is None or period is None else max(1, min(found, quota // period))
