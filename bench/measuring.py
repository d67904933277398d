"""What the benches share: one measured run of a program."""

import os
import subprocess
import sys
import tempfile

# Where it is there it tells the peak memory of a program, which else is at least that of the bench.
TIME = "/usr/bin/time"


def measure(command, out, source=os.devnull, errors=None):
    """The processor time in seconds and the peak memory in KiB of a run, which reads the file `source` and writes the file `out`; what it says
    on standard error goes to `errors`, or to that of the bench."""
    with tempfile.NamedTemporaryFile() as peak, open(source, "rb") as given, open(out, "wb") as written:
        has_time = os.access(TIME, os.X_OK)
        prefix = [TIME, "-o", peak.name, "-f", "%M"] if has_time else []
        process = subprocess.Popen([*prefix, *command], stdin=given, stdout=written, stderr=errors)
        _, status, usage = os.wait4(process.pid, 0)
        process.returncode = os.waitstatus_to_exitcode(status)
        if process.returncode != 0:
            sys.exit(f"{command} ended with status {process.returncode}")
        memory = int(peak.read()) if has_time else usage.ru_maxrss
    return usage.ru_utime + usage.ru_stime, memory
