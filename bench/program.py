"""The program as the other scripts run it."""

import os
import subprocess
import time
from dataclasses import dataclass

# Where `rt run` leaves the built program.
HERE = os.path.dirname(os.path.abspath(__file__))
DEFAULT = os.path.join(HERE, "..", "crates", "pg_index", "out", "pg_index")

TABLE = "CREATE TABLE t (a int4)"
INDEX = "CREATE INDEX i ON t (a)"


@dataclass(frozen=True)
class Ended:
    """How a command ended."""

    status: int
    """Its exit status, as -9 for signal 9."""
    seconds: float
    peak: int
    """Its peak memory in bytes. What the script took at the fork counts too, some 20 MiB."""
    error: str
    """What it wrote on standard error."""


class Measured:
    """The best time of some runs in seconds, and the most memory of them in bytes."""

    def __init__(self):
        self.seconds = float("inf")
        self.peak = 0

    def add(self, ended):
        self.seconds = min(self.seconds, ended.seconds)
        self.peak = max(self.peak, ended.peak)


def found(path):
    """The program's absolute path. The script ends where there is none."""
    path = os.path.abspath(path)
    if not os.access(path, os.X_OK) or os.path.isdir(path):
        built = "build it by `rt run` in crates/pg_index, or give its path"
        raise SystemExit(f"{path}: no program; {built}")
    return path


def build(program, heap, index, table=TABLE, statement=INDEX, workers=0):
    """The words that build the index of a heap file."""
    return [program, "build", heap, index, table, statement, f"--workers={workers}"]


def run(words):
    """Runs a command without input, whose output is dropped, and measures it."""
    start = time.perf_counter()
    process = subprocess.Popen(
        words, stdin=subprocess.DEVNULL, stdout=subprocess.DEVNULL, stderr=subprocess.PIPE
    )
    with process.stderr:
        error = process.stderr.read().decode(errors="replace").strip()
    _, ended, usage = os.wait4(process.pid, 0)
    seconds = time.perf_counter() - start
    process.returncode = os.waitstatus_to_exitcode(ended)
    return Ended(process.returncode, seconds, usage.ru_maxrss * 1024, error)
