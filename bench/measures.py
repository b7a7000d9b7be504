"""What the measures share: modules and scripts that are made, and runs of programs over them."""
import os
import subprocess
import sys
import time
from pathlib import Path
from typing import NamedTuple

ROOT = Path(__file__).resolve().parent.parent
LIBRARY = ROOT / "crates/tansyattic/out/libtansyattic.a"
sys.path[:0] = [str(ROOT / "tests"), str(ROOT / ".ci")]


class Measure(NamedTuple):
    """The status of a run, its seconds by the clock and of processors, and the most megabytes that it had."""

    status: int
    seconds: float
    of_processors: float
    megabytes: float


def write_made(make, size, to):
    """Writes what is made of a size, in a process of its own: what this one has in memory would count for those that it
    starts."""
    writer = os.fork()
    if writer == 0:
        to.write(make(size))
        to.flush()
        os._exit(0)
    os.waitpid(writer, 0)


def best_of_three(words, given=subprocess.DEVNULL):
    """The best of three runs of a program, each over a file from its start."""
    runs = []
    for _ in range(3):
        if given != subprocess.DEVNULL:
            given.seek(0)
        began = time.monotonic()
        quiet = {"stdout": subprocess.DEVNULL, "stderr": subprocess.DEVNULL, "env": {}}
        ran = subprocess.Popen(words, stdin=given, **quiet)
        _, ran.returncode, used = os.wait4(ran.pid, 0)
        took = time.monotonic() - began
        runs.append(Measure(ran.returncode, took, used.ru_utime + used.ru_stime, used.ru_maxrss / 1000))
    return min(runs)


def compile_library(room):
    """Compiles library.c over the library that ffi/build left; returns the program."""
    words = ["gcc", "-std=c11", "-O2", "-Wall", "-Wextra", "-Werror", f"-I{ROOT}/ffi", "-o", f"{room}/library"]
    subprocess.run([*words, ROOT / "bench/library.c", ROOT / "ffi/memory.c", LIBRARY], check=True)
    return f"{room}/library"
