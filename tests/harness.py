"""What the tests share: where things stand, how programs are run, and how what comes out is told and counted."""
import os
import re
import subprocess
import sys
from concurrent.futures import ThreadPoolExecutor
from pathlib import Path

ROOT = Path(__file__).resolve().parent.parent
SOURCES = ROOT / "tests/c"
EXAMPLES = ROOT / "examples"
DATA = ROOT / "crates/script_runs/data"


def program_of(crate, file=""):
    """Returns the program that `rt ci` leaves in a crate's folder; ends the test where it isn't there."""
    found = ROOT / "crates" / crate / "out" / (file or crate)
    if not found.is_file():
        print(f"{found.relative_to(ROOT)} is missing: rt ci leaves it", file=sys.stderr)
        sys.exit(2)
    return found


def need(*tools):
    """Ends the test where one of these isn't there."""
    if subprocess.run([ROOT / ".ci/tools", *tools]).returncode:
        sys.exit(2)


def run(words, given=b"", timeout=60, **how):
    """Runs a program without an environment, and returns its status, and what it prints and says."""
    ran = subprocess.run(words, input=given, capture_output=True, env={}, timeout=timeout, **how)
    return ran.returncode, ran.stdout.decode(), ran.stderr.decode()


class Tally:
    """Counts what was looked at, and prints what of it isn't right."""

    def __init__(self):
        self.count = self.wrong = 0

    def expect(self, name, is_right, *found):
        """Counts something by whether it is right; what was found is printed where it isn't."""
        self.count += 1
        if not is_right:
            self.wrong += 1
            print(f"{name}: {', '.join(str(it)[:3000] for it in found)}", flush=True)

    def same(self, name, found, wanted):
        """Counts something that is right if it is what is wanted."""
        self.expect(name, found == wanted, found, f"and not {wanted}")


def each(do, items):
    """Returns what comes of each of these, in their order, as many at once as there are processors."""
    with ThreadPoolExecutor(os.cpu_count()) as pool:
        return list(pool.map(do, items))


def run_preloaded(source, program, words, folder):
    """Runs a program in a folder once for each of these words, each time behind what is compiled of a source of tests/c and
    loaded before it. That prints what it did, as `NAME: N runs, M wrong`. Returns how many runs there were, and how many of
    them were wrong; prints what is said of these."""
    library = folder / f"{source}.so"
    words_of_gcc = ["gcc", "-O2", "-Wall", "-shared", "-fPIC", "-o", library, SOURCES / f"{source}.c", "-ldl"]
    subprocess.run(words_of_gcc, check=True)

    def run_one(word):
        how = {"cwd": folder, "env": {"LD_PRELOAD": str(library)}, "stdout": subprocess.PIPE, "text": True}
        return subprocess.run([program, word], **how)

    runs = wrong = 0
    for word, ran in zip(words, each(run_one, words)):
        found = re.search(r": (\d+) \w+, (\d+) wrong\n\Z", ran.stdout)
        is_right = found and found[2] == "0" and ran.returncode == 0
        runs += int(found[1]) if found else 1
        wrong += 0 if is_right else max(1, int(found[2]) if found else 0)
        if not is_right:
            print(f"{word}: status {ran.returncode}, {ran.stdout}")
    return runs, wrong
