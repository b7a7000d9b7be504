#!/usr/bin/env -S python3 -B
"""The tests without the proofs, for whoever doesn't want to wait for .ci/run: each script of script_runs as one list, the
tests of validate_tests, and opcheck on an example. It takes some minutes, and says nothing of contracts. The last line
counts the runs.

With --anew it writes what tests compare with, as the programs print it now: examples/*.expected and script_runs/stdout. Read
each change with git diff before you keep it. Where a script of script_runs doesn't come to what its file of cases says, it
prints that, and leaves the rest as it was."""
import difflib
import re
import shutil
import subprocess
import sys
import tempfile
from pathlib import Path

from harness import DATA, EXAMPLES, ROOT, each
from tables import read_tables
from transcripts import written

RUNS = ROOT / "crates/script_runs"


def rt_try(crate, *words, given=""):
    """Runs the program of a crate before any proof, or its tests."""
    command = ["rt", "try", "--seconds", "170", *words]
    return subprocess.run(command, input=given, capture_output=True, text=True, cwd=ROOT / "crates" / crate)


def data_words():
    """The words that lay the data of script_runs where it runs."""
    names = (it.relative_to(DATA) for it in sorted(DATA.rglob("*")) if it.is_file())
    return [word for name in names for word in ("--data", f"{name}=data/{name}")]


def is_right(crate, ran, wanted=None):
    """Says whether a run ended well, and printed what is wanted, if something is."""
    is_well = ran.returncode == 0 and wanted in (None, ran.stdout)
    print(f"{crate}: {'as expected' if is_well else 'FAILED'}", flush=True)
    if not is_well:
        lines = ran.stdout.splitlines()
        print(*(lines[-20:] if wanted is None else difflib.unified_diff(wanted.splitlines(), lines, lineterm="")), sep="\n")
        print(*ran.stderr.splitlines()[-3:], sep="\n")
    return is_well


def try_scripts(room):
    words, counts = data_words(), ""
    for name, sections in read_tables():
        (room / f"{name}.cases").write_text("".join(written(it.scripts, it.title) for it in sections))
        words += ["--data", f"{name}.cases={room}/{name}.cases"]
        counts += f"{name}: {sum(it.count for it in sections)} scripts\n"
    given = "once\n" + re.sub(":.*", ".cases", counts) + (RUNS / "stdin").read_text()
    return is_right("script_runs", rt_try("script_runs", *words, given=given), counts + (RUNS / "stdout").read_text())


def try_tests(_):
    return is_right("validate_tests", rt_try("validate_tests", "--test"))


def try_example(_):
    given, wanted = ((EXAMPLES / f"add.{kind}").read_text() for kind in ("script", "expected"))
    return is_right("opcheck", rt_try("opcheck", given=given), wanted)


def write_anew(room):
    """Writes what tests compare with anew; returns whether all programs ended well."""
    for script in EXAMPLES.glob("*.script"):
        shutil.copy(script, room)
    cases = rt_try("opcheck", "--cases", str(room))
    runs = rt_try("script_runs", *data_words(), given=(RUNS / "stdin").read_text())
    for crate, ran in ("opcheck", cases), ("script_runs", runs):
        if ran.returncode:
            wrong = [it for it in ran.stdout.splitlines() if not re.search(r": [0-9]+ scripts?$", it)]
            print(f"{crate}: FAILED", *wrong, *ran.stderr.splitlines()[-3:], sep="\n")
            return False
    printed = re.findall(r"^== (.*)\.script\n((?:(?!== |case=).*\n)*)", cases.stdout, re.M)
    for name, text in printed:
        (EXAMPLES / f"{name}.expected").write_text(text)
    (RUNS / "stdout").write_text(runs.stdout)
    print(f"written: {len(printed)} of examples, and {len(runs.stdout.splitlines())} lines of script_runs/stdout")
    return True


def main(words):
    with tempfile.TemporaryDirectory() as name:
        if words == ["--anew"]:
            return not write_anew(Path(name))
        right = each(lambda it: it(Path(name)), [try_scripts, try_tests, try_example])
    print(f"{right.count(True)} passed, {right.count(False)} failed")
    return not all(right)


if __name__ == "__main__":
    sys.exit(main(sys.argv[1:]))
