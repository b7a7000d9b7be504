"""The crates of the repository, and checks of one of them over the libraries that `rt ci` left below it in crates/*/out."""

import re
import shutil
import subprocess
import sys
from pathlib import Path

ROOT = Path(__file__).resolve().parent.parent
KIT = Path(subprocess.run(["rt", "doc"], stdout=subprocess.PIPE, text=True, check=True).stdout.strip()).parent
PARTS = ("src", "specs", "proofs")
ALL_CHECKED = re.compile(r"checked .*, (\d+) of \1$")


class Unusable(Exception):
    """Why an edit, or a library that a check needs, can't be used."""


def end(main, *words):
    """Ends a tool with what its main function answers, or with what can't be used."""
    try:
        sys.exit(main(*words))
    except Unusable as why:
        sys.exit(f"{why}")


def graph():
    """Returns what each crate of crates.txt uses, by its name."""
    lines = (ROOT / "crates.txt").read_text().split("\n")
    named = [line.split("#")[0].split(":") for line in lines if ":" in line.split("#")[0]]
    return {name.split()[0]: used.split() for name, used in named}


def folder_of(crate):
    """Returns the folder of a crate."""
    return ROOT / "crates" / crate


def files_of(folder):
    """Returns the files of a crate that a check reads."""
    return sorted(it for part in PARTS for it in (folder / part).rglob("*") if it.is_file())


def copy_to(room, crate):
    """Copies what a check of a crate reads to a folder."""
    for part in PARTS:
        if (folder_of(crate) / part).is_dir():
            shutil.copytree(folder_of(crate) / part, room / part)


def below(crate, uses):
    """Returns the crates of the repository and the libraries of the kit below a crate, each once."""
    ours = [it for it in uses[crate] if it in uses]
    found = dict.fromkeys(it for one in ours for it in below(one, uses)[0])
    return [*found, *[it for it in ours if it not in found]], [it for it in uses[crate] if it not in uses]


def root_file(room):
    """Returns the file that a crate begins with, that of a library or of a program."""
    return next(it for it in ("src/lib.rt", "src/main.rt") if (room / it).is_file())


def words_of(does, crate, uses, room, kept=()):
    """Returns the words by which `rattle` checks or builds a crate in a folder, over the libraries that `rt ci` left, but for
    those that are kept elsewhere: pairs of a crate's name and the folder of its library."""
    ours, _ = below(crate, uses)
    kits = sorted({lib for it in [crate, *ours] for lib in below(it, uses)[1]} - {"std"})
    words = [KIT / "bin/rattle", does, "--crate-name", crate, root_file(room), "-L", f"dependency={KIT}/rlibs"]
    words += [it for lib in ["std", *[k for k in kits if k in uses[crate]]] for it in ("--extern", f"{lib}={KIT}/rlibs/{lib}.rlib")]
    for it in ours:
        rlib = dict(kept).get(it, folder_of(it) / "out/rlib") / f"{it}.rlib"
        if not rlib.is_dir():
            raise Unusable(f"{crate}: the library {it} isn't built: run rt ci first, or rt lib in its folder")
        words += ["--extern", f"{it}={rlib}"] if it in uses[crate] else []
        words += ["-L", f"dependency={rlib.parent}"]
    words += ["--antt-project", "logic/antt-project.json", "--logic-built", KIT / "logic_built"]
    return [str(it) for it in [*words, "--links", f"{crate}=", "--jobs", "1"]]


def run_check(words, room):
    """Runs a check in a copy of a crate, and returns its status and what was said. A check loads the logic once more to print
    answers to begin with, a quarter of its time, and nothing here reads them: so the logic's sources are taken from it
    when it has checked all functions, which it says only where functions are named. It says then that it can't print them."""
    logic = Path(room) / "logic"
    logic.symlink_to(KIT / "rattle/logic")
    said = []
    with subprocess.Popen(words, cwd=room, stdout=subprocess.PIPE, stderr=subprocess.STDOUT, text=True, errors="replace") as ran:
        for line in ran.stdout:
            said.append(line)
            if ALL_CHECKED.match(line):
                logic.unlink(missing_ok=True)
    return ran.returncode, "".join(said)
