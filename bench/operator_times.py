#!/usr/bin/env -S python3 -B
"""Prints how long an operator of the bodies of modules takes, in nanoseconds, the best of several rounds: from C
(library.c), and from Rattle, read and checked by two ways (operator_times.rattle, which is proved as it is built). It
stands on the libraries that `rt ci` left.

    bench/operator_times.py FILE.."""
import shutil
import subprocess
import sys
import tempfile
from pathlib import Path

from measures import ROOT, compile_library

from crates import KIT, graph, words_of

USES = """module_check binary_operators validate_types validate_resources validate_visit validate_stacks
    validate_operators""".split()
# What the loop of the program keeps: the body is valid, and nothing is attempted.
INVARIANT = """\
use Rattle.std.proofs.Common.{◌≡◌, None}
use Rattle.validate_operators.specs.Start.{state}
use Rattle.validate_stacks.specs.State.{IsValidBody}
use Rattle.operators.proofs.walk.Given as goal

abbrev pub invariant-loop : goal.invariant-loop
invariant-loop g l =
    record {
      valid : IsValidBody (g.R.WasmModuleResources.context l.resources) (state l.v);
      idle : (state l.v).undone ≡ None;
    }
"""


def quietly(words, room):
    """Runs a command in a folder, and ends with what it says where it fails."""
    ran = subprocess.run(words, cwd=room, stdout=subprocess.PIPE, stderr=subprocess.STDOUT, text=True)
    if ran.returncode:
        sys.exit(ran.stdout)


def build(room):
    """Proves and builds the program in Rattle, and returns where it is."""
    (room / "src").mkdir()
    shutil.copy(ROOT / "bench/operator_times.rattle", room / "src/main.rt")
    (room / "proofs/walk").mkdir(parents=True)
    (room / "proofs/walk/Invariants.antt").write_text(INVARIANT)
    (room / "logic").symlink_to(KIT / "rattle/logic")
    words = words_of("build", "operators", {**graph(), "operators": USES}, room)
    quietly([*words, "--toolchain", f"{KIT}/toolchain", "-o", "operators.o"], room)
    link = [f"{KIT}/bin/rattle-link", "--target", "x86_64-unknown-linux-gnu", "--toolchain", f"{KIT}/toolchain", "-o", "operators"]
    quietly([*link, "operators.o", f"{KIT}/c/libos_c.a", f"{KIT}/c/liblibc_c.a"], room)
    return room / "operators"


def main(files):
    subprocess.run([ROOT / "ffi/build"], check=True, stdout=subprocess.DEVNULL)
    with tempfile.TemporaryDirectory() as name:
        in_c, in_rattle = compile_library(name), build(Path(name))
        for file in files:
            print(f"{file}:", subprocess.run([in_c, "operators", file], stdout=subprocess.PIPE, text=True).stdout.strip())
            with open(file, "rb") as given:
                printed = subprocess.run([in_rattle], stdin=given, stdout=subprocess.PIPE, text=True, check=True).stdout
            count, by_value, in_place = map(int, printed.split())
            told = f"by value {by_value / count:.1f}, in place {in_place / count:.1f}"
            print(f"  from Rattle: {count} operators, ns each: {told}", flush=True)


main(sys.argv[1:])
