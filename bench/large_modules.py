#!/usr/bin/env -S python3 -B
"""Measures the program wasmcheck, as `rt ci` leaves it in crates/wasmcheck/out, and wasm-validate beside it where that is
there, over modules of many functions, of longer ones, and one function of all those bytes: each at a tenth of its size and
at its size. Prints a line for each: the megabytes of the module, and the seconds and the most megabytes of memory of each
run. Each run is the best of three. Where `ffi/build` has left the library, two columns more have the seconds that it and V8
(Node.js) take in a process that has read the module, each the best of five. Modules that are named are measured in place of
those.

    bench/large_modules.py [MEGABYTES]
    bench/large_modules.py FILE.."""
import os
import shutil
import subprocess
import sys
import tempfile
from pathlib import Path

from measures import LIBRARY, ROOT, best_of_three, compile_library, write_made

from wasm import CODE, FUNCTIONS, HEADER, MEMORIES, TYPES, repeated, section, sized

PROGRAM = ROOT / "crates/wasmcheck/out/wasmcheck"
V8 = """const bytes = require("fs").readFileSync(process.argv[1]);
let best = Infinity;
for (let run = 0; run < 5; run++) {
    const began = process.hrtime.bigint();
    if (!WebAssembly.validate(bytes)) process.exit(1);
    best = Math.min(best, Number(process.hrtime.bigint() - began) / 1e9);
}
console.log(best);"""
# [i32 i32] -> [i32], with a local: a loop that adds, with calls, loads and branches.
BODY = bytes.fromhex(
    "01017f" "0240" "0340" "2000" "45" "0d01" "2001" "2000" "6a" "2202" "280204" "2002" "6a" "2101"
    "2000" "417f" "6a" "2200" "2001" "1000" "2101" "0c00" "0b" "0b" "2001" "200221020b"
)
OPERATORS = bytes.fromhex("2000" "2001" "6a" "2101" "4101" "1a" "01")


def of_equal(count, body):
    """A module of a memory and so many functions [i32 i32] -> [i32] with this body."""
    declared = section(TYPES, b"\1\x60\2\x7f\x7f\1\x7f") + section(FUNCTIONS, repeated(count, b"\0")) + section(MEMORIES, b"\1\0\1")
    return HEADER + declared + section(CODE, repeated(count, sized(body)))


def of_operators(count):
    """A body of so many times the same operators."""
    return b"\0" + OPERATORS * count + b"\x20\0\x0b"


CASES = [
    ("functions of 50 bytes", lambda size: of_equal(size // (len(BODY) + 2), BODY)),
    ("functions of 1,500 bytes", lambda size: of_equal(size // len(of_operators(150)), of_operators(150))),
    ("one function", lambda size: of_equal(1, of_operators(size // len(OPERATORS)))),
]


def measured_in_process(room):
    """The commands that print the seconds of a check in process, with what they measure."""
    if not LIBRARY.exists():
        return []
    node = shutil.which("node")
    return [("library", [compile_library(room), "whole"])] + ([("V8", [node, "--single-threaded", "-e", V8])] if node else [])


def seconds_in_process(words, name):
    """What such a command prints for a file, or a dash where it refuses the module: V8 takes no function above 7.6 MB."""
    ran = subprocess.run([*words, name], stdout=subprocess.PIPE, text=True)
    return f"{float(ran.stdout):.3f}" if ran.returncode == 0 else "-"


def cases(words, room):
    """Yields the modules to be measured, each with its name: those that are named, or made ones."""
    if words and not words[0].isdigit():
        yield from ((Path(it).name, it) for it in words)
        return
    megabytes = int(words[0]) if words else 100
    for name, make in CASES:
        for size in (megabytes * 100_000, megabytes * 1_000_000):
            with tempfile.NamedTemporaryFile(suffix=".wasm", dir=room) as file:
                write_made(make, size, file)
                yield name, file.name


def main(words):
    other = shutil.which("wasm-validate")
    programs = [[PROGRAM, "-q"]] + ([[other]] if other else [])
    is_well = True
    with tempfile.TemporaryDirectory() as room:
        in_process = measured_in_process(room)
        titles = [f"{Path(it[0]).name}: s | of processor | MB" for it in programs] + [f"{it[0]}: s" for it in in_process]
        print(" | ".join(["| Module", "MB"] + titles) + " |")
        for name, file in cases(words, room):
            found = [best_of_three([*it, file]) for it in programs]
            is_well &= all(it.status == 0 for it in found)
            told = [f"{it.seconds:.3f} | {it.of_processors:.3f} | {it.megabytes:.0f}" for it in found]
            told += [seconds_in_process(it[1], file) for it in in_process]
            print(" | ".join([f"| {name}", f"{os.path.getsize(file) / 1e6:.1f}"] + told) + " |", flush=True)
    return not is_well


if __name__ == "__main__":
    sys.exit(main(sys.argv[1:]))
