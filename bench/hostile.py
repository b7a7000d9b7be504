#!/usr/bin/env -S python3 -B
"""Measures the program opcheck, as `rt ci` leaves it in crates/opcheck/out, over scripts that grow: each at a tenth of its
size and at its size, the best of three runs. Prints a line for each: how many lines it has, the seconds and the megabytes
of both. It takes about a minute."""
import sys
import tempfile

from measures import ROOT, best_of_three, write_made

import scripts

PROGRAM = ROOT / "crates/opcheck/out/opcheck"
CASES = [
    ("nested blocks", scripts.nested_blocks, 1_000_000),
    ("nested `else`", scripts.nested_else, 1_000_000),
    ("nested legacy tries", scripts.nested_tries, 1_000_000),
    ("a chain of supertypes, no question", scripts.many_types, 1_000_000),
    ("the same chain, one question", lambda count: scripts.questions(count, 1), 1_000_000),
    ("questions over a chain of 10,000", lambda count: scripts.questions(10_000, count), 10_000),
    ("questions over a chain as long", lambda count: scripts.questions(count, count), 10_000),
    ("targets of one `br_table`", scripts.long_table, 1_000_000),
    ("operands", scripts.many_operands, 1_000_000),
    ("fields of a struct", scripts.many_fields, 1_000_000),
]


def measure(make, count):
    """How many lines a script has, and the best of three runs over it."""
    with tempfile.TemporaryFile() as given:
        write_made(make, count, given)
        given.seek(0)
        return sum(1 for _ in given), best_of_three([PROGRAM], given)


def main():
    is_well = True
    print("| Script | Lines | Seconds | MB | A tenth: seconds | MB |\n|---|---|---|---|---|---|")
    for name, make, count in CASES:
        (_, tenth), (lines, whole) = measure(make, count // 10), measure(make, count)
        is_well &= tenth.status == whole.status == 0
        told = f"{whole.seconds:.2f} | {whole.megabytes:.0f} | {tenth.seconds:.3f} | {tenth.megabytes:.0f}"
        print(f"| {name} ({count:,}) | {lines:,} | {told} |", flush=True)
    return not is_well


sys.exit(main())
