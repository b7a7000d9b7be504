#!/usr/bin/env -S python3 -B
"""Looks whether what passes at once is inlined where operators are visited and what is found is exchanged, in programs
that `rt ci` leaves: none of these functions may stand there under a name of its own. (ffi.py looks into the library so.)
The compiler drops `inline(always)`, with no message, from a function that would grow very large, and no clause tells that:
visits are slower, and nothing else."""
import re
import subprocess
import sys

from harness import Tally, program_of

PROGRAMS = "opcheck", "script_runs", "wasmcheck"
# What operators of whole bodies and those of calls pass through, and what else visits do.
CHOICES = (
    "passes_at_once",
    "operator_at_once",
    "any_operator",
    "memory_passes_at_once",
    "memory_at_once",
    "gated_memory",
    "memory_operator",
)
# What common operators of whole bodies are read and checked by, in the library.
TURNS = (
    "common_turn",
    "turn_of_constant",
    "turn_of_index",
    "turn_of_load",
    "turn_of_store",
    "turn_with",
)
INLINED = CHOICES + (
    "is_accepted",
    "gated_numeric",
    "constant",
    "binary",
    "local_get",
    "local_set",
    "local_tee",
    "push_operand",
    "exchange_numbers_at_once",
    "exchange_known_at_once",
    "exchange_operands",
)
# It is called: where it has no name, functions have no names.
CALLED = "expect_by_call"


def look(tally, name, text, looked_for):
    """Looks for the names of functions in a text, each without what stands before its last `::`."""
    there = set(re.findall(r"::(\w+)", text))
    if CALLED not in there:
        sys.exit(f"{name} has no names of functions")
    for function in looked_for:
        tally.expect(name, function not in there, f"{function} isn't inlined")


def look_in_library(tally, library):
    """Looks for the choices and the turns in the static library."""
    names = subprocess.run(["nm", library], stdout=subprocess.PIPE, text=True, check=True).stdout
    look(tally, "the library", names, CHOICES + TURNS)


def main():
    tally = Tally()
    for name in PROGRAMS:
        look(tally, name, program_of(name).read_bytes().decode("latin-1"), INLINED)
    print(f"{tally.count} looked for, {tally.wrong} not inlined")
    return tally.wrong > 0


if __name__ == "__main__":
    sys.exit(main())
