#!/usr/bin/env -S python3 -B
"""Runs the program opcheck under faults (tests/c/faults.c says which): on the examples, on a script of each file of cases,
and on one for each other end: refused, left open, or bad by a line, by its order or by its module."""
import sys
import tempfile
from pathlib import Path

import scripts
from harness import DATA, EXAMPLES, need, program_of, run_preloaded
from transcripts import read_cases

ENDS = {
    "refused": scripts.text(scripts.HEAD, ["i32.add"]),
    "open": scripts.text(scripts.HEAD, ["block"]),
    "bad-line": scripts.text(["wombat"]),
    "bad-order": scripts.text(scripts.HEAD, ["else"]),
    "bad-module": scripts.text(["type cont 0"], scripts.HEAD[1:], ["end"]),
}


def first_scripts():
    """Yields a name for each file of cases that has scripts, and the first one of them that leaves no proposal out."""
    for path in DATA.glob("*/*.cases"):
        sections = (it for it in read_cases(path.read_text()) if it.title.startswith("scripts") and not it.without)
        if section := next(sections, None):
            yield f"{path.parent.name}-{path.stem}", section.scripts[0].text.encode()


def main():
    program = program_of("opcheck")
    need("gcc")
    given = {**dict(first_scripts()), **ENDS, **{it.name: it.read_bytes() for it in EXAMPLES.glob("*.script")}}
    with tempfile.TemporaryDirectory() as room:
        for name, text in given.items():
            (Path(room) / name).write_bytes(text)
        runs, wrong = run_preloaded("faults", program, list(given), Path(room))
    print(f"{len(given)} scripts, {runs} runs under faults, {wrong} wrong")
    return wrong > 0 or runs == 0


sys.exit(main())
