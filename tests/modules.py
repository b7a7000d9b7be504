#!/usr/bin/env -S python3 -B
"""Runs the program wasmcheck, and compares what it writes, and its status, with what docs/MODULES.md says of it:

- over each module of crates/wasmcheck/data, with the answers that stand there, and cut short at every byte: what is
  left is malformed but where a section ends;
- with each of its words, with words that it doesn't know, over several files, and over inputs that are no modules
  (module_runs.py);
- as JSON, each line read as an object;
- over modules that keep each limit of an implementation, and that are one past it;
- where standard error is a terminal, on many bodies;
- over each of those modules under faults (tests/c/faults.c): each request for memory refused, each read and write
  failing, one byte at a time and interrupted."""
import itertools
import json
import os
import pty
import re
import subprocess
import sys
import tempfile
from pathlib import Path

import wasm
from harness import ROOT, Tally, need, program_of, run, run_preloaded
from module_runs import (ACCEPTED, DROPS, EMPTY, HELP, JSON_RUNS, MISSING, ODD, REFUSED, RUNS, SAID_BY_HELP, SHARED,
                         SUM, TEXT, UNNAMED, VALID, cases)

PROGRAM = program_of("wasmcheck")
STATUSES = {"valid": 0, "invalid": 1, "malformed": 2, "not covered": 4, "too large": 7}


def try_run(wasmcheck, tally, name, words, given, status, printed, said=""):
    """A run of RUNS: its status and what it prints are these, and what it says has this pattern."""
    found = wasmcheck(words, given)
    tally.expect(name, found[:2] == (status, printed) and re.fullmatch(said, found[2], re.S), *found)


def try_case(wasmcheck, tally, case):
    found = wasmcheck(case.words, case.bytes)[:2]
    tally.same(case.name, found, (STATUSES[case.printed.splitlines()[-1]], case.printed))


def try_cut(wasmcheck, tally, case):
    """A module, cut short at any byte, is malformed but where one of its sections ends, and behind what is refused as it is
    read."""
    ends = set(itertools.accumulate(map(len, case.sections)))
    found = {end: wasmcheck(case.words, case.bytes[:end])[1] for end in range(len(case.bytes)) if end not in ends}
    read = [end for end, it in found.items() if not it.endswith("malformed\n") and it != case.printed]
    tally.same(f"{case.name}: not malformed as it is cut short", read, [])


def objects_of(printed):
    """The objects that are printed, one a line, or none where a line isn't one."""
    try:
        return [json.loads(line) for line in printed.removesuffix("\n").split("\n") if line]
    except ValueError:
        return None


def try_json(wasmcheck, tally, room, name, words, given, status, wanted):
    """Each line is an object of JSON, which has the file and what else it is to have, in one line of printable text: of
    standard input, and of a file whose name is escaped too."""
    file = 'a "file" \\ here.wasm'
    (room / file).write_bytes(given)
    words, found = ["--json", *words.split()], []
    for more, printed_file in ([], "-"), ([file], file):
        ended, printed, said = wasmcheck([*words, *more], given)
        found.append((ended, objects_of(printed), said) == (status, [{"file": printed_file, **it} for it in wanted], ""))
    tally.expect(f"as JSON, {name}", all(found), ended, printed, said)


def try_names(wasmcheck, tally):
    """A file that can't be read is told as JSON among others; a name that isn't UTF-8 is told with its escapes, and one with
    control characters as it is."""
    status, printed, said = wasmcheck(["--json", "missing.wasm", "./-v.wasm"])
    wanted = 5, [{"file": "missing.wasm", "verdict": "unreadable"}]
    is_right = (status, objects_of(printed)) == wanted and re.fullmatch(MISSING, said)
    tally.expect("as JSON, a file that isn't there", is_right, status, printed, said)
    status, printed, said = wasmcheck(["--json", "-v", UNNAMED, ODD])
    files = {it["file"] for it in objects_of(printed) or []}
    tally.expect("odd names as JSON", (status, files) == (5, {"a\\xffb.wasm", ODD.decode()}), status, printed, said)


def try_help(wasmcheck, tally):
    """Both words for each of help and version give it, on standard output."""
    version = re.compile(r"wasmcheck \d+\.\d+\.\d+, .*wasmparser 0\.263\.0\n")
    found = {word: wasmcheck([word]) for word in ("-h", "--help", "-V", "--version")}
    are_right = [it[0] == 0 and it[2] == "" for it in found.values()]
    are_right += [HELP.fullmatch(found[it][1]) and all(text in found[it][1] for text in SAID_BY_HELP) for it in ("-h", "--help")]
    are_right += [version.fullmatch(found[it][1]) for it in ("-V", "--version")]
    tally.expect("help and version", all(are_right), found)


def try_streams(tally, room):
    """Where nobody reads on, nothing is said, and the status tells that a write failed. On a terminal it says how far it is,
    of 12,000 bodies twice, and elsewhere nothing."""
    how = {"cwd": room, "env": {}, "timeout": 60}
    reader, writer = os.pipe()
    os.close(reader)
    ran = subprocess.run([PROGRAM, "refused.wasm"], stdout=writer, stderr=subprocess.PIPE, **how)
    os.close(writer)
    tally.same("nobody reads on", (ran.returncode, ran.stderr), (3, b""))
    (room / "many.wasm").write_bytes(wasm.of_bodies(*[EMPTY] * 12_000))
    reader, writer = pty.openpty()
    ran = subprocess.run([PROGRAM, "many.wasm"], stdout=subprocess.PIPE, stderr=writer, **how)
    os.close(writer)
    said = os.read(reader, 1 << 16)
    os.close(reader)
    is_right = ran.stdout.decode() == VALID and re.fullmatch(rb"(\r\d+ of 12000 bodies){2}(\r\n)+", said)
    tally.expect("on a terminal", is_right, ran.returncode, ran.stdout, said)


def with_body(sections):
    """A module of one empty function, with these sections before its code."""
    function = wasm.section(wasm.TYPES, wasm.PLAIN) + wasm.section(wasm.FUNCTIONS, b"\1\0")
    return wasm.HEADER + function + sections + wasm.section(wasm.CODE, b"\1\2\0\x0b")


def limits():
    """Yields each limit of an implementation: its name, what makes a module of so many, the limit, and the text that refuses
    more. The limits are upstream's (docs/DIFFERENCES.md)."""

    def listed(id, item, before=b"", behind=lambda count: b""):
        return lambda count: wasm.HEADER + before + wasm.section(id, wasm.repeated(count, item)) + behind(count)

    def exports(count):
        names = (wasm.sized(f"{index:x}".encode()) for index in range(count))
        return with_body(wasm.section(wasm.EXPORTS, wasm.listed([name + b"\0\0" for name in names])))

    def bodies(count):
        return wasm.section(wasm.CODE, wasm.repeated(count, b"\2\0\x0b"))

    function = wasm.section(wasm.TYPES, wasm.PLAIN)
    for name, make, most in [
        ("types", listed(wasm.TYPES, b"\x60\0\0"), 1_000_000),
        ("imports", listed(wasm.IMPORTS, b"\0\0\0\0", function), 1_000_000),
        ("functions", listed(wasm.FUNCTIONS, b"\0", function, bodies), 1_000_000),
        ("globals", listed(wasm.GLOBALS, b"\x7f\0\x41\0\x0b"), 1_000_000),
        ("tags", listed(wasm.TAGS, b"\0\0", function), 1_000_000),
        ("exports", exports, 1_000_000),
        ("tables", listed(wasm.TABLES, b"\x70\0\0"), 100),
        ("memories", listed(wasm.MEMORIES, b"\0\0"), 100),
        ("element segments", listed(wasm.ELEMENTS, b"\1\0\0"), 100_000),
        ("data segments", listed(wasm.DATA, b"\1\0"), 100_000),
    ]:
        yield name, make, most, f"{name} count exceeds limit of {most}"
    yield ("fields", lambda count: wasm.HEADER + wasm.section(wasm.TYPES, b"\1\x5f" + wasm.repeated(count, b"\x7f\0")), 10_000,
           "struct fields size is out of bounds")
    yield ("elements", lambda count: with_body(wasm.section(wasm.ELEMENTS, b"\1\1\0" + wasm.repeated(count, b"\0"))),
           10_000_000, "number of elements is out of bounds")


def try_limit(wasmcheck, tally, name, make, most, text):
    """A module that keeps a limit is valid, and one that is one past it is too large."""
    kept, passed = (wasmcheck([], make(count)) for count in (most, most + 1))
    printed = re.fullmatch(rf"module failed at offset 0x[0-9a-f]+: {text}\ntoo large\n", passed[1])
    tally.expect(f"limit of {name}", kept == (0, VALID, "") and printed and passed[0] == 7, kept, passed)


def write_files(room):
    """Writes the files that runs name."""
    files = [("refused.wasm", REFUSED), ("-v.wasm", ACCEPTED), ("shared.wasm", SHARED), ("text.wasm", TEXT)]
    for name, given in [*files, (UNNAMED, ACCEPTED), (ODD, wasm.of_bodies(DROPS))]:
        (room / os.fsdecode(name)).write_bytes(given)


def try_all(room, tally, modules):
    def wasmcheck(words, given=b""):
        """The status of a run in the room, what it prints and what it says."""
        return run([PROGRAM, *(words.split() if isinstance(words, str) else words)], given, cwd=room)

    for it in RUNS:
        try_run(wasmcheck, tally, *it)
    for it in modules:
        try_case(wasmcheck, tally, it)
        try_cut(wasmcheck, tally, it)
    for it in limits():
        try_limit(wasmcheck, tally, *it)
    for it in JSON_RUNS:
        try_json(wasmcheck, tally, room, *it)
    try_names(wasmcheck, tally)
    try_help(wasmcheck, tally)
    try_streams(tally, room)


def try_faults(modules, room):
    """Runs modules under faults, and returns how many there were, how many runs, and how many of these were wrong."""
    given = [(it.name, it.bytes) for it in modules if it.words[1:] in ([], ["--features", "all"])]
    given += [("sum", SUM), ("refused", REFUSED), ("a text", b"(module)"), ("nothing", b"")]
    names = [f"{index}: {name}".replace("/", "-") for index, (name, _) in enumerate(given)]
    room.mkdir()
    for name, (_, bytes) in zip(names, given):
        (room / name).write_bytes(bytes)
    return len(names), *run_preloaded("faults", PROGRAM, names, room)


def main():
    need("gcc")
    modules, tally = list(cases()), Tally()
    with tempfile.TemporaryDirectory() as name:
        write_files(Path(name))
        try_all(Path(name), tally, modules)
        print(f"{tally.count} checks of wasmcheck, {tally.wrong} wrong")
        count, runs, wrong = try_faults(modules, Path(name) / "faults")
    print(f"{count} modules, {runs} runs under faults, {wrong} wrong")
    return tally.wrong + wrong > 0 or runs == 0


sys.exit(main())
