#!/usr/bin/env -S python3 -B
"""Runs the scripts of crates/script_runs/data, the examples and those of the tables of operators (tables.py) in each way,
by the program script_runs. `rt ci` itself runs those of data/ as one list, and operator by operator, each attempted; this
runs those of the tables so too, and all of them

- with each operator attempted that may be, as one list;
- without custom descriptors, as one list, where a script names no flag, and answers so without them too; lists and
  undone operators (`@left` and its like) also in their own way;
- with the indices of types doubled, over a lookup in which two indices name each type, where a script isn't bad: what
  is printed is the same, but for the numbers in the words of refusals;
- showing the types of operands, where a script is accepted: they are those that `operands_before` answers at each
  place.

It also has the program measure a script, as each compiler built it. A script for which the program gives no answer counts
as one that came to something else."""
import re
import sys
import tempfile
from collections import Counter
from pathlib import Path

from harness import ROOT, each, program_of, run
from proposals import DESCRIPTORS
from rewritten import accepted, attempted, doubled, showing, without_descriptors, without_numbers
from tables import read_tables
from transcripts import lines_of, read_data, written

PROGRAM = program_of("script_runs")
# A script that is measured, and what is printed of it without the times.
MEASURED = b"type func i32 i32 -> i32\nfunc 0\nlocal.get 0\ntry local.get 1\ni32.add\nend\n"
MEASURES = "check_ops: 4 operators\nvisits: 4 operators\n"


def files():
    """Yields the name and the sections of each file, and whether `rt ci` runs it."""
    for line in (ROOT / "crates/script_runs/stdin").read_text().splitlines():
        yield *read_data(line), True
    for name, sections in read_tables():
        yield f"operators/{name}", sections, False


def program(way, name, text):
    """Runs the program on a text of cases, and returns its status and what it prints."""
    with tempfile.TemporaryDirectory() as room:
        path = Path(room) / f"{name}.cases"
        path.parent.mkdir(parents=True, exist_ok=True)
        path.write_text(text)
        return run([PROGRAM], f"{way}{name}.cases\n".encode(), timeout=600, cwd=room)[:2]


def head_of(name, count):
    """What the program prints first of so many scripts."""
    return f"{name}: {count} script{'s' * (count != 1)}\n"


def compared(way, name, text, count):
    """Has the program run so many scripts that say themselves what they come to; returns how many, and what came otherwise."""
    if not count:
        return 0, []
    status, printed = program(way, name, text)
    is_right = status == 0 and printed == head_of(name, count)
    return count, [] if is_right else [f"{name}: status {status}, printed {printed[:3000]}"]


def printed_of(way, name, scripts):
    """Has the program run scripts, and returns what it prints of each."""
    status, printed = program(f"{way}\n", name, written(scripts))
    head, *found = printed.split("@\n")
    if status or head != head_of(name, len(scripts)) or len(found) != len(scripts):
        raise ValueError(f"{name}, {way}: status {status}, printed {printed[:3000]}")
    return found


def shows_them(shown, places):
    """Whether what a script prints that shows the types of operands has those at these places, the first before all."""
    *lines, verdict = shown.splitlines()
    types = [re.fullmatch(r"ok \d+ \d+ \[(.*)\]", line) for line in lines if line.startswith("ok ")]
    wanted = [line.removeprefix(" ") for line in lines_of(places)]
    return verdict == "accepted" and all(types) and ["", *[it[1] for it in types]] == wanted


def told(name, way, script, *found):
    return "\n".join([f"{name}, {way}:", script.text + "prints:", *found, "and not:", script.printed])


def scripts_of(sections):
    return [it for section in sections for it in section.scripts]


def run_table(name, sections, is_run):
    """The scripts of a table as one list, and operator by operator."""
    count = 0 if is_run else sum(it.count for it in sections)
    return compared("", name, "".join(written(it.scripts, it.title) for it in sections), count) if count else (0, [])


def run_attempted(name, sections, _):
    scripts = [attempted(it) for it in scripts_of(sections)]
    return compared("once\n", name, written(scripts), len(scripts))


def run_without(name, sections, _):
    """The scripts, lists and undone operators that name no flag."""
    free = [it for it in sections if not re.search(r"^ *feature\b", it.head, re.M)]
    scripts = [it for it in scripts_of(free) if not it.is_exact and not it.has_line("feature")]
    others = [it for it in free if not it.scripts]
    text = written(map(without_descriptors, scripts)) if scripts else ""
    text += "".join(f"@without {DESCRIPTORS}\n{it.head}@{it.title}\n{it.text}\n" for it in others)
    return compared("once\n", name, text, len(scripts) + sum(it.count for it in others))


def run_paired(name, sections, _):
    scripts = [it for it in scripts_of(sections) if not it.is_bad]
    found = printed_of("paired", name, [doubled(it) for it in scripts]) if scripts else []
    pairs = zip(scripts, found, strict=True)
    wrong = [told(name, "paired", *it) for it in pairs if without_numbers(it[1]) != without_numbers(it[0].printed)]
    return len(scripts), wrong


def run_shown(name, sections, _):
    scripts = [showing(it) for it in scripts_of(sections) if it.verdict == "accepted"]
    if not scripts:
        return 0, []
    shown = printed_of("shown", name, scripts)
    places = printed_of("places", name, [accepted(it) for it in scripts])
    found = zip(scripts, shown, places, strict=True)
    return len(scripts), [told(name, "shown", *it) for it in found if not shows_them(*it[1:])]


WAYS = {
    "of tables": run_table,
    "attempted": run_attempted,
    "without custom descriptors": run_without,
    "over paired indices": run_paired,
    "shown": run_shown,
}


def wrong_measures():
    """Has the program, as each compiler built it, measure a script, and returns what came otherwise."""
    programs = [it for it in (PROGRAM, PROGRAM.with_suffix(".by-rattle")) if it.is_file()]
    ran = [(it.name, *run([it, "--runs", "2", "--untimed"], MEASURED)[:2]) for it in programs]
    return [f"{name} --runs: status {it[0]}, printed {it[1]}" for name, *it in ran if it != [0, MEASURES]]


def run_way(job):
    """Runs the scripts of a file in a way, and returns the way, how many there were, and what came otherwise."""
    way, file = job
    try:
        return way, *WAYS[way](*file)
    except ValueError as why:
        return way, 0, [str(why)]


def main():
    counts, wrong = Counter(), wrong_measures()
    for way, count, found in each(run_way, [(way, file) for file in files() for way in WAYS]):
        counts[way] += count
        wrong += found
    said = ", ".join(f"{counts[way]} {way}" for way in WAYS)
    print("\n".join([*wrong, f"scripts: {said}; {len(wrong)} wrong"]))
    return bool(wrong) or not all(counts[way] for way in WAYS)


sys.exit(main())
