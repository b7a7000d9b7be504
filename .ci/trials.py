"""Tries edits of a crate by checks of it, and judges by the goals that these leave open whether each is refused at the
clause that it breaks (wrong-bodies says how)."""

import collections
import dataclasses
import re
import shutil
import tempfile
from pathlib import Path
from typing import NamedTuple

from crates import copy_to, files_of, folder_of, run_check, words_of
from edits import FUNCTION, WrongBody, apply, apply_to_copy, called_by, clauses, copied_impl, function_at, leave_open

GOAL = re.compile(r"^(?:note: )?(?:\./)?([^\s:]+):(\d+):\d+: (?:error: )?((?:it is not proved that|`[^`]+`: ).*(?:\n  .*)*)", re.M)
GONE = re.compile(r"has no field|has no `|`goal\.[^`]*`: module|is not in scope|\(nearest: |was not admitted")
FIELD = re.compile(r"^ +(\w+) = ", re.M)


@dataclasses.dataclass(frozen=True)
class Goal:
    """A goal that was not proved: where that is said, its name, its clause, "" where none can be told, and what is said."""

    path: str
    line: int
    name: str
    clause: str
    said: str


class Verdict(NamedTuple):
    """What a trial came to, and whether that is what it has to come to."""

    text: str
    is_well: bool


def check(crate, uses, numbered, kept=None):
    """Checks a copy of the crate with these wrong bodies, those with a number in copies of their functions, and with what
    these call left open, or whole over what is kept; returns its status, what was said, the goals in that, and the
    functions of each."""
    with tempfile.TemporaryDirectory() as room:
        copy_to(Path(room), crate)
        in_place = [body for body, number in numbered if number == 0]
        for body in in_place:
            apply(Path(room), crate, body)
        functions = {body: {apply_to_copy(Path(room), crate, body, number)} if number else body.functions for body, number in numbered}
        words = words_of("check", crate, uses, Path(room))
        if kept:
            words += ["--incremental", kept]
        else:
            names = sorted({it.name for found in functions.values() for it in found})
            words += [*(it for name in names for it in ("--only", name)), "--allow-holes", "--progress"]
            for it in called_by(crate, list(functions)) - {it for body in in_place for it in body.functions}:
                leave_open(Path(room), crate, it)
        status, said = run_check(words, room)
        return status, said, goals_in(Path(room), said), functions


def clause_of(room, path, line, name):
    """Returns the clause that a goal is of, by its name, or by the field of a record that an answer gives at this line."""
    if named := re.search(r"-clause-(\w+)$", name):
        return named[1]
    if not path.startswith("proofs/"):
        return ""
    above = "\n".join((room / path).read_text().split("\n")[:line])
    fields = FIELD.findall(above[above.rfind(f"\n{name} ") :])
    return fields[-1] if fields else ""


def goals_in(room, said):
    """Returns the goals that were not proved, but for those where a name is gone."""
    goals = []
    for path, line, text in (it.groups() for it in GOAL.finditer(said) if not GONE.search(it[0])):
        name = re.search(r"\(`([^`]+)`\)|^`([^`]+)`: ", text)
        name = (name[1] or name[2]) if name else ""
        goals.append(Goal(path, int(line), name, clause_of(room, path, int(line), name), text.replace("\n", "")))
    return goals


def is_at(goal, function):
    """Returns whether a goal stands in src/ or in proofs/ where the function does."""
    if goal.path.startswith("src/"):
        return goal.path == function.file and function.first <= goal.line <= function.last
    parts = [it.lstrip("+") for it in goal.path.split("/")]
    return goal.path.startswith("proofs/") and all(it in parts for it in function.name.split("::"))


def callers_of(crate, body):
    """Returns the functions of a crate that call one that this body edits, or those beside a table that it edits."""
    folder, edited = folder_of(crate), {path for path, _, _ in body.pairs}
    called = {rf"\b{it.name.split('::')[-1]}\(" for it in body.functions if it}
    calls = re.compile("|".join(called)) if called else FUNCTION
    files = [it for it in files_of(folder) if it.suffix == ".rt"]
    paths = [it for it in (str(file.relative_to(folder)) for file in files) if called or it in edited]
    texts = {it: (folder / it).read_text() for it in paths}
    return {function_at(folder, it, found.end()) for it in paths for found in calls.finditer(texts[it])} - body.functions


def owners(crate, body):
    """Returns the functions whose clause a wrong body breaks: those that it edits, or the caller that it names."""
    if caller := body.breaks[1]:
        return {it for it in callers_of(crate, body) if it and f"::{it.name}".endswith(f"::{caller}")}
    return {it for it in body.functions if it}


def refusal(crate, body, goals, copies=None):
    """Returns what is said of the first of these goals by which the clause is refused that a wrong body breaks, or None. They
    are looked for where its functions stand, or where their copies do. A goal without a clause is of the only one."""
    clause, _, way = body.breaks
    functions = owners(crate, body)
    named = {name for it in functions for name in clauses(crate, it)} or {"ensures"}
    alone = clause if named == {clause} else ""
    for goal in goals:
        if way:
            is_of = clause in named and f"{goal.name}-".startswith(f"{way}-")
        elif clause == "invariant":
            is_of = goal.name.startswith("invariant_of-")
        else:
            is_of = goal.name.startswith("returns") and (goal.clause or alone) == clause
        if is_of and any(is_at(goal, it) for it in copies or functions):
            return goal.said
    return None


def for_one_check(crate, bodies, copies):
    """Returns as many of these, in their order, as one check can judge, each with a number: that of its copy, or 0 where it
    is tried in place, as one of each function may be."""
    taken, seen = [], collections.Counter()
    for body in bodies:
        if None in body.functions or body.breaks[1]:
            continue
        is_copied = copies and len(body.functions) == 1 and copied_impl(crate, *body.functions) is not None
        number = max(seen[it] for it in body.functions) + is_copied
        if number == 0 or is_copied:
            taken.append((body, number))
            seen.update(body.functions)
    return taken


def try_alone(crate, uses, body, kept):
    """Tries one wrong body by a check of the whole crate."""
    status, said, goals, _ = check(crate, uses, [(body, 0)], kept)
    if status == 0:
        return Verdict("NOT REFUSED: the crate is still proved", False)
    if re.search(r"\berror\[[\w-]+\]", said):
        return Verdict("NOT READ: it doesn't compile", False)
    if goal := refusal(crate, body, goals):
        return Verdict(f"refused: {goal[:150]}", True)
    names = ", ".join(sorted({it.name for it in goals}))
    return Verdict(f"NOT REFUSED AT ITS CLAUSE, but at {names or 'no goal'}", False)


def try_each_alone(crate, uses, bodies):
    """Tries wrong bodies of a crate one by one, over what was kept of its own check; returns their verdicts by their names."""
    with tempfile.TemporaryDirectory() as kept:
        if (built := folder_of(crate) / "out/incremental").is_dir():
            shutil.copytree(built, kept, dirs_exist_ok=True)
        return {it.name: try_alone(crate, uses, it, kept) for it in bodies}


def try_bodies(crate, uses, bodies):
    """Tries the wrong bodies of a crate; returns their verdicts by their names."""
    told, left, copies = {}, list(bodies), True
    while together := for_one_check(crate, left, copies):
        _, _, goals, functions = check(crate, uses, together)
        found = {body.name: refusal(crate, body, goals, functions[body]) for body, _ in together}
        told.update({name: Verdict(f"refused: {goal[:150]}", True) for name, goal in found.items() if goal})
        left = [it for it in left if it.name not in told]
        if not any(found.values()) and not copies:
            break
        copies = False
    return {**told, **(try_each_alone(crate, uses, left) if left else {})}


def copies_of(crate, bodies):
    """Returns the functions of which bodies are tried in copies, each as an edit that edits nothing."""
    edited = dict.fromkeys(it for body in bodies if len(body.functions) == 1 for it in body.functions if it)
    return [WrongBody(it.name, (), frozenset([it])) for it in edited if copied_impl(crate, it) is not None]


def try_copies(crate, uses, bodies):
    """Tries the copies of functions in which wrong bodies are judged as they stand, so that none is refused for a reason of
    its own; returns their verdicts by the names of the functions."""
    copies = copies_of(crate, bodies)
    if not copies:
        return {}
    _, said, goals, functions = check(crate, uses, [(it, 1) for it in copies])
    told = {}
    for it in copies:
        (copy,) = functions[it]
        line = re.search(rf"^fn {crate}::{copy.name}: (.*)", said, re.M)
        is_proved = line and re.match("no holes|depends on a hole", line[1]) and not any(is_at(goal, copy) for goal in goals)
        why = line[1][:150] if line else "not tried"
        told[it.name] = Verdict("proved", True) if is_proved else Verdict(f"NOT PROVED: {why}", False)
    return told
