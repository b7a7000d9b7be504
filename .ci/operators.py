"""The table of operators, `operators.tsv`, and its reader. A line is one operator, in the order of the visits, and tabs
part its cells. The first line names the columns:

- word: how a script calls it
- visit: the name of its visit, without `visit_`
- immediates: what the visit takes, in that order, each with its type
- value: the `Op` that it is, with the immediates by their names
- code: in hexadecimal; one behind a prefix has the prefix above it, as 0xfb0f
- form: what follows the code, a variant of `Form` of binary_operators
- gate: what has to be on, a variant of `Gate` of validate_types
- doc: the comment of the visit, which begins with the standard's name of the operator. A `\\n` breaks its line; one
  without any is wrapped"""
import re
from pathlib import Path
from typing import NamedTuple

from rust import Value, read_value

ROOT = Path(__file__).resolve().parent.parent
TABLE = ROOT / "operators.tsv"
COLUMNS = ("word", "visit", "immediates", "value", "code", "form", "gate", "doc")
# What stands before a code, or 0 where it is one byte alone.
PREFIXES = (0, 0xfb, 0xfc, 0xfe)


class Wrong(Exception):
    """What isn't right, in the table or where its words are to stand."""


class Operator(NamedTuple):
    """A line of the table."""

    word: str
    visit: str
    immediates: dict
    value: Value
    code: int
    form: str
    gate: str
    doc: str

    @property
    def name(self):
        """What the standard calls it."""
        return re.match(r"`([^ `]+)", self.doc)[1]

    @property
    def group(self):
        """The variant of `Op` that it is."""
        return self.value.variant

    @property
    def op(self):
        """What that variant has: the operator within its group."""
        return self.value.parts[0]

    @property
    def types(self):
        """The types of its immediates."""
        return list(self.immediates.values())

    @property
    def alignment(self):
        """The natural alignment of what it accesses, as an exponent of 2: of the bits that it names last, or of 32."""
        bits = int(["32", *re.findall(r"\d+", str(self.value))][-1])
        return (bits // 8).bit_length() - 1


def operator(line):
    """Reads a line of the table."""
    cells = line.split("\t")
    if len(cells) != len(COLUMNS):
        raise ValueError(f"{len(cells)} columns in place of {len(COLUMNS)}")
    word, visit, immediates, value, code, form, gate, doc = cells
    if not re.fullmatch(r"0x(f[bce])?[0-9a-f]{2}", code):
        raise ValueError(f"{code} isn't a code, such as 0x1a or 0xfb0f")
    if not re.match(r"`[^ `]+", doc):
        raise ValueError("the doc doesn't begin with a name")
    if not re.fullmatch(r"Op::\w+\(.*\)", value):
        raise ValueError(f"{value!r} isn't an `Op`")
    pairs = dict(it.split(": ") for it in immediates.split(", ") if it)
    return Operator(word, visit, pairs, read_value(value), int(code, 16), form, gate, doc)


def identities(it):
    """Yields what no other operator may have, with what that is called. A `select` with types has one code, whatever
    their number is."""
    yield "the visit", it.visit
    yield "the value", str(it.value.with_names(dict.fromkeys(it.immediates, "_")))
    if it.visit != "typed_select_multi":
        yield "the code", f"{it.code:#04x}"


def read(text=None):
    """Reads the table, or a text like it: its operators, in their order."""
    head, *lines = (TABLE.read_text() if text is None else text).splitlines()
    if tuple(head.split("\t")) != COLUMNS:
        raise Wrong(f"operators.tsv:1: the columns aren't {', '.join(COLUMNS)}")
    operators, seen = [], set()
    for number, line in enumerate(lines, 2):
        try:
            operators.append(operator(line))
        except (ValueError, IndexError) as wrong:
            raise Wrong(f"operators.tsv:{number}: {wrong}") from wrong
        for what, it in identities(operators[-1]):
            if (what, it) in seen:
                raise Wrong(f"operators.tsv:{number}: {what} {it} is there twice")
            seen.add((what, it))
    return operators


def by_code(operators, prefix):
    """The operators behind a prefix, or without one, by what their codes are there."""
    return {it.code & 0xff: it for it in operators if it.code >> 8 == prefix}


def of_form(operators, form):
    """The operators of a form, by their codes."""
    return sorted((it for it in operators if it.form == form), key=lambda it: it.code)


def ranges(codes):
    """Yields codes, and those that follow one another as one text."""
    runs = []
    for code in sorted(codes):
        if runs and runs[-1][-1] == code - 1:
            runs[-1].append(code)
        else:
            runs.append([code])
    for run in runs:
        yield f"{run[0]:#x}" if len(run) == 1 else f"{run[0]:#x} to {run[-1]:#x}"


def free(operators):
    """Yields lines with the codes that no operator has. Behind the prefix 0xfd stand vector operators."""
    for prefix in PREFIXES:
        codes = set(range(0x80 if prefix else 0x100)) - set(by_code(operators, prefix))
        codes -= set() if prefix else {0xfb, 0xfc, 0xfd, 0xfe}
        yield f"{f'behind {prefix:#x}' if prefix else 'of one byte'}: {', '.join(ranges(codes))}"
