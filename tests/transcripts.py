"""Scripts with what is printed of them, as the files of crates/script_runs/data have them (its src/cases.rt and
src/transcript.rt say how they are written): the one reader and writer of these files."""
from typing import NamedTuple

from harness import DATA
from proposals import DESCRIPTORS, OF_OPERATORS

# The words behind a section whose scripts answer so with custom descriptors alone.
WITH_DESCRIPTORS = f"with {DESCRIPTORS}"
# What is said of a bad line before its number.
BAD_LINE = "bad script: line "


class Line(NamedTuple):
    """A line of a script, and what is printed there, if anything."""

    written: str
    answer: str = ""

    @property
    def word(self):
        """Its first word."""
        return next(iter(self.written.split()), "")


class Script(NamedTuple):
    """A script with what it comes to; some answer so with custom descriptors alone."""

    lines: tuple
    verdict: str
    is_exact: bool = False

    @property
    def is_bad(self):
        return self.verdict.startswith("bad script")

    @property
    def answers(self):
        return [line.answer for line in self.lines if line.answer]

    @property
    def printed(self):
        return "".join(f"{line}\n" for line in [*self.answers, *([] if self.is_bad else [self.verdict])])

    @property
    def text(self):
        return "".join(f"{line.written}\n" for line in self.lines)

    def has_line(self, word):
        return any(line.word == word for line in self.lines)


class Section(NamedTuple):
    """A section of a file of cases, with the first lines of its scripts, the flag that these leave out if they leave one
    out, and the scripts that it has, or none where its lines aren't scripts."""

    head: str
    title: str
    text: str = ""
    scripts: tuple = ()
    without: str = ""

    @property
    def count(self):
        """How many scripts the program counts here."""
        if self.title in ("given", "left"):
            return sum(bool(line) for line in lines_of(self.text))
        return len(self.scripts) or 1


def lines_of(text):
    """The lines of a text, which end at a line feed alone."""
    return text.removesuffix("\n").split("\n") if text else []


def all_but(flag):
    """The lines that turn every proposal on but this one."""
    return "".join(f"feature {name}\n" for name in OF_OPERATORS if name != flag)


def sections_of(text):
    """Yields the title and the text of each section of a file, but for comments."""
    for section in text.lstrip().removeprefix("@").split("\n@"):
        title, _, body = section.partition("\n")
        if not title.startswith("#"):
            yield title, body


def parts_of(line):
    """What a line of a transcript has before its arrow and behind it."""
    written, arrow, answer = line.partition("=>")
    return Line(written.rstrip(" ") if arrow else written, answer.strip())


def read_transcript(head, transcript, is_exact):
    """Yields the scripts of a transcript behind these first lines."""
    first = [Line(line) for line in lines_of(head)]
    lines = list(first)
    for line in map(parts_of, lines_of(transcript)):
        if line.answer and not line.written:
            yield Script(tuple(lines), line.answer, is_exact)
            lines = list(first)
        elif line.written:
            lines.append(line)
    if lines != first:
        raise ValueError(f"a script without a verdict: {lines}")


def fill(text, row):
    """A text with this row in place of each `$0`, its words in place of `$1`, `$2` and so on, and what it has behind an
    arrow in place of `$text`."""
    row, _, behind = row.partition(" => ")
    text = text.replace("$text", behind).replace("$0", row)
    for number, word in enumerate(row.split(), 1):
        text = text.replace(f"${number}", word)
    return text


def bad_lines(head, lines):
    """Yields the scripts that each of these lines makes behind these first ones, before an `end`: it is a bad line."""
    first = [Line(line) for line in lines_of(head)]
    for line in filter(None, lines_of(lines)):
        yield Script((*first, Line(line), Line("end")), f"{BAD_LINE}{len(first) + 1}")


def read_section(head, rows, title, text):
    """The scripts of a section."""
    kind, _, words = title.partition(" ")
    is_exact = words == WITH_DESCRIPTORS
    if kind == "scripts":
        return read_transcript(head, text, is_exact)
    if kind == "each":
        return (it for row in filter(None, lines_of(rows)) for it in read_transcript(head, fill(text, row), is_exact))
    if kind == "bad":
        return bad_lines(head, text)
    if kind in ("given", "left", "undone", "paired", "wanting"):
        return ()
    raise ValueError(f"{title} begins no section")


def read_cases(text):
    """Yields the sections of a file of cases that are run."""
    head = rows = without = ""
    for title, body in sections_of(text):
        kind, _, words = title.partition(" ")
        if kind in ("head", "without"):
            without = words if kind == "without" else ""
            head = (all_but(words) if without else "") + (f"{body}\n" if body else "")
        elif kind == "rows":
            rows = body
        else:
            yield Section(head, title, body, tuple(read_section(head, rows, title, body)), without)


def read_script(text, expected, is_exact):
    """A script that is a file and accepted, with what it prints: at each of its last lines, comments aside."""
    lines, (*answers, verdict) = lines_of(text), lines_of(expected)
    operators = [place for place, line in enumerate(lines) if line.strip() and not line.lstrip().startswith("#")]
    printed = dict(zip(operators[-len(answers) :], answers, strict=True))
    return Script(tuple(Line(line, printed.get(place, "")) for place, line in enumerate(lines)), verdict, is_exact)


def read_data(line):
    """Returns the name and the sections of a file of data/ that a line of the input of script_runs names."""
    file, _, words = line.partition(" ")
    name, _, kind = file.rpartition(".")
    text = (DATA / file).read_text()
    if kind == "cases":
        return name, list(read_cases(text))
    script = read_script(text, (DATA / f"{name}.expected").read_text(), words == WITH_DESCRIPTORS)
    return name, [Section("", "scripts", scripts=(script,))]


def written(scripts, title="scripts"):
    """A section of these scripts. A comment stands for each blank line, which a transcript can't have."""
    text = [f"@{title}\n"]
    for script in scripts:
        for line in script.lines:
            line = line if line.written.strip() else Line("#", line.answer)
            said = f"{line.written} => {line.answer}" if line.answer else line.written
            if parts_of(said) != line or said.startswith("@"):
                raise ValueError(f"no line of a transcript: {line}")
            text.append(f"{said}\n")
        text.append(f"=> {script.verdict}\n\n")
    return "".join(text)
