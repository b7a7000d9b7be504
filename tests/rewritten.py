"""Scripts that say otherwise what they say: with each operator attempted that may be, with the indices of types doubled,
showing the types of operands, and behind lines that turn proposals on."""
import re

from proposals import DESCRIPTORS
from transcripts import BAD_LINE, Line, Script, all_but, lines_of

# The first words of lines that are no operators, and the operators that can't be attempted.
PLAIN = """feature show type fn table memory global tag elem data func expr local
    block loop if else end try_table legacy_try catch catch_all delegate try""".split()
# The greatest index that a type may name.
LAST_NAMED = 1_048_575
LAST_INDEX = 2**32 - 1
# What a word has before the index of a type.
INDEXED = re.compile(r"((?:ref|refnull):(?:exact-)?|exact-|array=)(\d+)")
# The lines and operators, but those on structs and arrays, whose first immediate may be the index of a type, and those
# with another one behind it.
FIRST = """func block loop if legacy_try try_table call_indirect return_call_indirect call_ref return_call_ref ref.null
    ref.get_desc cont.new cont.bind switch resume resume_throw resume_throw_ref""".split()
SECOND = ["array.copy", "cont.bind"]


def may_be_attempted(line):
    return bool(line.word) and not line.word.startswith("#") and line.word not in PLAIN


def last_place(script):
    """The place of the line whose refusal ends the run, or None where none does."""
    found = re.match(r"refused (\d+):", next(reversed(script.answers), ""))
    return int(found[1]) - 1 if found and script.verdict == "refused" else None


def attempted(script):
    """The script with each operator attempted that may be. Where the refusal that ended its run is taken back so, a `nop`
    ends it, at which the heights are those before."""
    lines = [Line(f"try {it.written}", it.answer) if may_be_attempted(it) else it for it in script.lines]
    last = last_place(script)
    if last is None or not may_be_attempted(script.lines[last]):
        return script._replace(lines=tuple(lines))
    before = [it for it in script.answers if it.startswith("ok ")] or ["ok 0 1" + " []" * script.has_line("show")]
    return script._replace(lines=(*lines[: last + 1], Line("nop", before[-1])), verdict="open")


def is_type_index(name, place):
    """Whether a word of this line is the index of a type, where it is a number: the words are counted from the name."""
    if name.startswith(("struct.", "array.")):
        return place == (2 if ".atomic." in name else 1) or (place == 2 and name in SECOND)
    return (place == 1 and name in FIRST) or (place == 2 and name in SECOND)


def doubled_word(word, is_index):
    if is_index and word.isdecimal() and int(word) <= LAST_INDEX:
        return str(min(2 * int(word), LAST_INDEX))
    found = INDEXED.fullmatch(word)
    if found and int(found[2]) <= LAST_INDEX:
        return f"{found[1]}{min(2 * int(found[2]), LAST_NAMED)}"
    return word


def doubled_line(line):
    words = line.written.split()
    start = int(words[:1] == ["try"])
    name = "".join(words[start : start + 1])
    found = [doubled_word(word, is_type_index(name, place)) for place, word in enumerate(words[start:])]
    return line._replace(written=" ".join([*words[:start], *found]))


def doubled(script):
    """The script with the indices of types in its body doubled: those of its module lines stay."""
    body = next((place for place, line in enumerate(script.lines) if line.word in ("func", "expr")), len(script.lines))
    return script._replace(lines=(*script.lines[:body], *map(doubled_line, script.lines[body:])))


def showing(script):
    """The script, or the one that shows the types of operands too."""
    return script if script.has_line("show") else script._replace(lines=(Line("show"), *script.lines))


def accepted(script):
    """The script without its refused attempts."""
    return script._replace(lines=tuple(it for it in script.lines if not it.answer.startswith("refused ")))


def moved(text, lines):
    """What is printed or said of a script that stands behind so many further lines, where this is of the script alone."""
    return re.sub(rf"^(refused |{BAD_LINE})(\d+)", lambda it: f"{it[1]}{int(it[2]) + lines}", text)


def without_descriptors(script):
    """The script behind lines that turn on every proposal but custom descriptors."""
    features = [Line(line) for line in lines_of(all_but(DESCRIPTORS))]
    lines = [it._replace(answer=moved(it.answer, len(features))) for it in script.lines]
    return Script((*features, *lines), moved(script.verdict, len(features)))


def without_numbers(printed):
    """What is printed, without the numbers in the words of refusals, which stand behind a colon."""
    return re.sub(r"(?<=: )(.*)", lambda it: re.sub(r"(?<!\S)\d\S*", "N", it[1]), printed)
