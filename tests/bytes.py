#!/usr/bin/env -S python3 -B
"""Runs the program opcheck over scripts that no line of a file of cases can hold, with other ends of lines, with bytes that
are no text, and long ones, and compares both outputs and the status."""
import sys

import scripts
from harness import Tally, program_of, run

CLOSED = 0, "ok 0 0\naccepted\n", ""
NO_I32 = 1, "refused 6: type mismatch: expected i32 but nothing on stack\nrefused\n", ""


def bad_at(line):
    return 2, "", f"bad script: line {line}\n"


NO_TEXT = 2, "", "bad script: input\n"

# A line ends at `\n` or `\r\n`, and the last one needs no end. Blank lines and comments count, and are skipped. What
# is no text is bad before any line is.
SCRIPTS = [
    (b"type func ->\nfunc 0\nend", CLOSED),
    (b"type func ->\r\nfunc 0\r\nend\r\n", CLOSED),
    (b"# a comment\ntype func ->\n\n   \nfunc 0\n#nop\n# \xc3\xa9\nend\n\n", CLOSED),
    (b"  type   func  ->  \n func   0 \n  end ", CLOSED),
    (b"type func ->\nfunc 0\nnop\r", bad_at(3)),
    (b"type func ->\nfunc 0\nnop\r\r\n", bad_at(3)),
    (b"type func ->\nfunc 0\nnop\rnop\n", bad_at(3)),
    (b"type func ->\nfunc 0\nwombat", bad_at(3)),
    (b"type func shared -> \nfunc 0\nend", bad_at(1)),
    (b"# a comment\n\n", bad_at(3)),
    (b"# a comment\n\n  \r\nwombat", bad_at(4)),
    (b"type func ->\n\n# a comment\nfunc 0\n \ni32.add", NO_I32),
    (b"type func ->\n\nexpr i64\ni64.const 5\nend", (0, "ok 1 1\nok 1 0\naccepted\n", "")),
    (b"wombat\n\xff", NO_TEXT),
    (b"type func ->\nfunc 0\nend\n# \xc3(", NO_TEXT),
]


def accepted(heights):
    """What is printed where all is accepted, with these heights of operands and frames."""
    return 0, "".join(f"ok {operands} {frames}\n" for operands, frames in heights) + "accepted\n", ""


def many_elements(count):
    """An array that is made of so many operands."""
    head = ["type func ->", "type array i8", "func 0"]
    script = scripts.text(head, ["i32.const"] * count, [f"array.new_fixed 1 {count}", "drop", "end"])
    return script, accepted([*((height, 1) for height in range(1, count + 1)), (1, 1), (0, 1), (0, 0)])


def nested_blocks(count):
    """So many blocks, each within the one before it: no call goes as deep as they nest."""
    frames = [*range(2, count + 2), *reversed(range(count + 1))]
    return scripts.nested_blocks(count), accepted((0, height) for height in frames)


def nested_else(count):
    """So many `if`s, each within the first part of the one before it, and each with its `else`."""
    opened = [it for height in range(1, count + 1) for it in ((1, height), (0, height + 1))]
    closed = [it for height in range(count, 0, -1) for it in ((0, height + 1), (0, height))]
    return scripts.nested_else(count), accepted([*opened, *closed, (0, 0)])


def one_else_more(count):
    """The same with an `else` behind them, which stands in no `if`."""
    return scripts.nested_else(count).removesuffix(b"end\n") + b"else\nend\n", (2, "", "bad script: order\n")


def main():
    program, tally = program_of("opcheck"), Tally()
    # Of 65,536 open parts it is noted which may have an `else`; of more it is looked up.
    long = [many_elements(1_000), nested_blocks(100_000), nested_else(80_000), one_else_more(80_000)]
    for script, wanted in [*SCRIPTS, *long]:
        tally.same(f"{script[:200]!r}", run([program], script), wanted)
    print(f"{tally.count} scripts that no file has, {tally.wrong} wrong")
    return tally.wrong > 0


sys.exit(main())
