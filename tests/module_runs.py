"""What the program wasmcheck is run over, and what comes of it: runs in code, and the modules of its data."""
import re
from typing import NamedTuple

import proposals
from harness import EXAMPLES, ROOT
from wasm import FUNCTIONS, GLOBALS, HEADER, MEMORIES, TYPES, module, named, of_bodies

# What is written on standard error where something isn't understood, or isn't there.
NO_LIST, NO_FUNCTION = r"wasmcheck: --features needs a value\n", r"wasmcheck: --trace needs a value\n"
MISSING, FOLDER = r"wasmcheck: missing\.wasm: No such file.*\n", r"wasmcheck: \.: Is a directory.*\n"
NO_MODULE = r"wasmcheck: the input is no binary module: it doesn't begin with \\0asm\n"

SUM = (EXAMPLES / "sum.wasm").read_bytes()
# Functions [] -> []: one that is empty, one that drops nothing, one with a vector operator.
EMPTY, DROPS, VECTOR = "00 0b", "00 1a 0b", "00 fd 4d 1a 0b"
# i32.const 0, i32.extend8_s, drop
EXTENDS = of_bodies("00 41 00 c0 1a 0b")
ACCEPTED, REFUSED, NOT_COVERED = of_bodies(EMPTY), of_bodies(EMPTY, DROPS, VECTOR), of_bodies(VECTOR, EMPTY)
# Two memories; one of them shared, without a maximum; a body that can't be read, behind one that drops nothing.
TWO_MEMORIES, SHARED = module((MEMORIES, "02 00 01 00 01")), module((MEMORIES, "01 02 01"))
UNREAD = of_bodies(DROPS, "00 ff 0b")
VALID, INVALID, MALFORMED, IS_NOT_COVERED = "valid\n", "invalid\n", "malformed\n", "not covered\n"
COUNTS = "{} accepted, {} refused, {} not covered\n"
DROP = "func 1 failed at drop, offset 0x1c: type mismatch: expected a type but nothing on stack\n"
FIRST_DROP = "func 0 failed at drop, offset 0x18: type mismatch: expected a type but nothing on stack\n"
ONLY_DROP = FIRST_DROP.replace("0x18", "0x17")
DROP_IN = 'func 0 "{}" failed at drop, offset 0x{:x}: type mismatch: expected a type but nothing on stack\n'
VECTOR_BEHIND = "func 2: not covered: a vector operator at offset 0x20\n"
VECTOR_FIRST = "func 0: not covered: a vector operator at offset 0x18\n"
NO_EXTENSION = "func 0 failed at i32.extend8_s, offset 0x19: sign extension operations support is not enabled\n"
NO_MAGIC, TEXT = "module failed at offset 0x0: magic header not detected\n", b"(module)\n"
NO_MAXIMUM = "module failed at offset 0xb: shared memory must have maximum size\n"

# Names of files: one that isn't UTF-8, one that a terminal would take for a command.
UNNAMED, ODD = b"a\xffb.wasm", "a\n\x1b[31m'\\é.wasm".encode()
# A function [i64] -> [] in whose blocks an i64 meets an i32, and the same with a name: the example of docs/MODULES.md.
PARSE = module((TYPES, "01 60 01 7e 00"), (FUNCTIONS, "01 00"),
               bodies=["00 02 40 03 40 20 00 50 04 40 20 00 41 01 6a 1a 0b 0b 0b 0b"])
NAMED_PARSE = PARSE + named(0, "parse")


def of_a_name(name):
    """A module of one body, that drops nothing, of a function of this name."""
    return of_bodies(DROPS) + named(0, name)


def no_proposal(name, nearest):
    """What is said of a name that no proposal has: it, and the one that it is nearest to."""
    return re.escape(f"wasmcheck: unknown proposal {name}: did you mean {nearest}? (--help lists all)\n")


def no_option(word):
    return re.escape(f"wasmcheck: unknown option {word} (--help lists all)\n")


def example():
    """The example of a refusal that is explained, as docs/MODULES.md has it."""
    page = (ROOT / "docs/MODULES.md").read_text()
    return re.sub("^    ", "", re.search(r'^    func 0 "parse" failed.*?^    invalid\n', page, re.M | re.S)[0], flags=re.M)


# A name, the words, standard input, the status, standard output, and a pattern of standard error, where something is
# written there.
RUNS = [
    ("the page's example", "--explain", NAMED_PARSE, 1, example()),
    ("a function traced by its name", "--trace parse", NAMED_PARSE, 1,
     re.sub("^  (operand|in) .*\n", "", example(), flags=re.M)),
    ("of two files, each line begins with its own", "--explain - ./-v.wasm", NAMED_PARSE, 1,
     re.sub("^", "-: ", example().removesuffix("\n"), flags=re.M) + "\n"),
    ("a refusal that is explained, the status", "-q --explain", NAMED_PARSE, 1, ""),
    ("accepted", "", ACCEPTED, 0, VALID),
    ("accepted, each", "-v", ACCEPTED, 0, "func 0: accepted\n" + COUNTS.format(1, 0, 0) + VALID),
    ("accepted, by a name", "--verbose", SUM, 0, 'func 0 "sum": accepted\n' + COUNTS.format(1, 0, 0) + VALID),
    ("accepted, the status", "-q", ACCEPTED, 0, ""),
    ("an empty module", "", HEADER, 0, VALID),
    ("an empty module, each", "-v", HEADER, 0, COUNTS.format(0, 0, 0) + VALID),
    ("refused", "", REFUSED, 1, DROP + VECTOR_BEHIND + INVALID),
    ("refused, each", "-v", REFUSED, 1, "func 0: accepted\n" + DROP + VECTOR_BEHIND + COUNTS.format(1, 1, 1) + INVALID),
    ("refused, the status", "--quiet", REFUSED, 1, ""),
    ("refused, the status, not each", "-vq", REFUSED, 1, ""),
    ("the same words in another order", "-q -v", REFUSED, 1, ""),
    ("not covered", "", NOT_COVERED, 4, VECTOR_FIRST + IS_NOT_COVERED),
    ("not covered, the status", "-q", NOT_COVERED, 4, ""),
    ("a body that can't be read", "", UNREAD, 2, FIRST_DROP + "func 1 failed at offset 0x1c: illegal opcode: 0xff\n" + MALFORMED),
    ("declarations", "", SHARED, 1, NO_MAXIMUM + INVALID),
    ("declarations, each", "-v", SHARED, 1, NO_MAXIMUM + INVALID),
    ("declarations, the status", "-q", SHARED, 1, ""),
    ("standard input by name", "-", ACCEPTED, 0, VALID),
    ("a file", "refused.wasm", b"", 1, DROP + VECTOR_BEHIND + INVALID),
    ("a file behind all options", "-v -- -v.wasm", b"", 0, "func 0: accepted\n" + COUNTS.format(1, 0, 0) + VALID),
    ("standard input behind all options", "-- -", ACCEPTED, 0, VALID),
    ("two files", "refused.wasm -", ACCEPTED, 1,
     "".join(f"refused.wasm: {line}" for line in (DROP, VECTOR_BEHIND, INVALID))),
    ("two files, of which one is valid", "-- -v.wasm shared.wasm", b"", 1,
     f"shared.wasm: {NO_MAXIMUM}shared.wasm: invalid\n"),
    ("two files, each", "-v -- -v.wasm shared.wasm", b"", 1,
     "".join(f"-v.wasm: {line}" for line in ("func 0: accepted\n", COUNTS.format(1, 0, 0), VALID))
     + f"shared.wasm: {NO_MAXIMUM}shared.wasm: invalid\n"),
    ("two valid files", "- ./-v.wasm", ACCEPTED, 0, ""),
    ("several files, the status", "-q - refused.wasm text.wasm", ACCEPTED, 2, ""),
    ("the same in another order", "text.wasm refused.wasm -q -", ACCEPTED, 2, ""),
    ("two files, one of which isn't there", "missing.wasm text.wasm", b"", 5,
     f"missing.wasm: unreadable\ntext.wasm: {NO_MAGIC}text.wasm: malformed\n", MISSING + NO_MODULE.replace("the input", "text\\.wasm: the input")),
    ("a file that isn't there", "missing.wasm", ACCEPTED, 5, "unreadable\n", MISSING),
    ("a file that isn't there, the status", "-q missing.wasm", ACCEPTED, 5, "", MISSING),
    ("a folder", ".", ACCEPTED, 5, "unreadable\n", FOLDER),
    ("nothing", "", b"", 2, "module failed at offset 0x0: unexpected end\n" + MALFORMED, r"wasmcheck: the input is empty\n"),
    ("a text", "", TEXT, 2, NO_MAGIC + MALFORMED, NO_MODULE),
    ("a text, the status", "-q", TEXT, 2, ""),
    ("half a header", "", HEADER[:3], 2, "module failed at offset 0x0: unexpected end\n" + MALFORMED, NO_MODULE),
    ("cut in its code", "", SUM[:60], 2, "module failed at offset 0x1f: unexpected end\n" + MALFORMED),
    ("cut behind a section", "", SUM[:16], 0, VALID),
    ("a version that isn't known", "", b"\0asm\2\0\0\0", 2,
     "module failed at offset 0x4: unknown binary version (or a component)\n" + MALFORMED),
    ("all proposals", "--features all", EXTENDS, 0, VALID),
    ("one proposal", "--features sign_extension", EXTENDS, 0, VALID),
    ("another proposal", "--features none,tail_call,gc", EXTENDS, 1, NO_EXTENSION + INVALID),
    ("one more proposal", "--features custom_page_sizes", EXTENDS, 0, VALID),
    ("a name with a -", "--features none,sign-extension", EXTENDS, 0, VALID),
    ("a name with a - off", "--features -sign-extension", EXTENDS, 1, NO_EXTENSION + INVALID),
    ("a short option", "-f -sign_extension", EXTENDS, 1, NO_EXTENSION + INVALID),
    ("a short option with its list", "-f-sign_extension", EXTENDS, 1, NO_EXTENSION + INVALID),
    ("short options joined, the last with its list", "-qf=-sign_extension", EXTENDS, 1, ""),
    ("a list that goes on from another", "-f none -f sign_extension", EXTENDS, 0, VALID),
    ("a list with spaces, and with nothing between commas", ["-f", " none,, sign-extension "], EXTENDS, 0, VALID),
    ("a set in the place of what stands before it", "-f sign_extension,mvp", EXTENDS, 1, NO_EXTENSION + INVALID),
    ("version 1", "-f wasm1", EXTENDS, 1, NO_EXTENSION + INVALID),
    ("version 2", "-f wasm2", EXTENDS, 0, VALID),
    ("version 2 has no second memory", "-f wasm2", TWO_MEMORIES, 1, "module failed at offset 0xd: multiple memories\n" + INVALID),
    ("version 3", "-f wasm3", TWO_MEMORIES, 0, VALID),
    ("all off", "-f -all", EXTENDS, 1, NO_EXTENSION + INVALID),
    ("no proposal", "--features none", EXTENDS, 1, NO_EXTENSION + INVALID),
    ("a proposal off", "--features -sign_extension", EXTENDS, 1, NO_EXTENSION + INVALID),
    ("off and on", "--features -sign_extension,sign_extension", EXTENDS, 0, VALID),
    ("all but one", "--features all,-sign_extension", EXTENDS, 1, NO_EXTENSION + INVALID),
    ("a proposal of declarations", "--features multi_memory", TWO_MEMORIES, 0, VALID),
    ("the same off", "--features -multi_memory", TWO_MEMORIES, 1, "module failed at offset 0xd: multiple memories\n" + INVALID),
    ("upstream's proposals", "--features default", TWO_MEMORIES, 0, VALID),
    ("upstream's but one", "--features default,-multi_memory", TWO_MEMORIES, 1, "module failed at offset 0xd: multiple memories\n" + INVALID),
    ("no more than upstream's, where nothing is said", "", module((MEMORIES, "01 08 01 00")), 1,
     "module failed at offset 0xb: the custom page sizes proposal must be enabled to customize a memory's page size\n" + INVALID),
    ("a list in the same word", "--features=all,-sign_extension", EXTENDS, 1, NO_EXTENSION + INVALID),
    ("an unknown proposal", "--features signextension", ACCEPTED, 2, "", no_proposal("signextension", "sign_extension")),
    ("an unknown proposal in capitals", "-f GC", ACCEPTED, 2, "", no_proposal("GC", "gc")),
    ("an unknown proposal among others", "--features=gc,-simd,gcc", ACCEPTED, 2, "", no_proposal("gcc", "gc")),
    ("an unknown proposal off", "--features -threds", ACCEPTED, 2, "", no_proposal("threds", "threads")),
    ("an unknown set", "--features wasm33", ACCEPTED, 2, "", no_proposal("wasm33", "wasm3")),
    ("a list that isn't UTF-8", [b"-f", b"\xff"], ACCEPTED, 2, "", re.escape("wasmcheck: unknown proposal \\xff (--help lists all)\n")),
    ("an empty list of proposals", "--features=", ACCEPTED, 2, "", NO_LIST),
    ("no list of proposals behind a letter", "-vf", ACCEPTED, 2, "", NO_LIST),
    ("no list of proposals", "--features", ACCEPTED, 2, "", NO_LIST),
    ("an unknown word", "--all", ACCEPTED, 2, "", no_option("--all")),
    ("an unknown word behind files", "refused.wasm --al", ACCEPTED, 2, "", no_option("--al")),
    ("an unknown letter", "-vx", ACCEPTED, 2, "", no_option("-vx")),
    ("an unknown word that isn't UTF-8", [b"--\xff\x1b"], ACCEPTED, 2, "", no_option("--\\xff\\u{1b}")),
    ("no function to trace", "--trace", ACCEPTED, 2, "", NO_FUNCTION),
    ("a function that isn't there", "--trace=2", ACCEPTED, 2, VALID, r"wasmcheck: --trace: no function with a body is 2\n"),
    ("a name that no function has", "-q --trace sun", SUM, 2, "", r"wasmcheck: --trace: no function with a body is sun\n"),
    ("a label that isn't there", "", of_bodies("00 0c 07 0b"), 1,
     "func 0 failed at br, offset 0x17: unknown label: branch depth too large (7)\n" + INVALID),
    ("of several labels the greatest", "", of_bodies("00 41 00 0e 01 09 08 0b"), 1,
     "func 0 failed at br_table, offset 0x19: unknown label: branch depth too large (9)\n" + INVALID),
    # Files whose names aren't UTF-8, or have control characters; the others are checked.
    ("names of any bytes", ["-v", UNNAMED, ODD, "./-v.wasm"], b"", 5,
     "a\\xffb.wasm: unreadable\n" + "".join(f"a\\n\\u{{1b}}[31m'\\é.wasm: {line}" for line in (ONLY_DROP, COUNTS.format(0, 1, 0), INVALID))
     + "".join(f"./-v.wasm: {line}" for line in ("func 0: accepted\n", COUNTS.format(1, 0, 0), VALID)),
     r"wasmcheck: a\\xffb\.wasm: a file whose name isn't UTF-8 can only be read from standard input\n"),
    ("a long name of a file", ["n" * 300], b"", 5, "unreadable\n", f"wasmcheck: {'n' * 200}\\.\\.\\.: File name too long.*\n"),
    ("a name of 200 letters", ["n" * 200], b"", 5, "unreadable\n", f"wasmcheck: {'n' * 200}: No such file.*\n"),
    ("a long name of a function", "", of_a_name("ñ" * 300), 1, DROP_IN.format("ñ" * 200 + "...", 0x17) + INVALID),
    ("an odd name of a function", "", of_a_name('"\n\\'), 1, DROP_IN.format('\\"\\n\\\\', 0x17) + INVALID),
]

REFUSAL = {"verdict": "invalid", "operator": "drop", "text": "type mismatch: expected a type but nothing on stack"}
FIRST, SECOND, THIRD = ({"item": "func", "index": index} for index in range(3))
UNCOVERED = {"verdict": "not covered", "offset": 0x20}
# What a string escapes (RFC 8259, "Strings"), and what it doesn't.
ESCAPED = '"\\/\b\f\n\r\t\x00\x01\x1f\x7f\u2028é𝄞'


def operator(offset, name, *operands, **more):
    """An operator that is listed, with the operands behind it."""
    return {"offset": offset, "operator": name, "height": len(operands), "operands": [*operands], **more}


def frame(name, offset, operands, params=()):
    """An open block that gives nothing, with so many operands."""
    return {"operator": name, "offset": offset, "params": [*params], "results": [], "operands": operands}


TALLY = {"equal_types": 0, "accepted": 0, "refused": 0, "not_covered": 0, "out_of_memory": 0}

# A name, the words beside --json, standard input, the status, and the objects that are printed, without the file.
JSON_RUNS = [
    ("accepted", "", ACCEPTED, 0, [{"verdict": "valid"}]),
    ("accepted, each", "-v", SUM, 0,
     [{**FIRST, "name": "sum", "verdict": "valid"}, {"verdict": "valid", **TALLY, "accepted": 1}]),
    ("refused", "", REFUSED, 1, [{**SECOND, **REFUSAL, "offset": 0x1c}, {**THIRD, **UNCOVERED}, {"verdict": "invalid"}]),
    ("refused, each", "-v", REFUSED, 1,
     [{**FIRST, "verdict": "valid"}, {**SECOND, **REFUSAL, "offset": 0x1c}, {**THIRD, **UNCOVERED},
      {"verdict": "invalid", **TALLY, "accepted": 1, "refused": 1, "not_covered": 1}]),
    ("refused, the status", "-q", REFUSED, 1, []),
    ("a body that can't be read", "", UNREAD, 2,
     [{**FIRST, **REFUSAL, "offset": 0x18}, {**SECOND, "verdict": "malformed", "offset": 0x1c, "text": "illegal opcode: 0xff"},
      {"verdict": "malformed"}]),
    ("declarations", "", SHARED, 1,
     [{"item": "module", "verdict": "invalid", "offset": 0xb, "text": "shared memory must have maximum size"}, {"verdict": "invalid"}]),
    # A global of i32 that begins with a `nop`.
    ("a constant expression", "", module((GLOBALS, "01 7f 00 01 41 00 0b")), 1,
     [{"item": "global init", "index": 0, "verdict": "invalid", "operator": "nop", "offset": 0xd,
       "text": "constant expression required: non-constant operator: visit_nop"}, {"verdict": "invalid"}]),
    ("a label that isn't there", "", of_bodies("00 0c 07 0b"), 1,
     [{**FIRST, "verdict": "invalid", "operator": "br", "label": 7, "offset": 0x17, "text": "unknown label: branch depth too large"},
      {"verdict": "invalid"}]),
    ("a refusal of the first operator that is explained", "--explain", of_bodies(DROPS), 1,
     [{**FIRST, **REFUSAL, "offset": 0x17, "stack": [], "frames": [frame("func", 0x16, 0)]}, {"verdict": "invalid"}]),
    ("a refusal that is explained", "--explain", PARSE, 1,
     [{**FIRST, "verdict": "invalid", "operator": "i32.add", "offset": 0x25, "text": "type mismatch: expected i32, found i64",
       "operators": [operator(0x18, "block"), operator(0x1a, "loop"), operator(0x1c, "local.get", "i64", immediates="0"),
                     operator(0x1e, "i64.eqz", "i32"), operator(0x1f, "if"), operator(0x21, "local.get", "i64", immediates="0"),
                     operator(0x23, "i32.const", "i64", "i32", immediates="1")],
       "stack": [{"type": "i64", "operator": "local.get", "offset": 0x21, "fits": False, "expected": "i32"},
                 {"type": "i32", "operator": "i32.const", "offset": 0x23}],
       "frames": [frame("if", 0x1f, 2), frame("loop", 0x1a, 0), frame("block", 0x18, 0), frame("func", 0x17, 0, params=["i64"])]},
      {"verdict": "invalid"}]),
    ("a function that is traced", "--trace=0", ACCEPTED, 0, [{**FIRST, "verdict": "valid", "operators": [operator(0x17, "end")]}, {"verdict": "valid"}]),
    ("a name that is escaped", "", of_a_name(ESCAPED), 1, [{**FIRST, "name": ESCAPED, **REFUSAL, "offset": 0x17}, {"verdict": "invalid"}]),
]

HELP = re.compile(r"usage: wasmcheck \[OPTIONS\] \[--\] \[FILE\]\.\.\.\n.*", re.S)
SAID_BY_HELP = ["-q, --quiet", "-v, --verbose", "--explain", "--trace FUNC", "--json", "-f, --features LIST", "-h, --help", "-V, --version",
                "--  ", "Status", "all; none; default", "mvp, wasm2", "wasm3", *proposals.NAMES]


class Case(NamedTuple):
    """A module of wasmcheck's data: its name, its bytes by the sections that they are cut into, the words that it is run
    with, and what is printed."""

    name: str
    sections: list
    words: list
    printed: str

    @property
    def bytes(self):
        return b"".join(self.sections)


def cases():
    """Yields the modules of wasmcheck's data.

    A line `case NAME` begins one. A line `features LIST` says which proposals are on, where not the default ones are, and a
    line `options WORDS` has other words. The lines behind it have its bytes, two hexadecimal digits each, up to a `;`: a line
    for the header, which may be left out, and one for each section. Behind a line `gives` stands what is printed. Empty
    lines, and those that begin with a `#`, say nothing."""
    for path in sorted((ROOT / "crates/wasmcheck/data").glob("*.modules")):
        kept = re.sub(r"^(#.*)?\n", "", path.read_text(), flags=re.M)
        for text in re.split(r"^case ", kept, flags=re.M)[1:]:
            name, _, rest = text.partition("\n")
            given, _, printed = rest.partition("gives\n")
            lines, words = given.splitlines(), ["-v"]
            while lines[0].startswith(("features ", "options ")):
                kind, _, said = lines.pop(0).partition(" ")
                words += ["--features", said] if kind == "features" else said.split()
            sections = [bytes.fromhex(line.split(";")[0]) for line in lines]
            if not sections or len(sections[0]) < 4 or sections[0][1:3] != b"as":
                sections.insert(0, HEADER)
            yield Case(f"{path.stem}: {name}", sections, words, printed)
