"""Writes each operator of the tables in crates/script_runs/data/operators out as scripts.

A file has sections. One that begins with a line `@#` is a comment. `@head` has the lines of the module, and `@table`
behind it the operators that stand in it. A line is an operator as a script writes it, a colon, the types that it takes,
an arrow, the types that it gives, and behind a bar the flag of the proposal that it needs, if it needs one. The last
type of each list is on top. Where the head has a `$it`, the table runs once with addresses of 32 bits and once with 64:
`$it` is the mark of those, and `it` their type. `new:N` is a reference to what was allocated of type N: an exact one
with custom descriptors.

Each operator is accepted over what it takes, and in dead code; it is refused without each operand, over another type in
its place, and without the proposal that it needs; and what it gives is refused as another type."""
from harness import DATA
from proposals import DESCRIPTORS, OF_OPERATORS
from transcripts import WITH_DESCRIPTORS, Line, Script, Section, sections_of

# To each type that the tables name an operator that gives one value of it, and another type. Of other references, a
# nullable one is its null, and `externref` is another type.
CONSTANTS = {
    "i32": "i32.const",
    "i64": "i64.const",
    "f32": "f32.const",
    "f64": "f64.const",
    "funcref": "ref.null func",
    "externref": "ref.null extern",
    "exnref": "ref.null exn",
    "eqref": "ref.null eq",
}
OTHERS = {"i32": "i64", "i64": "i32", "f32": "f64", "f64": "f32", "externref": "funcref"}
# How refusals call references, by how the names of those begin.
TEXTS = {
    "refnull:shared-any": "(ref null (shared any))",
    "refnull:shared-eq": "(ref null (shared eq))",
    "ref:i31": "(ref i31)",
    "ref:shared-i31": "(ref (shared i31))",
    "refnull:exact-": "(ref null (exact type))",
    "refnull:": "(ref null (type))",
    "ref:exact-": "(ref (exact type))",
    "ref:": "(ref (type))",
}
# What refusals call proposals, where that isn't the name of the flag.
PROPOSALS = {
    "bulk_memory_opt": "bulk memory",
    "sign_extension": "sign extension operations",
    "saturating_float_to_int": "saturating float to int conversions",
    "shared_everything_threads": "shared-everything-threads",
    "tail_call": "tail calls",
    "custom_descriptors": "custom descriptors operations",
    "acquire_release_atomics": "acquire-release atomics",
}


def refusal_without(flag):
    """How an operator is refused that needs this flag."""
    if flag == "floats":
        return "floating-point instruction disallowed"
    return f"{PROPOSALS.get(flag) or flag.replace('_', ' ')} support is not enabled"


def is_type(word):
    return word in CONSTANTS or word.startswith(("ref:", "refnull:"))


def another(ty):
    """A type that isn't this one."""
    return OTHERS.get(ty, "externref")


def constant_of(ty):
    """The operator that gives one value of this type."""
    return CONSTANTS.get(ty) or ty.replace("refnull:", "ref.null ", 1)


def text_of(ty):
    """How refusals call this type."""
    return next((text for start, text in TEXTS.items() if ty.startswith(start)), ty)


class Draft:
    """A script that is being written: of a body that takes nothing, behind the lines of its module."""

    def __init__(self, module, gives, flags):
        features = [f"feature {flag}" for flag in flags]
        self.lines = [Line(it) for it in [" ".join(["type func ->", *gives]), *features, *module, "func 0"]]
        self.operands = 0

    def add(self, op, operands, frames=1):
        """Adds an operator that is accepted and leaves so many operands and frames."""
        self.lines.append(Line(op, f"ok {operands} {frames}"))
        self.operands = operands
        return self

    def add_constants(self, types):
        for ty in types:
            self.add(constant_of(ty), self.operands + 1)
        return self

    def accepted(self):
        """The script with the `end` of the body, which is accepted."""
        return Script(tuple(self.add("end", self.operands, 0).lines), "accepted")

    def refused(self, op, text):
        """The script with this operator, which is refused in these words."""
        return Script((*self.lines, Line(op, f"refused {len(self.lines) + 1}: {text}")), "refused")


class Row:
    """An operator as a table has it, in a module of these lines, with these proposals on, or all where none is named."""

    def __init__(self, line, module, address, flags):
        rest, _, needs = line.partition("|")
        self.op, _, types = rest.partition(": ")
        takes, arrow, gives = types.partition("->")
        self.takes, self.gives = ([address if it == "it" else it for it in words.split()] for words in (takes, gives))
        self.needs, self.module, self.flags = needs.strip(), module, flags
        wrong = [it for it in self.takes + self.gives if not is_type(it)]
        if not arrow or wrong or (self.needs and self.needs not in OF_OPERATORS):
            raise ValueError(f"{line}: no arrow, no type, or no known proposal")

    def draft(self, operands):
        """A body that gives what the operator gives, with these operands."""
        return Draft(self.module, self.gives, self.flags).add_constants(operands)

    def dead(self, gives, flags=None):
        """A body in dead code."""
        return Draft(self.module, gives, flags or self.flags).add("unreachable", 0)

    def taken(self, draft):
        """The draft behind the operator, which is accepted."""
        return draft.add(self.op, len(self.gives))

    def missing(self, place):
        """Without the operand at this place, those above being there, it is refused."""
        text = f"type mismatch: expected {text_of(self.takes[place])} but nothing on stack"
        return self.draft(self.takes[place + 1 :]).refused(self.op, text)

    def mismatched(self, place):
        """Over another type at this place it is refused."""
        types, text = exchanged(self.takes, place)
        return self.draft(types).refused(self.op, "type mismatch: expected {0}, found {1}".format(*text))

    def known(self, place):
        """What it gives at this place is of its type: the end of a body that is to give another one there is refused."""
        types, text = exchanged(self.gives, place)
        return self.taken(self.dead(types)).refused("end", "type mismatch: expected {1}, found {0}".format(*text))

    def gated(self):
        """Under its proposal alone it is accepted; without it, whatever else is on, it is refused."""
        yield self.taken(self.dead(self.gives, [self.needs or "none"])).accepted()
        if self.needs:
            for flags in ["none"], [flag for flag in OF_OPERATORS if flag != self.needs]:
                yield self.dead(self.gives, flags).refused(self.op, refusal_without(self.needs))

    def scripts(self, is_gated):
        yield self.taken(self.draft(self.takes)).accepted()
        yield self.taken(self.dead(self.gives)).accepted()
        for place in range(len(self.takes)):
            yield self.missing(place)
            yield self.mismatched(place)
        for place in range(len(self.gives)):
            yield self.known(place)
        if is_gated:
            yield from self.gated()


def exchanged(types, place):
    """These types with another one at a place, and how refusals call the type there and that one."""
    other = another(types[place])
    return [*types[:place], other, *types[place + 1 :]], (text_of(types[place]), other)


def forms_of(line):
    """Yields a line as it is read with custom descriptors and without them, whether it is so with them alone, and the
    flags that are named for it."""
    needs = line.partition("|")[2].strip() == DESCRIPTORS
    if not needs and "new:" not in line:
        yield line, False, []
        return
    yield line.replace("new:", "ref:exact-"), True, []
    if not needs:
        yield line.replace("new:", "ref:"), False, [flag for flag in OF_OPERATORS if flag != DESCRIPTORS]


def sections_of_table(head, lines):
    """Yields the sections of scripts that a table makes behind the lines of its module."""
    is_addressed = any("$it" in line for line in head)
    for address, mark in [("i32", ""), ("i64", "64")] if is_addressed else [("it", "")]:
        module = [line.replace("$it", mark).rstrip() for line in head]
        for line, is_exact, flags in (it for line in lines for it in forms_of(line)):
            is_gated = not is_exact or line.endswith(DESCRIPTORS)
            found = Row(line, module, address, flags).scripts(is_gated)
            title = f"scripts {WITH_DESCRIPTORS}" if is_exact else "scripts"
            yield Section("", title, scripts=tuple(it._replace(is_exact=is_exact) for it in found))


def read_table(path):
    """Returns the sections of scripts that a file of tables makes."""
    head, found = [], []
    for title, body in sections_of(path.read_text()):
        lines = [line for line in body.split("\n") if line.strip()]
        if title == "head":
            head = lines
        elif title == "table":
            ops = [line.partition(": ")[0].strip() for line in lines]
            if len(set(ops)) < len(ops):
                raise ValueError(f"{path.name}: an operator has two rows in a table")
            found += sections_of_table(head, lines)
        else:
            raise ValueError(f"{path.name}: {title} begins no section")
    return found


def read_tables():
    """Yields the name of each file of tables, and the sections of scripts that it makes."""
    for path in sorted((DATA / "operators").glob("*.table")):
        yield path.stem, read_table(path)
