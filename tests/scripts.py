"""Scripts that are as deep, as wide or as long as wanted."""

HEAD = ["type func ->", "func 0"]


def text(*parts):
    """The script of these lines, which are given in lists."""
    return "".join(f"{line}\n" for part in parts for line in part).encode()


def empty_body():
    return text(HEAD, ["end"])


def nested_blocks(count):
    return text(HEAD, ["block"] * count, ["end"] * (count + 1))


def nested_else(count):
    """Each `if` within the first part of the one before it, and each with a second part."""
    return text(HEAD, ["i32.const", "if"] * count, ["else", "end"] * count, ["end"])


def nested_tries(count):
    return text(HEAD, ["legacy_try"] * count, ["catch_all", "end"] * count, ["end"])


def many_locals(count):
    """Locals of two types in turn, each of which is set and read."""
    lines = [f"local 1 {('i32', 'i64')[index % 2]}" for index in range(count)]
    uses = [line for index in range(count) for line in (f"local.get {index}", f"local.set {index}")]
    return text(HEAD, lines, uses, ["end"])


def wide_calls(width, count):
    """A function that takes so many operands and gives as many, which is called so many times."""
    wide = " ".join(["i32"] * width)
    declared = ["type func ->", f"type func {wide} -> {wide}", "fn 1", "func 0"]
    return text(declared, ["i32.const"] * width, ["call 0"] * count, ["drop"] * width, ["end"])


def chain(count):
    """So many types, each declared below the one before it."""
    return ["type func ->"] + [f"type sub={index} func ->" for index in range(count - 1)] + ["func 0"]


def many_types(count):
    return text(chain(count), ["end"])


def questions(depth, count):
    """Whether the last type of a chain of this depth is below the first, asked so many times."""
    locals = [f"local 1 refnull:{depth - 1}", "local 1 refnull:0"]
    return text(chain(depth), locals, ["local.get 0", "local.set 1"] * count, ["end"])


def long_table(count):
    return text(HEAD, ["block", "i32.const", "br_table" + " 0 1" * count, "end", "end"])


def many_attempts(count):
    """Attempts, of which each other is refused."""
    return text(HEAD, ["i64.const"], ["try i64.eqz", "try i64.eqz", "drop", "i64.const"] * count, ["drop", "end"])


def caught_exceptions(count):
    """Nested blocks, each with a clause for what is thrown in it."""
    declared = ["type func ->", "type func i32 ->", "tag 1", "func 0"]
    opened = ["block i32", "try_table catch:0:0 catch_all:1", "i32.const", "throw 0", "end", "unreachable", "end", "drop"]
    return text(declared, opened * count, ["end"])


def long_text(count):
    """Comments and blank lines before and within a body."""
    return text(["# " + "-" * 78, ""] * count, HEAD, ["nop", "# a comment", ""] * count, ["end"])


def many_operands(count):
    return text(HEAD, ["i32.const"] * count, ["drop"] * count, ["end"])


def many_fields(width):
    fields = " ".join(["mut:i64"] * width)
    return text(["type func ->", f"type struct {fields}", "func 0"], ["i64.const"] * width, ["struct.new 1", "drop", "end"])
