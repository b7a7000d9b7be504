#!/usr/bin/env -S python3 -B
"""Prints a body of a module as a script, as `opcheck` and the measures read it: bench/body_script.py MODULE FUNCTION, the
function by its index, or bench/body_script.py MODULE --longest N FOLDER, which writes the N longest bodies to scripts of a
folder.

It reads modules of the standard's first version, with the proposals that compilers use: sign extension, conversions that
saturate, bulk memory, several values, and references to functions and hosts. Operators are read by the table of operators.
A function that is exported, or stands in a table or a global, may be named by `ref.func`; a body that does so
is left out, since a script says it of each `fn` line."""
import sys
from pathlib import Path

import measures  # it lets the next two be found
import wasm
from operators import by_code, read

TYPES = {0x7F: "i32", 0x7E: "i64", 0x7D: "f32", 0x7C: "f64", 0x7B: "v128", 0x70: "funcref", 0x6F: "externref"}


class Reader:
    """The bytes of a module from a place on."""

    def __init__(self, data, place=0):
        self.data, self.place = data, place

    def byte(self):
        self.place += 1
        return self.data[self.place - 1]

    def bytes(self, count):
        self.place += count
        return self.data[self.place - count : self.place]

    def number(self):
        byte = self.byte()
        return byte if byte < 128 else byte - 128 + (self.number() << 7)

    def signed(self):
        start, value = self.place, self.number()
        size = 7 * (self.place - start)
        return value - (1 << size) if value >> (size - 1) else value

    def many(self, read):
        return [read() for _ in range(self.number())]

    def type(self):
        return TYPES[self.byte()]

    def limits(self):
        """Reads the limits of a table or a memory, and returns the marks of its line."""
        flags = self.byte()
        self.number()
        if flags & 1:
            self.number()
        return (" 64" if flags & 4 else "") + (" shared" if flags & 2 else "")

    def block_type(self):
        """The words of a block type."""
        first = self.data[self.place]
        if first == 0x40:
            self.byte()
            return []
        return [self.type()] if first in TYPES else [self.signed()]

    def access(self):
        """The words of a place in a memory."""
        align, memory = self.number(), 0
        if align >= 0x40:
            align, memory = align - 0x40, self.number()
        return [f"offset={self.number()}", f"align={align}", *([f"mem={memory}"] if memory else [])]


# What stands behind an operator's code, by the form of that, as words.
IMMEDIATES = {
    **dict.fromkeys(["Plain", "Numeric", "Conversion"], lambda reader: []),
    **dict.fromkeys(["Index", "TypeIndex"], lambda reader: [reader.number()]),
    **dict.fromkeys(["TwoIndices", "TypedIndex"], lambda reader: [reader.number(), reader.number()]),
    **dict.fromkeys(["I32", "I64"], lambda reader: [reader.signed()]),
    "F32": lambda reader: [int.from_bytes(reader.bytes(4), "little")],
    "F64": lambda reader: [int.from_bytes(reader.bytes(8), "little")],
    "Labels": lambda reader: [*reader.many(reader.number), reader.number()],
    "Types": lambda reader: reader.many(reader.type),
    "Heap": lambda reader: [reader.type().removesuffix("ref")],
    "Block": Reader.block_type,
    "Access": Reader.access,
}


class Module:
    """What a module declares, as lines of a script, and its bodies."""

    def __init__(self, data):
        self.types, self.functions, self.lines, self.bodies = [], [], [], []
        reader = Reader(data, len(wasm.HEADER))
        readers = {wasm.TYPES: self.type, wasm.IMPORTS: self.imported, wasm.FUNCTIONS: self.function, wasm.TABLES: self.table,
                   wasm.MEMORIES: self.memory, wasm.GLOBALS: self.global_, wasm.CODE: self.body}
        while reader.place < len(data):
            id, size = reader.byte(), reader.number()
            end = reader.place + size
            if id in readers:
                reader.many(lambda: readers[id](reader))
            if id == wasm.DATA_COUNT:
                self.lines.append(f"data {reader.number()}")
            reader.place = end
        self.imports = len(self.functions) - len(self.bodies)

    def type(self, reader):
        if reader.byte() != 0x60:
            raise ValueError("a type that isn't one of functions")
        params, results = reader.many(reader.type), reader.many(reader.type)
        self.types.append(" ".join(["type func", *params, "->", *results]))

    def imported(self, reader):
        for _ in range(2):
            reader.bytes(reader.number())
        (self.function, self.table, self.memory, self.global_type)[reader.byte()](reader)

    def function(self, reader):
        self.functions.append(reader.number())

    def table(self, reader):
        ty = reader.type()
        self.lines.append(f"table {ty}{reader.limits()}")

    def memory(self, reader):
        self.lines.append(f"memory{reader.limits()}")

    def global_type(self, reader):
        self.lines.append(f"global {reader.type()}{' mut' if reader.byte() else ''}")

    def global_(self, reader):
        self.global_type(reader)
        while (code := reader.byte()) != 0x0B:
            reader.bytes({0x43: 4, 0x44: 8, 0xD0: 1}[code]) if code in (0x43, 0x44, 0xD0) else reader.signed()

    def body(self, reader):
        self.bodies.append(reader.bytes(reader.number()))


class Table:
    """The operators by their codes: of one byte, and behind 0xfc."""

    def __init__(self):
        operators = read()
        self.plain, self.behind = by_code(operators, 0), by_code(operators, 0xFC)

    def line(self, reader):
        """Reads an operator, and returns its line."""
        code = reader.byte()
        it = self.behind[reader.number()] if code == 0xFC else self.plain[code]
        word = "select_t" if it.form == "Types" else it.word
        return " ".join([word, *map(str, IMMEDIATES[it.form](reader))])


def script(module, function, table):
    """Returns the script of a function's body, or None where it names a function by `ref.func`."""
    reader = Reader(module.bodies[function - module.imports])
    lines = [*module.types, *(f"fn {it}" for it in module.functions), *module.lines, f"func {module.functions[function]}"]
    lines += reader.many(lambda: f"local {reader.number()} {reader.type()}")
    while reader.place < len(reader.data):
        lines.append(table.line(reader))
    return None if any(it.startswith("ref.func") for it in lines) else "\n".join(lines) + "\n"


def main(words):
    path, table = Path(words[0]), Table()
    module = Module(path.read_bytes())
    if words[1] != "--longest":
        return print(script(module, int(words[1]), table) or "", end="")
    longest = sorted(range(len(module.bodies)), key=lambda it: -len(module.bodies[it]))
    for function in (it + module.imports for it in longest[: int(words[2])]):
        if text := script(module, function, table):
            (Path(words[3]) / f"{path.stem}-{function}.script").write_text(text)


if __name__ == "__main__":
    main(sys.argv[1:])
