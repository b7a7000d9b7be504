"""Modules in the binary format, written byte by byte: what tests and measures of modules share."""

HEADER = b"\0asm\1\0\0\0"
# The sections by what they have.
TYPES, IMPORTS, FUNCTIONS, TABLES, MEMORIES, GLOBALS, EXPORTS, START, ELEMENTS, CODE, DATA, DATA_COUNT, TAGS = range(1, 14)
# One type, [] -> [].
PLAIN = b"\1\x60\0\0"


def number(value):
    """An unsigned number, seven bits a byte."""
    return bytes([value]) if value < 128 else bytes([value % 128 + 128]) + number(value // 128)


def sized(content):
    """Bytes behind their number."""
    return number(len(content)) + content


def section(id, content):
    return bytes([id]) + sized(content)


def listed(items):
    """A list of items behind their number."""
    return number(len(items)) + b"".join(items)


def repeated(count, item):
    """A list of so many equal items."""
    return number(count) + item * count


def module(*sections, bodies=()):
    """A module of these sections, each with its number and its bytes in hexadecimal, and of bodies so given, with their
    locals."""
    content = b"".join(section(id, bytes.fromhex(it)) for id, it in sections)
    code = section(CODE, listed([sized(bytes.fromhex(it)) for it in bodies])) if bodies else b""
    return HEADER + content + code


def of_bodies(*bodies):
    """The module of functions [] -> [] with these bodies."""
    return module((TYPES, PLAIN.hex()), (FUNCTIONS, repeated(len(bodies), b"\0").hex()), bodies=bodies)


def named(index, name):
    """The section that gives the function at this index a name, which is a text or bytes."""
    name = name.encode() if isinstance(name, str) else name
    return section(0, sized(b"name") + section(1, listed([number(index) + sized(name)])))
