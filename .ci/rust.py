"""Values as Rust writes them: read from a text, and laid out as the formatter of sources does."""
import re
from typing import NamedTuple

WIDTH = 100


class Value(NamedTuple):
    """A value: a path or a name, what it is made of, and the names of its fields where these have some."""

    path: str
    parts: tuple = ()
    fields: tuple = ()

    def __str__(self):
        if not self.parts:
            return self.path
        inside = ", ".join(f"{field}{part}" for field, part in self.named)
        return f"{self.path} {{ {inside} }}" if self.fields else f"{self.path}({inside})"

    @property
    def named(self):
        """Its parts, each with its field and a colon before it, where it has one and isn't called so itself."""
        fields = self.fields or [str(it) for it in self.parts]
        return [("" if field == str(part) else f"{field}: ", part) for field, part in zip(fields, self.parts)]

    @property
    def variant(self):
        """The last name of the path."""
        return self.path.rpartition("::")[2]

    @property
    def pattern(self):
        """The pattern of its variant, whatever that is made of."""
        inside = "(_)" if len(self.parts) == 1 else "(..)" if self.parts else ""
        return self.path + (" { .. }" if self.fields else inside)

    def with_names(self, names):
        """The same value, where what has one of these names stands as the mapping has it."""
        if self.path in names:
            return Value(names[self.path])
        return self._replace(parts=tuple(it.with_names(names) for it in self.parts))

    def without(self, name):
        """The same value without what has this name."""
        return self._replace(parts=tuple(it for it in self.parts if it.path != name))

    def bare(self, *owners):
        """The same value, where variants of these enums have bare names."""
        path = self.variant if self.path.rpartition("::")[0] in owners else self.path
        return self._replace(path=path, parts=tuple(it.bare(*owners) for it in self.parts))

    @property
    def is_short(self):
        """Whether what is in braces may stand on one line."""
        inside = str(self).partition("{ ")[2].rpartition(" }")[0] if self.fields else ""
        return len(inside) <= 18 and all(it.is_short for it in self.parts)

    def laid_out(self, indent, before="", after=""):
        """The lines of the value, with what stands before and behind it."""
        line = f"{indent}{before}{self}{after}"
        inside = ", ".join(str(it) for it in self.parts)
        fits = len(line) <= WIDTH and self.is_short and (len(inside) <= 60 or len(self.parts) == 1)
        if fits or not self.parts:
            return f"{line}\n"
        if len(self.parts) == 1 and not self.fields:
            return self.parts[0].laid_out(indent, f"{before}{self.path}(", f"){after}")
        opening, closing = (" {", "}") if self.fields else ("(", ")")
        rows = (part.laid_out(f"{indent}    ", field, ",") for field, part in self.named)
        return f"{indent}{before}{self.path}{opening}\n{''.join(rows)}{indent}{closing}{after}\n"


def laid_out_arm(patterns, value, indent):
    """The lines of an arm that has several patterns."""
    line = f"{indent}{' | '.join(patterns)} =>"
    if len(f"{line} {value},") <= WIDTH:
        return f"{line} {value},\n"
    if len(f"{line} {{") <= WIDTH:
        return f"{line} {{\n{indent}    {value}\n{indent}}}\n"
    lines = f"\n{indent}| ".join(patterns)
    return f"{indent}{lines} => {value},\n"


def read_value(text):
    """Reads a value from its text. It refuses a text that the value read isn't written as."""
    tokens = re.findall(r"[\w:]*\w|[(){},:]", text)
    value = taken(tokens) if tokens else None
    if tokens or str(value) != text:
        raise ValueError(f"{text!r} isn't a value as Rust writes it")
    return value


def taken(tokens):
    """Takes a value off the front of these tokens."""
    path = tokens.pop(0)
    if not tokens or tokens[0] not in "({":
        return Value(path)
    closing, parts, fields = {"(": ")", "{": "}"}[tokens.pop(0)], [], []
    while tokens and tokens[0] != closing:
        if closing == "}":
            fields.append(tokens[0])
            if tokens[1:2] == [":"]:
                del tokens[:2]
        parts.append(taken(tokens))
        if tokens[:1] == [","]:
            del tokens[0]
    del tokens[:1]
    return Value(path, tuple(parts), tuple(fields))
