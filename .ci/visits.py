"""The visits of operators: how the trait declares each, and how it is implemented."""
import re
import textwrap

from rust import WIDTH, Value


def head_of(it, output):
    """The head of a visit, up to this text."""
    words = ["&mut self", *(f"{name}: {ty}" for name, ty in it.immediates.items())]
    line = f"    fn visit_{it.visit}({', '.join(words)}) -> {output}"
    if len(line) <= WIDTH:
        return line
    rows = "".join(f"        {word},\n" for word in words)
    return f"    fn visit_{it.visit}(\n{rows}    ) -> {output}"


def implemented(it):
    """A visit as it is implemented: it is the check of its operator."""
    call = Value(f"self.check_{it.group.lower()}", (it.op.bare("Sign", "AtomicAccess"),))
    return f"{head_of(it, 'V::Output {')}\n{call.laid_out(' ' * 8)}    }}\n\n"


def in_logic(value, known):
    """A value as a clause writes it, where these variants have bare names. One of a shared operator is always in
    parentheses."""
    parts = [in_logic(it, known) for it in value.parts]
    if value.fields and "::" not in value.path:
        return f"(record {{ {'; '.join(f'{name} = {part}' for name, part in zip(value.fields, parts))} }})"
    if value.path == "Op::Shared" and not value.parts[0].parts:
        parts = [f"({parts[0]})"]
    head = value.variant if value.path in known else value.path.replace("::", ".")
    return f"({' '.join([head, *parts])})" if parts else head


def broken(line, group):
    """Breaks the line of a clause where it is long. That there are three fashions, group by group, is history: the
    second one would do for all."""
    if len(line) <= 110 or group in ("Continuation", "Shared"):
        return line
    if group not in ("Reference", "Struct", "Array"):
        return line.replace("self.old ", "self.old\n            ", 1)
    end = line.rfind(" ", 0, 111 if "relative_depth" in line else 109)
    if "record" not in line:
        return f"{line[:end]}\n{' ' * 12}{line[end + 1:]}"
    lines = f"{line[:end]}\n{' ' * 14}{line[end + 1:]}".replace("; ", ";\n          ")
    return re.sub(r"record \{\s+", "record {\n          ", lines).replace(" })))", ";\n        })))")


def declared(it, known):
    """A visit as the trait declares it."""
    comment = it.doc.split("\\n") if "\\n" in it.doc else textwrap.wrap(it.doc, 98, break_on_hyphens=False)
    borrowed = {name: f"{name}.entry" for name, ty in it.immediates.items() if "'a" in ty}
    asked = f"        requires {{ can_visit self.old {in_logic(it.value, known)} }}"
    left = in_logic(it.value.with_names(borrowed), known)
    answered = f"        ensures {{ visits self.old {left} result self.new }};"
    lines = [*(f"    /// {line}" for line in comment), head_of(it, "Self::Output")]
    return "\n".join([*lines, broken(asked, it.group), broken(answered, it.group), "", ""])
