"""Edits of crates: files with lines 'file: PATH', 'old: TEXT' (standing once in that file) and 'new: TEXT', as often as
wanted, and what they are to break; the functions that they edit, as the text of a crate has them: where each stands, how it
is called, what it promises, and what calls it; and copies of a crate in which they are made."""

import dataclasses
import re
import shutil
from pathlib import Path

from crates import Unusable, files_of, folder_of

FUNCTION = re.compile(r"^( *)(?:pub(?:\([^)]*\))? +)?(?:const +)?(?:unsafe +)?(?:extern +\"C\" +)?fn +(\w+)", re.M)
IMPL = re.compile(r"^( *)impl\b([^{]*)\{", re.M)
SHUT = re.compile(r"^( *)(?:pub(?:\([^)]*\))? +)?(?:trait\b|macro_rules!)", re.M)
ENSURES = re.compile(r"^ *ensures\*? *(\w*) *\{", re.M)
BREAKS = re.compile(r"(\w+)(?: of ([\w:]+))?(?: by ([\w-]+))?")


@dataclasses.dataclass(frozen=True)
class Function:
    """A function of a crate's src/: its file, its first and last line there, and its name below the crate."""

    file: str
    first: int
    last: int
    name: str

    def lines_in(self, folder):
        """Returns its lines, where the crate stands in this folder."""
        return (folder / self.file).read_text().split("\n")[self.first - 1 : self.last]


def block_end(text, start, indent):
    """Returns where the block that begins at a place with this indent ends."""
    end = re.compile(rf"^{indent}\}}", re.M).search(text, start)
    return end.end() if end else len(text)


def module_of(file):
    """Returns the name of the module that a file of src/ is."""
    return re.sub(r"^src/|/?(lib|main|mod)\.rt$|\.rt$", "", file).replace("/", "::")


def home(folder, file, ty):
    """Returns the module that declares a type, which its methods are named after, wherever they stand."""
    declares = re.compile(rf"\b(?:struct|enum) {ty}\b")
    found = [it for it in files_of(folder) if it.suffix == ".rt" and declares.search(it.read_text())]
    return module_of(str((found or [folder / file])[0].relative_to(folder)))


def impl_around(text, place):
    """Returns the head of the impl that holds a place of a file, the trait and the type, `Any` where that is a parameter
    of the impl; or None where none does."""
    for found in IMPL.finditer(text):
        if found.start() < place < block_end(text, found.start(), found[1]):
            params, head = re.match(r"(<.*?>(?= ))?(.*)", re.sub(r"\bwhere\b.*", "", found[2], flags=re.S), re.S).groups("")
            trait, _, of = head.strip().rpartition(" for ")
            ty = re.match(r"\w+", of)[0]
            return found[0], trait, "Any" if re.search(rf"[<,] *{ty} *[:,>]", params) else ty
    return None


def owner(folder, file, text, place):
    """Returns the module, and the type of the impl with its trait, by which a function at a place of a file is named."""
    if around := impl_around(text, place):
        _, trait, ty = around
        if trait:
            return [module_of(file), ty + "".join(re.findall(r"(?<!')\b[A-Z]\w*", trait))]
        return [home(folder, file, ty), ty]
    return [module_of(file)]


def head(text, start):
    """Returns where the comments and attributes above an item begin."""
    lines = text[:start].split("\n")[:-1]
    while lines and lines[-1].lstrip().startswith(("#[", "///")):
        start -= len(lines.pop()) + 1
    return start


def functions_in(text):
    """Returns where the functions of a file stand, but for those of traits and macros."""
    shut = [(it.start(), block_end(text, it.start(), it[1])) for it in SHUT.finditer(text)]
    return [it for it in FUNCTION.finditer(text) if not any(start < it.start() < end for start, end in shut)]


def function_at(folder, file, place):
    """Returns the function of a file of a crate that holds a place of it, the outermost if it has others inside."""
    text = (folder / file).read_text()
    for found in functions_in(text):
        end = block_end(text, found.start(), found[1])
        if found.start() <= place < end:
            path = [it for it in (*owner(folder, file, text, place), found[2]) if it]
            lines = [text.count("\n", 0, it) + 1 for it in (head(text, found.start()), end)]
            return Function(file, *lines, "::".join(path))
    return None


def copied_impl(crate, function):
    """Returns the head of the impl that a copy of a function needs, with what its clauses use there, "" where it needs none,
    or None where none can be made."""
    text = (folder_of(crate) / function.file).read_text()
    place = sum(len(line) + 1 for line in text.split("\n")[: function.last - 1])
    around = impl_around(text, place)
    if around and around[1]:
        return None
    if not around:
        return ""
    start = text.rfind(around[0], 0, place)
    used = re.findall(r"^ +ghost use [^;]*;", text[start : block_end(text, start, "")], re.M)
    return "\n".join([around[0], *used])


def clauses(crate, function):
    """Returns what the clauses of a function are called, where it has its own."""
    return [it or "ensures" for it in ENSURES.findall("\n".join(function.lines_in(folder_of(crate))))]


@dataclasses.dataclass(frozen=True)
class WrongBody:
    """An edit: its name, the pairs of texts that it turns, the functions that hold these, and what it breaks: a clause, the
    caller whose clause that is, and the goal on the way to it that is refused, each "" where the edit names none."""

    name: str
    pairs: tuple
    functions: frozenset
    breaks: tuple = ("", "", "")


def pairs_of(text):
    """Returns what an edit changes: of each place the file, and its text before and behind the edit."""
    said, pairs = {}, []
    for kind, line in re.findall(r"^(file|old|new): ?(.*)$", text, re.M):
        said[kind] = line
        if kind == "new":
            pairs.append((said["file"].strip(), said.get("old"), line))
    return tuple(pairs)


def read_body(crate, file):
    """Reads a wrong body of a crate."""
    folder, text = folder_of(crate), file.read_text()
    pairs = pairs_of(text)
    if not pairs or len(pairs) != len(re.findall(r"^old:", text, re.M)):
        raise Unusable(f"{crate}/{file.stem}: an `old` of it has no `new`")
    said = re.search(r"^breaks:(.*)$", text, re.M)
    breaks = BREAKS.fullmatch(said[1].strip()) if said else None
    if not breaks:
        raise Unusable(f"{crate}/{file.stem}: it doesn't say what it breaks")
    functions = {function_at(folder, path, (folder / path).read_text().find(old)) for path, old, _ in pairs}
    return WrongBody(file.stem, pairs, frozenset(functions), breaks.groups(""))


def edited(crate, body):
    """Returns the lines of the files that an edit changes, by their path, each as many as before."""
    paths = {*(path for path, _, _ in body.pairs), *(it.file for it in body.functions if it)}
    texts = {path: (folder_of(crate) / path).read_text() for path in paths}
    lines = {path: text.count("\n") for path, text in texts.items()}
    for path, old, new in body.pairs:
        if texts[path].count(old) != 1:
            raise Unusable(f"{crate}/{body.name}: its text stands {texts[path].count(old)} times in {path}")
        texts[path] = texts[path].replace(old, new)
    if any(text.count("\n") != lines[path] for path, text in texts.items()):
        raise Unusable(f"{crate}/{body.name}: it has more lines, or fewer")
    return {path: text.split("\n") for path, text in texts.items()}


def apply(room, crate, body):
    """Applies an edit to a copy of a crate, which may have others in other lines."""
    for path, lines in edited(crate, body).items():
        before = (folder_of(crate) / path).read_text().split("\n")
        now = (room / path).read_text().split("\n")
        here = [new if new != old else it for new, old, it in zip(lines, before, now)]
        (room / path).write_text("\n".join(here))


def apply_to_copy(room, crate, body, number):
    """Adds what an edit makes of its function to a copy of a crate, under a name of its own; returns that function."""
    (function,) = body.functions
    *path, name = function.name.split("::")
    copy = f"{name}_{number}"
    lines = edited(crate, body)[function.file][function.first - 1 : function.last]
    text = re.sub(rf"\bfn {name}\b", f"fn {copy}", "\n".join(lines), count=1)
    head = copied_impl(crate, function)
    file, proofs = room / function.file, room / "proofs" / Path(*path)
    before = file.read_text() + "\n"
    file.write_text(before + (f"{head}\n{text}\n}}\n" if head else f"{text}\n"))
    for proof in files_of(room):
        if proof.is_relative_to(proofs / name):
            said = proof.read_text().replace(".".join(["", "proofs", *path, name, ""]), ".".join(["", "proofs", *path, copy, ""]))
            beside = proofs / copy / proof.relative_to(proofs / name)
            beside.parent.mkdir(parents=True, exist_ok=True)
            beside.write_text(said)
    first = before.count("\n") + 1
    return Function(function.file, first, first + head.count("\n") + len(lines) + 1, "::".join([*path, copy]))


def called_by(crate, bodies):
    """Returns the functions of a crate that these may call, edited or not, by their names, but for those of traits and macros."""
    folder, called, found = folder_of(crate), set(), set()
    for body in bodies:
        lines = [new for *_, new in body.pairs] + [line for it in body.functions for line in it.lines_in(folder)]
        called |= set(re.findall(r"\b(\w+)(?:::<[^()]*>)?\(", "\n".join(lines)))
    for file in (str(it.relative_to(folder)) for it in files_of(folder) if it.suffix == ".rt"):
        text = (folder / file).read_text()
        found |= {function_at(folder, file, it.end()) for it in functions_in(text) if it[2] in called}
    return found


def leave_open(room, crate, function):
    """Leaves the proof of a function open in a copy of a crate, and its body, so that what calls it goes by its contract."""
    lines = (room / function.file).read_text().split("\n")
    inside = range(function.first - 1, function.last - 1)
    start = next((it for it in inside if FUNCTION.match(lines[it])), function.last)
    opens = [it for it in inside if it >= start and lines[it] == FUNCTION.match(lines[start])[1] + "{"]
    opens += [it for it in inside if it >= start and lines[it].endswith(" {")]
    if not opens:
        return
    lines[opens[0] + 1 : function.last - 1] = ["loop {}", *[""] * (function.last - opens[0] - 3)]
    (room / function.file).write_text("\n".join(lines))
    *path, name = function.name.split("::")
    proofs, module = room / "proofs" / Path(*path, name), ".".join([f"Rattle.{crate}.proofs", *path, name])
    shutil.rmtree(proofs, ignore_errors=True)
    proofs.mkdir(parents=True)
    stated = f"pub {name}_spec : {{M : Type 1}} → stated.statement M\n{name}_spec = absurd ?\n"
    (proofs / "Proof.antt").write_text(f"use {module}.Statement as stated\n\n{stated}")
