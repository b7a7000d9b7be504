#!/usr/bin/env -S python3 -B
"""Tests of the tools that try wrong bodies and planted changes: what they find in a crate's text, which edits they take,
what counts as a refusal, and what is kept of it. And of those that read the table of operators, and write from it."""

import importlib.machinery
import importlib.util
import tempfile
import unittest
from pathlib import Path
from unittest import mock

import crates
import edits
import operators
import trials
import verdicts
from crates import Unusable, below

TOOLS = Path(__file__).parent

SOURCE = """//! A crate.
/// Doubles.
#[inline]
pub fn double(n: u32) -> u32
    ensures twice { result ≡ n + n }
{
    n + n
}

impl Counter {
    ghost use Rattle.counts.specs.Count.{count};

    /// Counts.
    fn add(&mut self) -> u32
        ensures { result ≡ 1 }
        ensures* kept { self.new.limit ≡ self.old.limit }
    {
        double(1)
    }
}

impl<T: Show> Show for Pair<T> {
    fn show(&self) -> u32 {
        2
    }
}

pub(crate) trait Named {
    fn named(&self) -> u32;
}

macro_rules! seen {
    () => {
        fn unseen() {}
    };
}
"""


def tool(name):
    """Loads a tool whose file has no ending."""
    loader = importlib.machinery.SourceFileLoader(name.replace("-", "_"), str(TOOLS / name))
    module = importlib.util.module_from_spec(importlib.util.spec_from_loader(loader.name, loader))
    loader.exec_module(module)
    return module


class OfACrate(unittest.TestCase):
    """Tests over a crate with one file, which stands in a repository of its own."""

    def setUp(self):
        room = tempfile.TemporaryDirectory()
        self.addCleanup(room.cleanup)
        self.root = Path(room.name)
        self.folder = self.root / "crates/counts"
        (self.folder / "src").mkdir(parents=True)
        (self.folder / "src/counter.rt").write_text("pub struct Counter {}\n")
        (self.folder / "src/lib.rt").write_text(SOURCE)
        self.put(crates, "ROOT", self.root)

    def put(self, module, name, value):
        """Puts a value in the place of a module's, for one test."""
        patch = mock.patch.object(module, name, value)
        patch.start()
        self.addCleanup(patch.stop)

    def named(self, text):
        """The function that holds a text of the source."""
        return edits.function_at(self.folder, "src/lib.rt", SOURCE.index(text))

    def body(self, *pairs):
        """An edit of the source: so many texts with what stands in their place."""
        return edits.WrongBody("wrong", tuple(("src/lib.rt", *pair) for pair in pairs), frozenset())


class Functions(OfACrate):
    def test_a_function_has_its_name_and_the_lines_from_its_comment_on(self):
        self.assertEqual(self.named("n + n\n"), edits.Function("src/lib.rt", 2, 8, "double"))

    def test_a_method_is_named_after_the_module_of_its_type(self):
        self.assertEqual(self.named("double(1)").name, "counter::Counter::add")

    def test_a_method_of_a_trait_is_named_after_both(self):
        self.assertEqual(self.named("        2\n").name, "PairShow::show")

    def test_a_function_of_a_macro_or_a_trait_is_not_seen(self):
        self.assertIsNone(self.named("fn unseen"))
        self.assertIsNone(self.named("fn named"))

    def test_clauses_are_named(self):
        self.assertEqual(edits.clauses("counts", self.named("n + n\n")), ["twice"])
        self.assertEqual(edits.clauses("counts", self.named("double(1)")), ["ensures", "kept"])

    def test_a_copy_of_a_method_takes_what_its_impl_uses(self):
        head = edits.copied_impl("counts", self.named("double(1)"))
        self.assertEqual(head, "impl Counter {\n    ghost use Rattle.counts.specs.Count.{count};")

    def test_a_method_of_a_trait_has_no_copy(self):
        self.assertIsNone(edits.copied_impl("counts", self.named("        2\n")))


class Edits(OfACrate):
    def test_a_file_may_have_several_places(self):
        text = "file: src/a.rt\nold: x\nnew: y: z\nfile: src/b.rt\nold: u\nnew: \nbreaks: kept\n"
        self.assertEqual(edits.pairs_of(text), (("src/a.rt", "x", "y: z"), ("src/b.rt", "u", "")))
        self.assertEqual(edits.pairs_of(text), edits.pairs_of(text.replace("new: \n", "new:\n")))

    def test_an_edit_changes_its_line_alone(self):
        lines = edits.edited("counts", self.body(("    n + n", "    n")))["src/lib.rt"]
        self.assertEqual("\n".join(lines), SOURCE.replace("    n + n\n", "    n\n"))

    def test_a_text_that_stands_twice_is_refused(self):
        with self.assertRaisesRegex(Unusable, "stands 2 times"):
            edits.edited("counts", self.body(("n + n", "n")))

    def test_an_edit_that_has_another_number_of_lines_is_refused(self):
        with self.assertRaisesRegex(Unusable, "more lines, or fewer"):
            edits.edited("counts", self.body(("    n + n", "    n\n")))

    def test_an_edit_says_what_it_breaks(self):
        file = self.root / "wrong.edit"
        file.write_text("file: src/lib.rt\nold:     n + n\nnew:     n\nbreaks: twice of add by reached\n")
        body = edits.read_body("counts", file)
        self.assertEqual((body.breaks, body.functions), (("twice", "add", "reached"), {self.named("n + n\n")}))
        file.write_text("file: src/lib.rt\nold:     n + n\nnew:     n\n")
        self.assertRaisesRegex(Unusable, "what it breaks", edits.read_body, "counts", file)
        file.write_text("file: src/lib.rt\nold:     n + n\nbreaks: twice\n")
        self.assertRaisesRegex(Unusable, "has no `new`", edits.read_body, "counts", file)


class Refusals(OfACrate):
    SAID = "./src/lib.rt:4:1: error: it is not proved that n ≡ n + n (`returns-clause-twice`)\n"

    def refused(self, said, breaks):
        body = edits.WrongBody("wrong", (), frozenset([self.named("n + n\n")]), breaks)
        return trials.refusal("counts", body, trials.goals_in(self.folder, said))

    def test_a_goal_of_the_clause_is_a_refusal(self):
        self.assertIn("returns-clause-twice", self.refused(self.SAID, ("twice", "", "")))

    def test_a_goal_of_another_clause_or_of_another_function_is_none(self):
        self.assertIsNone(self.refused(self.SAID.replace("-twice", "-kept"), ("twice", "", "")))
        self.assertIsNone(self.refused(self.SAID.replace(":4:", ":14:"), ("twice", "", "")))

    def test_a_name_that_is_gone_is_none(self):
        self.assertIsNone(self.refused(self.SAID.replace("n + n", "m is not in scope"), ("twice", "", "")))

    def test_a_clause_may_be_refused_on_the_way_to_it(self):
        said = self.SAID.replace("returns-clause-twice", "loop-place-behind")
        self.assertIsNone(self.refused(said, ("twice", "", "")))
        self.assertIsNotNone(self.refused(said, ("twice", "", "loop-place")))


class Verdicts(OfACrate):
    """Tests of what is kept of earlier runs, in a folder of their own."""

    USES = {"counts": ["low"], "low": []}

    def setUp(self):
        super().setUp()
        self.put(verdicts, "CACHE", self.root / "kept")

    def test_what_was_kept_is_found_for_the_same_parts_alone(self):
        self.assertIsNone(verdicts.kept("sum", "wrong", b"old: x"))
        verdicts.keep("refused: at once", "sum", "wrong", b"old: x")
        self.assertEqual(verdicts.kept("sum", "wrong", b"old: x"), "refused: at once")
        self.assertIsNone(verdicts.kept("sum", "wrong", b"old: y"))

    def test_another_tool_keeps_nothing_of_this_one(self):
        verdicts.keep("refused: at once", "sum")
        with mock.patch.object(verdicts, "TOOL", verdicts.TOOL[1:]):
            self.assertIsNone(verdicts.kept("sum"))

    def test_a_sum_changes_with_each_file_of_the_crate_and_of_those_below(self):
        before = verdicts.sum_of("counts", self.USES, {})
        self.assertEqual(verdicts.sum_of("counts", self.USES, {}), before)
        (self.root / "crates/low/proofs").mkdir(parents=True)
        (self.root / "crates/low/proofs/Lemma.antt").write_text("-- a lemma")
        below = verdicts.sum_of("counts", self.USES, {})
        (self.folder / "src/counter.rt").write_text("pub struct Counter;\n")
        self.assertEqual(len({before, below, verdicts.sum_of("counts", self.USES, {})}), 3)

    def test_only_what_is_as_it_is_to_be_is_kept(self):
        text = "file: src/lib.rt\nold:     n + n\nnew:     n\nbreaks: twice\n"
        (self.folder / "wrong-bodies").mkdir()
        for name in ("refused", "proved"):
            (self.folder / f"wrong-bodies/{name}.edit").write_text(text)
        found = {"refused": trials.Verdict("refused: at once", True), "proved": trials.Verdict("NOT REFUSED", False)}
        wrong_bodies, tried = tool("wrong-bodies"), []
        wrong_bodies.try_bodies = lambda _, __, bodies: tried.append([it.name for it in bodies]) or {it: found[it] for it in tried[-1]}
        for _ in range(2):
            lines, failed = wrong_bodies.tell_bodies("counts", self.USES, ["wrong-bodies"], "sum")
            self.assertEqual((lines, failed), (["counts/proved: NOT REFUSED", "counts/refused: refused: at once"], 1))
        self.assertEqual(tried, [["proved", "refused"], ["proved"]])

    def test_an_edit_that_cannot_be_tried_fails_and_the_others_go_on(self):
        (self.folder / "wrong-bodies").mkdir()
        for name, old in (("refused", "    n + n"), ("gone", "    n - n")):
            text = f"file: src/lib.rt\nold: {old}\nnew:     n\nbreaks: twice\n"
            (self.folder / f"wrong-bodies/{name}.edit").write_text(text)
        wrong_bodies = tool("wrong-bodies")
        wrong_bodies.try_bodies = lambda _, __, bodies: {it.name: trials.Verdict("refused", True) for it in bodies}
        lines, failed = wrong_bodies.tell_bodies("counts", self.USES, ["wrong-bodies"], "sum")
        said = "NOT READ: counts/gone: its text stands 0 times in src/lib.rt"
        self.assertEqual((lines, failed), ([f"counts/gone: {said}", "counts/refused: refused"], 1))


class Graph(unittest.TestCase):
    USES = {"low": ["bitflags"], "middle": ["low"], "high": ["middle", "low", "core"]}

    def test_what_is_below_stands_once_lowest_first(self):
        self.assertEqual(below("high", self.USES), (["low", "middle"], ["core"]))

    def test_a_planted_change_goes_by_what_stands_on_it(self):
        planted = tool("planted")
        self.assertEqual(planted.between("middle", "high", self.USES), ["middle", "high"])
        self.assertEqual(planted.between("low", "low", self.USES), ["low"])


class Table(unittest.TestCase):
    """Tests over a table of two operators."""

    HEAD = "\t".join(operators.COLUMNS)
    NOP = "nop\tnop\t\tOp::Control(ControlOp::Nop)\t0x01\tPlain\tMvp\t`nop`: `[] -> []`."
    INIT = ("table.init\ttable_init\telem_index: u32, table: u32\tOp::Table(TableOp::TableInit { elem_index, table })"
            "\t0xfc0c\tTwoIndices\tBulkMemory\t`table.init`: `[a i32 i32] -> []`.")

    def read(self, *lines):
        return operators.read("\n".join([self.HEAD, *lines]))

    def refused(self, why, *lines):
        self.assertRaisesRegex(operators.Wrong, why, self.read, *lines)

    def test_a_line_is_an_operator(self):
        _, init = self.read(self.NOP, self.INIT)
        self.assertEqual((init.name, init.group, init.code), ("table.init", "Table", 0xfc0c))
        self.assertEqual(init.types, ["u32", "u32"])
        renamed = init.op.with_names({"elem_index": "first", "table": "second"})
        self.assertEqual(str(renamed), "TableOp::TableInit { elem_index: first, table: second }")

    def test_a_line_with_too_few_columns_is_refused(self):
        self.refused("operators.tsv:3: 7 columns in place of 8", self.NOP, self.INIT.replace("\tBulkMemory", ""))

    def test_what_is_there_twice_is_refused(self):
        again = self.INIT.replace("table_init", "again").replace("0xfc0c", "0xfc40")
        self.refused("the code 0x01 is there twice", self.NOP, self.INIT.replace("0xfc0c", "0x01"))
        self.refused("the visit table_init is there twice", self.INIT, self.INIT)
        self.refused("the value .* is there twice", self.INIT, again)

    def test_a_value_that_is_not_written_as_rust_writes_it_is_refused(self):
        self.refused("isn't a value", self.INIT.replace(" }", "}"))
        self.refused("isn't an `Op`", self.NOP.replace("Op::Control(ControlOp::Nop)", "ControlOp::Nop"))

    def test_words_keep_their_order_and_new_ones_go_to_the_end(self):
        rows = {word: f'("{word}"),' for word in ("a", "b", "c")}
        self.assertEqual(tool("generate").in_order(rows, '("c"), ("gone"), ("a")'), '("c"),("a"),("b"),')

    def test_a_part_stands_between_two_texts(self):
        part = tool("generate").Part("a.rt", ("fn b", "{\n"), "}", "new\n")
        self.assertEqual(part.within("fn a {\n}\nfn b {\nold\n}\n"), "fn a {\n}\nfn b {\nnew\n}\n")
        self.assertRaisesRegex(operators.Wrong, "'fn b' isn't there", part.within, "fn a {\n}\n")


if __name__ == "__main__":
    unittest.main()
