#!/usr/bin/env python3
"""Tests tools that the gate trusts: what they say of small trees, of words of the prover, and of programs that are made up here.

    tools/tools_test.py

Its last line is OK where all passed; status 0 then.
"""
import contextlib
import io
import os
import stat
import sys
import tempfile
import unittest
import unittest.mock

sys.dont_write_bytecode = True
sys.path.insert(0, os.path.dirname(os.path.abspath(__file__)))
import believe
import cases
import counts
import examples
import links
import marks
import mutants
import one_core
import pages
import random_swift
import refusals
import reports
import swift_in
import weights


def write(folder, files):
    """Writes files, each by its path in a folder."""
    for name, text in files.items():
        path = os.path.join(folder, name)
        os.makedirs(os.path.dirname(path), exist_ok=True)
        with open(path, "w", encoding="utf8") as file:
            file.write(text)


def script(folder, name, text):
    """A program that the shell runs."""
    write(folder, {name: "#!/bin/sh\n" + text})
    path = os.path.join(folder, name)
    os.chmod(path, os.stat(path).st_mode | stat.S_IXUSR)
    return path


class Folder(unittest.TestCase):
    """A test with a folder of its own."""

    def setUp(self):
        kept = tempfile.TemporaryDirectory()
        self.addCleanup(kept.cleanup)
        self.folder = kept.name


# Two crates: the clause of `low` rests on two definitions there, one of them on another; `high` says a word of `low`.
TREE = {
    "low/specs/Words.antt": (
        "use Rattle.std.specs.Prelude.{◌≡◌, ◌<◌, ℕ, length, List}\n\n"
        "-- no definition is counted twice\n"
        "abbrev pub IsLeast : ℕ → Type 0\nIsLeast n = n ≡ 0\n\n"
        "pub record IsOf (n : ℕ) : Type 0 where\n  pub least : IsLeast n\n  pub list : List ℕ\n\n"
        "abbrev pub IsAlone : ℕ → Type 0\nIsAlone n = n ≡ 1\n"
    ),
    "low/specs/CountInside.antt": "use Rattle.std.specs.Prelude.{ℕ}\n\nabbrev pub counted : ℕ → ℕ\ncounted n = n\n",
    "low/src/lib.rt": (
        "ghost use Rattle.low.specs.Words.{IsOf, IsAlone};\npub use part::{give, Given};\n"
        "pub mod part;\n"
    ),
    "low/src/part.rt": (
        "ghost use Rattle.low.specs.Words.{IsOf, IsAlone};\n"
        "pub struct Given {\n    pub number: u32,\n}\n\n"
        "pub fn give() -> Given\n    ensures of { IsOf result.number }\n    ensures alone { IsAlone result.number }\n{\n    Given { number: 0 }\n}\n"
    ),
    "high/specs/Says.antt": (
        "use Rattle.low.specs.Words.{IsOf}\nuse Rattle.std.specs.Prelude.{ℕ, length}\n\n"
        "abbrev pub Says : ℕ → Type 0\nSays n = IsOf n\n"
    ),
    "high/src/lib.rt": "ghost use Rattle.high.specs.Says.{Says};\npub fn say() -> u32\n    ensures { Says result }\n{\n    0\n}\n",
}


class Believe(Folder):
    def setUp(self):
        super().setUp()
        write(os.path.join(self.folder, "crates"), TREE)
        self.was = believe.TOP, believe.CRATES, believe.FIRST
        believe.TOP, believe.CRATES, believe.FIRST = self.folder, os.path.join(self.folder, "crates"), ("high", "Says")
        self.addCleanup(self.put_back)

    def put_back(self):
        believe.TOP, believe.CRATES, believe.FIRST = self.was

    def test_what_a_definition_rests_on(self):
        parts, of_kit = believe.rests_on("high", "Says")
        self.assertEqual([part.name for part in parts], ["Says", "IsLeast", "IsOf"])
        # A word that is imported and not used is none, and an operator that stands between its sides is one.
        self.assertEqual({name for _, name in of_kit}, {"ℕ", "List", "◌≡◌"})

    def test_numbers(self):
        said = believe.numbers(*believe.rests_on("high", "Says"))
        self.assertEqual(said, "3 definitions in 2 files, 7 lines, and 3 words of the kit")

    def check(self, page):
        write(self.folder, {"docs/PROVED.md": page})
        with self.assertRaises(SystemExit) as ended:
            believe.check()
        return str(ended.exception)

    def test_page(self):
        write(self.folder, {"docs/PROVED.md": "There are 3 definitions in 2\nfiles, 7 lines, and 3 words of the kit.\n"})
        self.assertIsNone(believe.check())
        self.assertIn("should say: 3 definitions", self.check("There are 4 definitions in 2 files, 7 lines, and 3 words of the kit.\n"))

    def test_files_that_only_proofs_use(self):
        page = "3 definitions in 2 files, 7 lines, and 3 words of the kit"
        write(self.folder, {"docs/PROVED.md": page, "crates/low/specs/Hidden.antt": "abbrev pub hidden : Type 0\nhidden = hidden\n"})
        self.assertEqual(self.check(page), "crates/low/specs/Hidden.antt: no public clause rests on it")
        os.remove(os.path.join(self.folder, "crates/low/specs/Hidden.antt"))
        write(self.folder, {"crates/high/src/lib.rt": TREE["high/src/lib.rt"].replace("Says", "counted").replace("high.specs.counted", "low.specs.CountInside")})
        self.assertIn("crates/low/specs/CountInside.antt: a public clause rests on it", self.check(page))


CODE = "fn first() -> u32 {\n    second() + 1\n}\n\nfn second() -> u32 {\n    2\n}\n\nfn third() -> u32 {\n    30\n}\n"


class Told(mutants.Crate):
    """A crate of which the prover says what is told here, by the names of the edits."""

    def __init__(self, folder, said):
        self.folder, self.said, self.tried, self.only = folder, said, [], False

    def check(self, texts, edits):
        names = " ".join(edit.name for edit in edits)
        self.tried.append(names)
        return self.said[names]


class Mutants(Folder):
    def edit(self, name, old, new, file="src/lib.rt"):
        write(self.folder, {"src/lib.rt": CODE, f"mutants/{name}.edit": f"file: {file}\nold: {old}\nnew: {new}\n"})
        return mutants.Edit(os.path.join(self.folder, "mutants", f"{name}.edit"))

    def verdict(self, said, name="second__gives_three", old="    2", new="    3"):
        edit = self.edit(name, old, new)
        return Told(self.folder, {edit.name: said}).judge([edit])[edit]

    def test_refused(self):
        said = "fn low::second: not proved: `search` did not prove it\nfn low::first: no proof: it calls `second`\nlogic=not-proved\n"
        self.assertEqual(self.verdict(said), "refused")

    def test_not_refused(self):
        self.assertEqual(self.verdict("logic=proved\n"), "NOT REFUSED")
        self.assertEqual(self.verdict("only=3 proved=3\n"), "NOT REFUSED")

    def test_only_some_were_proved(self):
        self.assertNotEqual(self.verdict("only=3 proved=2\n"), "NOT REFUSED")

    def test_only_a_caller_is_refused(self):
        said = "fn low::second: not proved; it calls `first`\nlogic=not-proved\n"
        self.assertTrue(self.verdict(said).startswith("BAD EDIT: second only calls"))

    def test_another_is_refused(self):
        said = "fn low::third: not proved: `search` did not prove it\nlogic=not-proved\n"
        self.assertEqual(self.verdict(said), "BAD EDIT: third, which it does not change, is not proved")

    def test_no_verdict(self):
        self.assertTrue(self.verdict("src/lib.rt:2:1: error: expected an expression\n").startswith("BAD EDIT: src/lib.rt:2:1: error"))
        self.assertEqual(self.verdict(""), "BAD EDIT: the prover gave no verdict")

    def test_a_definition_that_does_not_read(self):
        said = "specs/Words.antt:3:1: error: not in scope: x\nfn low::second: not proved: ..\nlogic=not-proved\n"
        self.assertTrue(self.verdict(said).startswith("BAD EDIT: specs/Words.antt:3:1"))

    def test_the_form_of_a_proof(self):
        said = "fn low::second: not proved: its answers\nproofs/second/Answers.antt:1:1: error: has no field `x`\nlogic=not-proved\n"
        self.assertEqual(self.verdict(said), "refused, perhaps by the form of its proof alone")

    def test_a_text_that_stands_twice_or_not_at_all(self):
        self.assertTrue(self.verdict("logic=proved\n", old="() -> u32 {", new="() {").startswith("BAD EDIT: its text"))
        self.assertTrue(self.verdict("logic=proved\n", old="    4", new="    5").startswith("BAD EDIT: its text"))

    def test_edits_of_two_functions_are_judged_by_one_check(self):
        edits = [self.edit("second__gives_three", "    2", "    3"), self.edit("third__gives_forty", "    30", "    40")]
        self.assertEqual(mutants.together(self.folder, edits), [edits])
        said = "fn low::second: not proved: `search` did not prove it\nlogic=not-proved\n"
        crate = Told(self.folder, {"second__gives_three third__gives_forty": said})
        self.assertEqual(crate.judge(edits), {edits[0]: "refused", edits[1]: "NOT REFUSED"})

    def test_edits_of_one_function_are_not_planted_together(self):
        edits = [self.edit("second__gives_three", "    2", "    3"), self.edit("second__gives_four", "    2", "    4")]
        self.assertEqual(mutants.together(self.folder, edits), [[edits[0]], [edits[1]]])

    def test_where_another_fails_each_half_is_tried(self):
        edits = [self.edit("second__gives_three", "    2", "    3"), self.edit("third__gives_forty", "    30", "    40")]
        told = {
            "second__gives_three third__gives_forty": "fn low::first: not proved: `search` did not prove it\nlogic=not-proved\n",
            "second__gives_three": "fn low::first: not proved: `search` did not prove it\nlogic=not-proved\n",
            "third__gives_forty": "fn low::third: not proved: `search` did not prove it\nlogic=not-proved\n",
        }
        found = Told(self.folder, told).judge(edits)
        self.assertTrue(found[edits[0]].startswith("BAD EDIT: first, which it does not change"))
        self.assertEqual(found[edits[1]], "refused")

    def test_the_table_names_edits_that_are_there(self):
        for crate, edits in mutants.of_table().items():
            self.assertTrue(edits, crate)

    def test_the_gate_tries_the_first_edit_of_each_row(self):
        row = "| a bug | low: [give__{0}](../crates/low/mutants/give__{0}.edit), [give__{1}](../crates/low/mutants/give__{1}.edit) | |\n"
        page = f"## Planted bugs\n\n{row.format('one', 'two')}{row.format('three', 'four')}\n### Others\n\n{row.format('five', 'six')}"
        write(self.folder, {"page": "# Theorems\n\n" + page})
        with unittest.mock.patch.multiple(mutants, TABLE=os.path.join(self.folder, "page"), edits_of=lambda crate, names: (crate, names)):
            self.assertEqual(mutants.of_table(), {"low": ("low", ["give__one", "give__three"])})

    def tried(self, edits, said):
        crate = Told(self.folder, said)
        printed = io.StringIO()
        with unittest.mock.patch.object(mutants, "Crate", lambda *_: crate), contextlib.redirect_stdout(printed):
            return mutants.tried("low", edits), crate.tried, printed.getvalue()

    def test_what_passes_beside_others_is_tried_alone(self):
        edits = [self.edit("second__gives_three", "    2", "    3"), self.edit("third__gives_forty", "    30", "    40")]
        second, third = ("fn low::%s: not proved: `search` did not prove it\nlogic=not-proved\n" % name for name in ("second", "third"))
        both, alone = "second__gives_three third__gives_forty", "third__gives_forty"
        self.assertEqual(self.tried(edits, {both: second, alone: third})[:2], (0, [both, alone]))
        bad, _, printed = self.tried(edits, {both: second, alone: "logic=proved\n"})
        self.assertEqual(bad, 1)
        self.assertIn("low/third__gives_forty: NOT REFUSED\n", printed)

    def test_an_edit_of_a_definition_is_planted_alone(self):
        write(self.folder, {"specs/Words.antt": "one = 1\n"})
        law = self.edit("second__speaks_of_two", "one = 1", "one = 2", "specs/Words.antt")
        self.assertEqual(len(mutants.together(self.folder, [self.edit("third__gives_forty", "    30", "    40"), law])), 2)
        # Whatever else is not proved then, the law is not.
        said = "fn low::second: not proved: ..\nfn low::third: not proved: `search` did not prove it\nlogic=not-proved\n"
        self.assertEqual(Told(self.folder, {law.name: said}).judge([law])[law], "refused")

    def test_functions_in_a_cycle_of_calls_have_one_proof(self):
        edit = self.edit("second__gives_three", "    2", "    3")
        write(self.folder, {"src/lib.rt": CODE.replace("fn second", "#[cycle(round)]\nfn second").replace("fn th", "#[cycle(round)]\nfn th")})
        edit = mutants.Edit(os.path.join(self.folder, "mutants", f"{edit.name}.edit"))
        self.assertEqual(edit.changes, {"second", "+second", "third", "+round"})
        said = "proofs/+round/Answers.antt:1:1: error: has no field `x`\nfn low::second: not proved: its answers\nlogic=not-proved\n"
        self.assertEqual(Told(self.folder, {edit.name: said}).judge([edit])[edit], "refused, perhaps by the form of its proof alone")

    def test_how_the_prover_names_a_function(self):
        path = lambda name, old, file="src/lib.rt": mutants.path_of(self.folder, self.edit(name, old, "x", file))
        write(self.folder, {"src/part.rt": "impl<T: Drop> Given<T> {\n    pub fn give(self) -> u32 {\n        5\n    }\n}\n\n"
                            "impl From<Given> for Kept {\n    fn from(it: Given) -> Kept {\n        Kept(6)\n    }\n}\n\n"
                            "fn fourth() {\n    7;\n}\n"})
        self.assertEqual(path("second__gives_three", "    2"), "second")
        self.assertEqual(path("fourth__gives_eight", "    7;", "src/part.rt"), "part::fourth")
        self.assertEqual(path("give__six", "        5", "src/part.rt"), "Given::give")
        self.assertEqual(path("from__seven", "Kept(6)", "src/part.rt"), "KeptFromGiven::from")
        self.assertEqual(path("fourth__by_another_file", "    2"), "part::fourth")


class Links(Folder):
    def setUp(self):
        super().setUp()
        write(os.path.join(self.folder, "crates"), TREE)
        patch = unittest.mock.patch.object(links, "TOP", self.folder)
        patch.start()
        self.addCleanup(patch.stop)

    def faults(self, text):
        write(self.folder, {"docs/PAGE.md": "# A head, with `code`\n\n" + text})
        return list(links.faults("docs/PAGE.md"))

    def test_what_stands(self):
        self.assertEqual(self.faults("[`give`, `Given`](../crates/low/src/part.rt) [crates](../crates) [here](#a-head-with-code)"), [])

    def test_what_does_not(self):
        self.assertEqual(self.faults("[`gives`](../crates/low/src/part.rt)"), ["../crates/low/src/part.rt has no gives"])
        self.assertEqual(self.faults("[a](PAGES.md)"), ["PAGES.md is not there"])
        self.assertEqual(self.faults("[a](#a-foot)"), ["#a-foot: no such heading"])
        self.assertEqual(self.faults("[a](https://swift.org)"), ["https://swift.org leads out of the repository"])

    def test_what_crates_name(self):
        write(self.folder, {"crates.txt": "low:\nhigh: low futures # a note\n"})
        self.assertEqual(list(links.unnamed()), ["crates.txt: no file of high names futures"])


class Examples(Folder):
    def faults(self, program, files):
        for name in os.listdir(self.folder):
            os.remove(os.path.join(self.folder, name))
        write(self.folder, {f"it{ending}": text for ending, text in files.items()})
        return list(examples.faults([script(self.folder, "program", program)], b"", os.path.join(self.folder, "it")))

    def test_as_it_has_to_be(self):
        self.assertEqual(self.faults("echo a; echo b >&2; exit 3", {".out": "a\n", ".err": "b\n", ".status": "3"}), [])
        self.assertEqual(self.faults("echo a; echo b >&2", {".has": "b\na\n"}), [])

    def test_arguments(self):
        write(self.folder, {"it.args": "run --schedule 't0.0 t1.0' it.actors\n"})
        self.assertEqual(examples.arguments(os.path.join(self.folder, "it")), [b"run", b"--schedule", b"t0.0 t1.0", b"it.actors"])

    def test_otherwise(self):
        self.assertEqual(self.faults("exit 1", {}), ["status 1 and not 0"])
        self.assertEqual(self.faults("echo a", {}), ["other output"])
        self.assertEqual(self.faults("echo b >&2", {".err": "a\n"}), ["says 'b\\n'"])
        self.assertEqual(self.faults("echo a", {".has": "a\nb\n"}), ["lacks 'b'"])


class Cases(Folder):
    def programs(self, swiftrun="exit 0\n", nuchapay="cat\n"):
        return cases.Programs(script(self.folder, "swiftrun", swiftrun), script(self.folder, "nuchapay", nuchapay), None)

    def test_texts(self):
        self.assertEqual(cases.expand(rb"a\x0A\3(b\#,\x2E\)c"), b"a\nb0,.b1,.b2,.c")
        self.assertEqual(cases.rows_of(b"(\\$)\n1\n\n2"), [b"(1)", b"()", b"(2)"])
        self.assertEqual(cases.parsed(b"No case.\n== read A\nx\n\n== run B\n"), [(b"read A", b"x\n"), (b"run B", b"")])

    def test_ends(self):
        short = b"".join(b"%d\n" % n for n in range(16))
        self.assertEqual(cases.ends(short), short)
        told = cases.ends(short + b"x\n").splitlines()
        self.assertEqual((len(told), told[7], told[9]), (17, b"7", b"9"))
        self.assertTrue(told[8].startswith(b".. 1 lines more, 40 bytes in all, sum "))

    def test_what_is_read(self):
        self.assertEqual(self.programs().write("read", b"a\n"), b"a\n")
        self.assertIn(b"wrong: this is not read again", self.programs(nuchapay="cat\necho b\n").write("read", b"a\n"))
        refused = self.programs(nuchapay="echo 'nuchapay: line 1: S2 unexpected token' >&2\nexit 3\n")
        self.assertEqual(refused.write("read", b"a\n"), b"line 1: S2 unexpected token\n")
        self.assertIn(b"wrong", self.programs(nuchapay="exit 4\n").write("read", b"a\n"))
        self.assertEqual(self.programs().write("rows", b"<\\$>\n1\n2"), b"<1><2>")

    def test_what_is_the_same(self):
        programs = self.programs(nuchapay="tr -d ' '\n")
        self.assertEqual(programs.write("same", b"a b\n--\nab"), b"same\n")
        self.assertEqual(programs.write("same", b"a b\n--\nac"), b"other\n")
        self.assertEqual(programs.write("distinct", b"\\$\na\nb"), b"2 rows are distinct\n")
        self.assertIn(b"wrong: row 0 and row 2\n", programs.write("distinct", b"\\$\na\nb\n a"))

    def test_what_is_run(self):
        programs = self.programs(swiftrun="echo $#\necho 'swiftrun: why' >&2\nexit 1\n")
        self.assertEqual(programs.write("run", b""), b"0\nswiftrun: why\nstatus 1\n")
        self.assertEqual(programs.write("quiet", b""), b"1\nswiftrun: why\nstatus 1\n")
        self.assertEqual(programs.write("agree", b"").count(b"false"), 3)
        self.assertEqual(self.programs(swiftrun="echo 1\n").write("agree", b"").count(b"true"), 3)

    def test_an_area(self):
        cases.FOLDER = self.folder
        write(self.folder, {"area/in": "== read A\na\n== read Nothing\n", "area/out": "== A\na== Nothing\n"})
        for out, is_right in ("== A\na\n== Nothing\n", True), ("== A\nb\n== Nothing\n", False), ("== B\na\n== Nothing\n", False):
            write(self.folder, {"area/out": out})
            with contextlib.redirect_stdout(io.StringIO()):
                self.assertEqual(cases.is_right(self.programs(nuchapay="awk 1\n"), Alone(), "area"), is_right)


class Alone:
    """Makes calls one after another."""

    map = staticmethod(map)


class Marks(unittest.TestCase):
    def test_what_is_said(self):
        said = "error[S5]: unknown name\n  --> <stdin>:12:4\n   |\n12 | let\n   |    ^^\n"
        self.assertEqual(marks.mark_of(said), ("S5", 12, 4, 2))
        self.assertIsNone(marks.mark_of(said.replace("^^", "  ")))
        self.assertIsNone(marks.mark_of(said.replace("12:4", "12:5")))

    def test_places(self):
        place = {"from": 4, "to": 6, "line": 2, "column": 2}
        self.assertEqual(list(marks.place_faults(b"ab\ncde\n", place)), [])
        self.assertEqual(len(list(marks.place_faults(b"ab\nc", place))), 1)
        self.assertEqual(len(list(marks.place_faults(b"abc\nde", place))), 1)

    def test_json(self):
        said = "error[S5]: unknown name\n --> <stdin>:1:4\n  |\n1 | let\n  |    ^^\n  = help: b\nnote: c\n --> <stdin>:1:2\n"
        found = {
            "severity": "error", "code": "S5", "line": 1, "column": 4, "expected": "", "help": "b",
            "second": {"label": "c", "line": 1, "column": 2},
        }
        self.assertEqual(list(marks.told_faults(said, found)), [])
        for name, other in (("code", "S4"), ("column", 5), ("help", "d"), ("second", None), ("expected", "e")):
            self.assertNotEqual(list(marks.told_faults(said, {**found, name: other})), [], name)


class Reports(unittest.TestCase):
    def test_a_schedule(self):
        step = lambda word, task, turn: {"is": word, "task": task, "turn": turn}
        first, other = [step("begin", 0, 0), step("run", 0, 0)], [step("begin", 1, 0), step("run", 1, 0)]
        steps = [{"is": "add"}, *first, step("begin", 0, 1), *other, step("run", 0, 1)]
        self.assertEqual(list(reports.turns(steps)), ["t0.0", "t0.1..", "t1.0", "..t0.1"])

    def test_a_report(self):
        told = {"tasks": [{"task": 0, "from": "root", "root": "a", "ending": {"is": "value", "value": 7}},
                          {"task": 1, "from": "spawned", "by": 0, "ending": {"is": "fault", "fault": "thrown", "value": 3}}],
                "fields": {"A": {"n": 1}}}
        self.assertEqual(list(reports.lines(told)), ["tasks", "t0 root a value 7", "t1 spawned t0 fault thrown 3", "fields", "A.n 1"])
        self.assertEqual(reports.names(told["tasks"]), ["a", "a/1"])

    def test_a_turn(self):
        turn = {"place": 2, "task": 0, "turn": 1, "worker": 3, "method": "A.f", "priority": 2, "cancelled": True,
                "resume": {"is": "go"}, "exit": {"is": "close", "fault": "overflow"}}
        self.assertEqual(reports.turn_line(turn), "2 t0.1 w3 A.f p2 c1 go -> close fault overflow")


class Pages(Folder):
    def test_tables(self):
        write(self.folder, {"docs/LANGUAGE.md": "| A | B |\n|---|---|\n| `a||b` | 1 |\n\ntext\n\n| A | B |\n|---|---|\n| d | 2 |\n"})
        with unittest.mock.patch.object(pages, "TOP", self.folder):
            self.assertEqual(pages.tables(), {("A", "B"): [("`a||b`", "1"), ("d", "2")]})

    def test_a_page(self):
        said = "S9 title\n\nWhen: a\nThen: b\nWhat to do: c\n\nFor example:\n\n    actor A { }\n\nMended:\n\n    actor B { }\n"
        write(self.folder, {"said": said})
        page = pages.Page(script(self.folder, "program", f"cat {self.folder}/said\n"), "S9")
        self.assertEqual((page.title, page.parts["What to do"], page.scripts), ("title", "c", ["actor A { }", "actor B { }"]))


class Refusals(Folder):
    def case(self, program):
        return refusals.Case(script(self.folder, "program", program), "", "a", "b")

    def test_which_allocations_are_refused(self):
        for last, count, some in ((300, 300, 150), (301, 215, 108), (3_000, 269, 142)):
            case = self.case("exit 0\n")
            case.count = lambda last=last: last
            numbers = list(case.numbers(False))
            self.assertEqual((len(numbers), numbers[-1]), (count, last))
            self.assertIn(some, numbers)
            self.assertEqual(list(case.numbers(True)), list(range(1, last + 1)))

    def test_how_many_there_are(self):
        # A program that is refused something where the number is at most 77.
        self.assertEqual(self.case('[ "$REFUSE" -le 77 ] && echo x >&"$REFUSE_TELL"; echo "== b"\n').count(), 77)

    def test_what_is_wrong(self):
        self.assertIsNone(self.case('echo "== b"\n').run(1)[1])
        self.assertEqual(self.case('echo "== c"\n').run(1), (False, "another text"))
        self.assertEqual(self.case("exit 1\n").run(1), (False, "status 1"))
        self.assertEqual(self.case('echo x >&"$REFUSE_TELL"; exit 1\n').run(1), (True, refusals.UNREAD))


class Counts(Folder):
    def setUp(self):
        super().setUp()
        write(os.path.join(self.folder, "crates"), TREE)
        write(self.folder, {
            "crates/low/proofs/A.antt": "-- a lemma\n\na : ℕ\na = 0\n",
            "crates/low/mutants/give__one.edit": "file: src/part.rt\n",
            "docs/THEOREMS.md": "# Theorems\n\n## Planted bugs\n\n| [give__one](../crates/low/mutants/give__one.edit) |\n\n### Others\n",
        })
        was = counts.TOP
        counts.TOP = self.folder
        self.addCleanup(setattr, counts, "TOP", was)

    def test_what_is_counted(self):
        self.assertEqual(counts.crates(), ["high", "low"])
        self.assertEqual(counts.lines("low", "proofs", ".antt", "--"), 2)
        self.assertEqual(counts.lines("low", "specs", ".antt", "--"), 11)
        self.assertEqual(counts.in_table(), 1)
        self.assertEqual((counts.rounded(1499, 1000), counts.rounded(1500, 1000)), ("1,000", "2,000"))

    def test_the_page(self):
        table = counts.table()
        self.assertIn("| crates | 2 |", table)
        self.assertEqual(counts.parts("a\n" + table + "\nb\n"), ("a\n", table, "\nb\n"))
        with self.assertRaises(SystemExit):
            counts.parts("a page without a table\n")


class OneCore(Folder):
    def fault(self, program):
        one_core.SECONDS = 1
        return one_core.fault([script(self.folder, "program", program)], "")

    def test_a_run(self):
        write(self.folder, {"wanted": one_core.wanted()})
        self.assertIsNone(self.fault(f"cat {self.folder}/wanted"))
        self.assertIn("printed", self.fault(f"head -n 3 {self.folder}/wanted"))
        self.assertIn("status 4", self.fault("exit 4"))
        self.assertIn("did not end", self.fault("exec sleep 5"))


# What was made of two functions, one of them in a cycle of calls; a type is spelled out twice in the code of the one, once in another's.
SUM = '{"Enum":{"name":"low::Sum","referents":[]}}'
PAIR = '{"Declared":{"name":"low::Pair","referents":[%s]}}' % SUM
MADE = f'''"facade"
{{"Parent":{{}}}}
"proofs/low/add/Lts-add"
[{SUM},{PAIR},{SUM}]
"proofs/low/add/Lts-add/Given"
[{SUM}]
"proofs/low/+count/Proof"
{PAIR}
'''


class Weights(Folder):
    def test_what_weighs(self):
        write(self.folder, {"made.json": MADE})
        functions, types = weights.weigh(os.path.join(self.folder, "made.json"))
        lines = MADE.splitlines(keepends=True)
        self.assertEqual(functions, {"": len(lines[1]), "low/add": len(lines[3]) + len(lines[5]), "low/+count": len(lines[7])})
        self.assertEqual(types, {"low::Sum": (2, 2 * len(SUM)), "low::Pair": (1, len(PAIR))})


SCRIPT = """
actor a {
    var print_line1 = 1;
    var n = 0;
    invariant n >= 0;
}

actor Main {
    var print_line9 = 0;
    var print_line9_2 = 0;
    func main() { print_line9 = 1; }
}
root main = Main.main();
"""
PRINTED = ["print_line9", "print_line9_2"]


class SwiftIn(unittest.TestCase):
    def test_what_a_run_prints(self):
        self.assertEqual(swift_in.printed('taken: true false left: -3\n"a1" 7\n'), (1, 0, -3, 7))
        self.assertEqual(swift_in.printed(""), ())

    def test_the_script(self):
        self.assertEqual(swift_in.main_of(SCRIPT), ("Main", PRINTED))
        self.assertEqual(swift_in.main_of("actor A { }"), ("", []))
        self.assertNotIn("invariant", swift_in.without_invariants(SCRIPT))

    def test_what_is_listed(self):
        first = "2 outcomes\n\noutcome 1\nfields\na.print_line9 9\nMain.print_line9 1\nMain.print_line9_2 -2\n"
        self.assertEqual(swift_in.listed(first, "Main", PRINTED), {(1, -2)})
        for trap in ("a.precondition_line_ 14\n", "t0 root main fault overflow\n"):
            self.assertEqual(swift_in.listed(first + "outcome 2\n" + trap, "Main", PRINTED), {(1, -2), (swift_in.TRAP,)})

    def test_delays(self):
        text = "actor A {\n    let n = 1\n    func f() {\n        let x = n\n        n = 2\n    }\n}\n"
        self.assertEqual(swift_in.delayed(text), text.replace("let x", "delay_(); let x") + swift_in.DELAY)

    def test_random_files(self):
        self.assertEqual(random_swift.program(3), random_swift.program(3))
        for seed in range(50):
            text = random_swift.program(seed)
            self.assertEqual(text.count("{"), text.count("}"))
            self.assertIn("static func main() async {", text)


if __name__ == "__main__":
    # What the tools print of themselves is of no use here.
    with contextlib.redirect_stdout(io.StringIO()):
        unittest.main(verbosity=0)
