#!/usr/bin/env python3
"""Tests what tools/run_page.py refuses in the files of a run's page, how it writes them, and what tools/run_page_check.py compares.

    tools/run_page_test.py
"""
import os
import re
import sys
import tempfile
import unittest

sys.dont_write_bytecode = True
sys.path.insert(0, os.path.dirname(os.path.abspath(__file__)))
import run_page
import run_page_check


class Files(unittest.TestCase):
    def test_what_may_not_stand_there(self):
        for line in ('element.innerHTML = name;', 'fetch("x")', 'console.log(1);', '<img src="x.png">', 'background: url(x.png)', '@import "x";',
                     'open("https://example.org")', 'document.write(name)', 'eval(name)'):
            self.assertEqual(len(list(run_page.faults("run.js", line + "\n"))), 1, line)

    def test_what_may(self):
        self.assertEqual(list(run_page.faults("run.js", 'document.createElementNS("http://www.w3.org/2000/svg", name);\n')), [])

    def test_length(self):
        self.assertEqual(list(run_page.faults("run.js", ";\n" * run_page.LINES)), [])
        self.assertEqual(len(list(run_page.faults("run.js", ";\n" * (run_page.LINES + 1)))), 1)

    def test_end_of_its_element(self):
        self.assertEqual(len(list(run_page.faults("run.js", 'const end = "</SCRIPT>";\n'))), 1)

    def test_own_files(self):
        for name in run_page.FILES:
            self.assertEqual(list(run_page.faults(name, run_page.content(name))), [])

    def test_sums(self):
        front, middle, end = run_page.parts(code="one", style="two")
        self.assertIn("default-src 'none'", front)
        for text, place in (("one", "script-src"), ("two", "style-src")):
            self.assertIn(f"{place} '{run_page.sum_of(text)}'", front)
        self.assertTrue(front.endswith('id="report">\n') and middle.endswith('id="more">\n') and "<script>one</script>" in end)

    def test_literals(self):
        self.assertEqual(run_page.literal('a "b" \\u2192\n'), '"a \\"b\\" \\\\u2192\n"')


    def test_layout(self):
        line = "x" * (run_page.WIDE - len('pub(crate) static A: &str = "'))
        self.assertEqual(run_page.static("A", "One.", line + "\ny\n"), f'/// One.\npub(crate) static A: &str = "{line}\ny\n";\n')
        self.assertEqual(run_page.static("A", "One.", line + "x\ny\n"), f'/// One.\npub(crate) static A: &str =\n    "{line}x\ny\n";\n')

    def test_pieces_of_the_page(self):
        front, middle, end = run_page.parts()
        page = front + middle + end
        for name in run_page.FILES[1:]:
            self.assertEqual(page.count(run_page.content(name)), 1, name)
        self.assertNotRegex(page, "@[A-Za-z.]+@")

    def test_statics(self):
        # What stands in the files of statics, without what Rust wants of them, is the page.
        found = {}
        for text in run_page.sources().values():
            for name, value in re.findall(r'static ([A-Z]+): &str =\s+"((?:[^"\\]|\\.)*)";\n', text):
                found[name] = re.sub(r"\\(.)", r"\1", value)
        names = ("HEAD", "STYLE", "BODY", "MIDDLE", "BELOW", "RUN", "WORDS", "METHOD", "LANES", "CHOSEN", "READER", "END")
        self.assertEqual(sorted(found), sorted(names))
        self.assertEqual("".join(found[name] for name in names), "".join(run_page.parts()))

    def test_other_statics(self):
        with tempfile.TemporaryDirectory() as folder:
            for name, text in run_page.sources().items():
                with open(os.path.join(folder, name), "w", encoding="ascii") as file:
                    file.write(text)
            self.assertEqual(list(run_page.other_files(folder, run_page.sources())), [])
            with open(os.path.join(folder, "words.rt"), "a", encoding="ascii") as file:
                file.write("\n")
            os.rename(os.path.join(folder, "run.rt"), os.path.join(folder, "old.rt"))
            self.assertEqual(list(run_page.other_files(folder, run_page.sources())), ["run.rt", "words.rt", "old.rt"])


class Data(unittest.TestCase):
    def page(self, report, more):
        front, middle, end = run_page.parts()
        return front + report + middle + more + end

    def test_pieces(self):
        self.assertEqual(run_page_check.data_of(self.page("{}\n", '{"name":"a \\u003c b"}\n')), ("{}\n", '{"name":"a \\u003c b"}\n'))
        self.assertEqual(run_page_check.plain("a \\u003c\\u003e\\u0026"), "a <>&")

    def test_markup(self):
        for byte in "<>&":
            with self.assertRaises(ValueError):
                run_page_check.data_of(self.page("{}\n", f'{{"name":"{byte}"}}\n'))

    def test_other_ends(self):
        with self.assertRaises(ValueError):
            run_page_check.data_of(self.page("{}\n", "{}\n") + " ")

    def test_notes(self):
        said = "journals\nexecutor A priority turns 2\n0 t0.0 w0 A.f p2 c0 start -> yield\n    A.n 1 -> 2\n1 t0.1 w0 A.f p2 c0 go -> fault invariant\n"
        said += "    would have left A.n 2 -> 3\n    invariant ( n < 3 ) of A is false with n 3\ntasks\nt0 root a fault invariant\n"
        self.assertEqual(run_page_check.noted(said), {"t0.0": (True, ["A.n 1 -> 2"]), "t0.1": (False, ["A.n 2 -> 3"])})

    def test_fields_at_each_turn(self):
        report = {"journals": [{"records": [{"task": 0, "turn": 0}, {"task": 0, "turn": 1}]}], "fields": {"A": {"n": 2, "m": 5}}}
        more = {"log": [["begin", 0, 0], ["apply", 0, 0], ["begin", 0, 1], ["apply", 0, 1]], "values": [[["kept", "A.n 1 -> 2"], ["broke", "A.n 2 -> 3"]]]}
        self.assertEqual(run_page_check.expected_fields(report, more), {
            "t0.0": [["A.n", "1", "2"], ["A.m", "5", "5"]],
            "t0.1": [["A.n", "2", "2 3"], ["A.m", "5", "5"]],
        })


if __name__ == "__main__":
    unittest.main()
