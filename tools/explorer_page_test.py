#!/usr/bin/env python3
"""Tests how tools/explorer_page.py writes the files of the page of outcomes, and what tools/explorer_page_check.py compares.

    tools/explorer_page_test.py
"""
import os
import sys
import unittest

sys.dont_write_bytecode = True
sys.path.insert(0, os.path.dirname(os.path.abspath(__file__)))
import explorer_page
import explorer_page_check
from run_page import sum_of

BEGIN, RUN = ({"is": word, "task": 0, "turn": 0} for word in ("begin", "run"))
OTHER = {"is": "begin", "task": 1, "turn": 0}


class Files(unittest.TestCase):
    def test_own_files(self):
        self.assertEqual(list(explorer_page.own_faults()), [])

    def test_pieces_of_the_page(self):
        page = "".join(explorer_page.parts())
        for name in explorer_page.FILES[1:]:
            self.assertEqual(page.count(explorer_page.content(name)), 1, name)
        self.assertNotRegex(page, "@[A-Za-z.]+@")
        self.assertIn(f"script-src '{sum_of(explorer_page.script())}'", page)

    def test_sources(self):
        found = explorer_page.sources()
        self.assertEqual(sorted(found), ["found.rt", "frame.rt", "orders.rt", "reader.rt", "style.rt", "table.rt", "turns.rt"])


class Compared(unittest.TestCase):
    def page(self, answer="{}", more="{}"):
        front, middle, end = explorer_page.parts()
        return front + answer + middle + more + end

    def test_data(self):
        self.assertEqual(explorer_page_check.data_of(self.page("[1]", "[2]")), ("[1]", "[2]"))
        for page in (self.page("<"), self.page(more="&"), "x" + self.page(), self.page() + "x"):
            self.assertRaises(ValueError, explorer_page_check.data_of, page)

    def test_common(self):
        self.assertEqual(explorer_page_check.common(["a", "b"], ["a", "c"]), 1)
        self.assertEqual(explorer_page_check.common(["a"], ["a", "c"]), 1)
        self.assertEqual(explorer_page_check.common([], ["a"]), 0)

    def outcome(self, number, *steps):
        return {"outcome": number, "schedule": list(steps), "end": {"tasks": [{"task": 0, "from": "root", "root": "r", "ending": {"is": "value", "value": number}}], "fields": {}}}

    def seen(self):
        """What is seen of two outcomes, of which the second begins another turn in between."""
        row = lambda place, bars: {"chosen": [f"outcome {place}"], "bars": bars, "heading": "", "rows": []}
        return {
            "lines": [["t0.0"], ["t0.0..", "t1.0..", "..t0.0"]], "walk": [row(1, [-1, 0]), row(2, [0, -1])], "constant": "",
            "heads": ["Outcome", "r", "Turns"], "cells": [["outcome 1", "value 1", "1"], ["outcome 2", "value 2", "1"]],
        }

    def found(self):
        return {"expectations": [], "outcomes": [self.outcome(1, BEGIN, RUN), self.outcome(2, BEGIN, OTHER, RUN)]}

    def test_what_is_seen(self):
        self.assertEqual(list(explorer_page_check.walk_faults(self.found(), self.seen())), [])
        self.assertEqual(list(explorer_page_check.table_faults(self.found(), self.seen())), [])

    def test_a_step_late(self):
        seen = self.seen()
        seen["walk"][0]["bars"] = [-1, 1]
        self.assertEqual(len(list(explorer_page_check.walk_faults(self.found(), seen))), 1)

    def test_without_an_outcome(self):
        seen = self.seen()
        seen["cells"].pop()
        self.assertEqual(len(list(explorer_page_check.table_faults(self.found(), seen))), 1)

    def test_another_ending(self):
        seen = self.seen()
        seen["cells"][1][1] = "value 1"
        self.assertEqual(len(list(explorer_page_check.table_faults(self.found(), seen))), 1)


if __name__ == "__main__":
    unittest.main()
