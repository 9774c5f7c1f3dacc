"""Tests of tools/wrong-bodies: small repositories with planted edits, and the checker itself."""
from __future__ import annotations

import importlib
import os
import shutil
import subprocess
import sys
import tempfile
import unittest
from types import ModuleType

TOOL = f"{os.path.dirname(os.path.abspath(__file__))}/wrong-bodies"
PROVE = f"{os.path.dirname(os.path.abspath(__file__))}/prove"
HEAD = "#![tactic(auto)]\n\nghost use Rattle.std.specs.Prelude.{◌≡◌, ◌≤◌};\n"
LARGER = """
pub fn larger(a: u64, b: u64) -> u64
    ensures left { a ≤ result }
    ensures right { b ≤ result }
{
    if a < b { b } else { a }
}
"""
GREATER = """
pub fn greater(a: u64, b: u64) -> u64
    ensures left { a ≤ result }
    ensures right { b ≤ result }
{
    if b < a { a } else { b }
}
"""
ANSWERS = """use Rattle.std.proofs.Common.{rules}

pub returns-else-b-a-clause-right : goal.returns-else-b-a-clause-right
returns-else-b-a-clause-right c = search rules
"""
LARGEST = """
pub fn largest(a: u64, b: u64, c: u64) -> u64
    ensures first { a ≤ result }
    ensures second { b ≤ result }
    ensures third { c ≤ result }
{
    larger(greater(a, b), c)
}
"""
LIMITED = """
const LIMIT: u64 = 9;

pub fn limited(a: u64) -> u64
    ensures { result ≤ 9 }
{
    if a < LIMIT { a } else { LIMIT }
}
"""
TOPMOST = LARGEST.replace("largest", "topmost").replace("larger(greater(a, b), c)", "larger(c, larger(a, b))")
# Each crate's text, and its edits: a name, the function, the text and what takes its place.
CRATES = {
    "whole": (
        HEAD + LARGER + GREATER + LARGEST + TOPMOST + LIMITED,
        [
            ("larger_is_smaller", "larger", "if a < b { b }", "if b < a { b }"),
            # A right body, with a proof of its own in a file, over one that is wrong in the same check.
            ("largest_in_another_order", "largest", "larger(greater(a, b), c)", "larger(a, greater(b, c))"),
            # What that one calls: its goal is one that is answered by hand, and then one of a way out more.
            ("greater_is_first", "greater", "else { b }", "else { a }"),
            ("greater_is_early", "greater", "if b < a { a }", "if a < 7 { return a; } if b < a { a }"),
            ("limit_is_ten", "limited", "const LIMIT: u64 = 9;", "const LIMIT: u64 = 10;"),
            # The same without such a file.
            ("topmost_in_another_order", "topmost", "larger(c, larger(a, b))", "larger(larger(c, a), b)"),
        ],
    ),
    "part": (
        HEAD + LARGER + LIMITED,
        [
            ("limits_not_less", "limited", "if a < LIMIT", "if a <= LIMIT"),
            # In twins, a wrong body and one that is right.
            ("limits_to_ten", "limited", "else { LIMIT }", "else { LIMIT + 1 }"),
            ("limits_to_nine", "limited", "else { LIMIT }", "else { 9 }"),
            ("names_nothing", "larger", "else { a }", "else { c }"),
            ("stands_twice", "larger", "a: u64", "c: u64"),
            ("stands_nowhere", "larger", "if a < c", "if a < d"),
            ("of_no_function", "smaller", "if a < b", "if b < a"),
        ],
    ),
    "unproved": (
        HEAD + LARGER.replace("if a < b", "if b < a"),
        [("larger_is_first", "larger", "if b < a { b } else { a }", "a")],
    ),
}


def plant(top: str) -> None:
    """Makes a repository of these crates."""
    with open(f"{top}/crates.txt", "w", encoding="utf-8") as it:
        it.write("".join(f"{name}:\n" for name in CRATES))
    for name, (text, edits) in CRATES.items():
        os.makedirs(f"{top}/crates/{name}/src")
        os.mkdir(f"{top}/crates/{name}/wrong")
        with open(f"{top}/crates/{name}/src/lib.rt", "w", encoding="utf-8") as it:
            it.write(text)
        for edit, at, old, new in edits:
            with open(f"{top}/crates/{name}/wrong/{edit}.edit", "w", encoding="utf-8") as it:
                it.write(f"at: {at}\nfile: src/lib.rt\nold: {old}\nnew: {new}\n")
    for name, answers in ("greater", ANSWERS), ("largest", ""):
        os.makedirs(f"{top}/crates/whole/proofs/{name}")
        with open(f"{top}/crates/whole/proofs/{name}/Answers.antt", "w", encoding="utf-8") as it:
            it.write(f"use Rattle.whole.proofs.{name}.Goals as goal\n{answers}")


def said(top: str, *words: str) -> tuple[list[str], int]:
    """Returns the lines that the tool prints, and its status."""
    how = {"stdin": subprocess.DEVNULL, "stdout": subprocess.PIPE, "stderr": subprocess.DEVNULL}
    ran = subprocess.run([sys.executable, TOOL, *words], cwd=top, **how)
    return ran.stdout.decode().splitlines(), ran.returncode


class OverTheChecker(unittest.TestCase):
    lines: list[str]
    status: int

    @classmethod
    def setUpClass(cls) -> None:
        with tempfile.TemporaryDirectory() as top:
            plant(top)
            cls.lines, cls.status = said(top)

    def line(self, edit: str) -> str:
        found = [it for it in self.lines if f"/{edit}.edit: " in it]
        self.assertEqual(len(found), 1, self.lines)
        return found[0].partition(".edit: ")[2]

    def test_a_wrong_body_is_refused(self) -> None:
        self.assertRegex(self.line("larger_is_smaller"), r"^larger refused: `returns-then-b-a-clause-left`")

    def test_a_wrong_body_is_refused_whose_goal_is_answered_by_hand(self) -> None:
        self.assertRegex(self.line("greater_is_first"), r"^greater refused: `returns-else-b-a-clause-right`: ")

    def test_a_wrong_way_out_is_refused_beside_answers_by_hand(self) -> None:
        self.assertEqual(self.line("greater_is_early"), "greater refused: `returns-then-a-lt7-clause-right`")

    def test_a_wrong_constant_is_refused(self) -> None:
        self.assertRegex(self.line("limit_is_ten"), "^limited refused: ")

    def test_a_right_body_fails(self) -> None:
        self.assertEqual(self.line("limits_not_less"), "limited NOT REFUSED: it is still proved")

    def test_each_edit_of_one_function_is_judged_alone(self) -> None:
        self.assertRegex(self.line("limits_to_ten"), "^limited refused: `returns")
        self.assertEqual(self.line("limits_to_nine"), "limited NOT REFUSED: it is still proved")

    def test_a_refusal_by_a_callee_alone_fails(self) -> None:
        for name in "largest", "topmost":
            self.assertRegex(self.line(f"{name}_in_another_order"), f"^{name} NOT REFUSED: it is still proved")

    def test_a_text_that_does_not_read_fails(self) -> None:
        self.assertRegex(self.line("names_nothing"), "^larger NOT REFUSED: it does not read: .*cannot find value `c`")

    def test_a_text_that_stands_not_once_fails(self) -> None:
        self.assertRegex(self.line("stands_twice"), "^NOT TRIED: .* 2 times, and not once")
        self.assertRegex(self.line("stands_nowhere"), "^NOT TRIED: .* 0 times, and not once")

    def test_a_function_that_is_not_there_fails(self) -> None:
        self.assertRegex(self.line("of_no_function"), "^smaller NOT REFUSED: it does not read: .*no function `smaller`")

    def test_an_edit_of_a_crate_that_is_not_proved_fails(self) -> None:
        self.assertEqual(self.line("larger_is_first"), "NOT TRIED: unproved is not proved without it")

    def test_the_last_line_counts_them(self) -> None:
        self.assertEqual((self.lines[-1], self.status), ("5 passed, 9 failed", 1))


class AlongsideTheChecker(unittest.TestCase):
    def test_after_ci_no_crate_is_proved_that_has_no_library(self) -> None:
        with tempfile.TemporaryDirectory() as top:
            plant(top)
            lines, status = said(top, "--after-ci", "whole")
        self.assertEqual((lines[-1], status), ("0 passed, 6 failed", 1))
        self.assertEqual({it.partition(": ")[2] for it in lines[:-1]}, {"NOT TRIED: whole is not proved without it"})

    def test_a_crate_that_is_not_there_stops_it(self) -> None:
        with tempfile.TemporaryDirectory() as top:
            plant(top)
            self.assertNotEqual(said(top, "hole"), ([], 0))

    def test_a_repository_with_no_edit_passes(self) -> None:
        with tempfile.TemporaryDirectory() as top:
            plant(top)
            for name, (_, edits) in CRATES.items():
                for edit, *_ in edits:
                    os.remove(f"{top}/crates/{name}/wrong/{edit}.edit")
            self.assertEqual(said(top), (["0 passed, 0 failed"], 0))


class AfterCi(unittest.TestCase):
    """What rt ci proved, and what an earlier run saw refused, where rt ci keeps anything."""

    runs: list[list[str]]

    @classmethod
    def setUpClass(cls) -> None:
        with tempfile.TemporaryDirectory() as top:
            plant(top)
            with open(f"{top}/crates.txt", "w", encoding="utf-8") as it:
                it.write("whole:\n")
            os.mkdir(f"{top}/.git")
            for name in {*CRATES} - {"whole"}:
                shutil.rmtree(f"{top}/crates/{name}")
            # (by tools/prove, since the kit's own command would let go of what is kept of other repositories past its bound)
            subprocess.run([sys.executable, PROVE], cwd=top, stdin=subprocess.DEVNULL, stdout=subprocess.DEVNULL, check=True)
            # (a text that no earlier run has seen)
            with open(f"{top}/crates/whole/src/lib.rt", "a", encoding="utf-8") as it:
                it.write(f"// {top}\n")
            cls.runs = [said(top, "--after-ci")[0], said(top, "--after-ci")[0]]

    def test_all_say_the_same(self) -> None:
        self.assertEqual([it[-1] for it in self.runs], ["4 passed, 2 failed"] * 2)

    def test_what_was_refused_is_not_tried_again(self) -> None:
        for number, count in enumerate([0, 4]):
            self.assertEqual(sum(it.endswith("(in an earlier run)") for it in self.runs[number]), count, self.runs[number])

    def test_what_was_not_refused_is_tried_again(self) -> None:
        self.assertIn("whole: 2 of 6 wrong bodies in", self.runs[1][-2])


class Groups(unittest.TestCase):
    SOURCE = "const A: u8 = 1;\n\n/// One.\npub(crate) fn one() -> u8\n{\n    A\n}\n\n#[cycle(turn)]\nfn two() {\n    three()\n}\n"
    tool: ModuleType

    @classmethod
    def setUpClass(cls) -> None:
        cls.tool = importlib.import_module("edits")

    def test_a_text_inside_its_function_goes_by_the_function(self) -> None:
        self.assertEqual(self.tool.group_of(self.SOURCE, "    A\n", "a::one"), "a::one")

    def test_a_text_inside_a_cycle_goes_by_the_cycle(self) -> None:
        self.assertEqual(self.tool.group_of(self.SOURCE, "three()", "a::two"), "#[cycle(turn)]")

    def test_a_function_ends_where_its_brace_does(self) -> None:
        self.assertEqual(self.tool.function_of(self.SOURCE, "three()"), ("fn two() {\n    three()\n}\n", "#[cycle(turn)]\n"))

    def test_a_text_elsewhere_goes_alone(self) -> None:
        self.assertIsNone(self.tool.group_of(self.SOURCE, "= 1;", "a::one"))
        self.assertIsNone(self.tool.group_of(self.SOURCE, "three()", "a::one"))


if __name__ == "__main__":
    unittest.main()
