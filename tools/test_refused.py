"""Tests of tools/refused, with programs that stand in for the runner: one that leaves all as it was, and some that do not."""
from __future__ import annotations

import contextlib
import importlib.machinery
import importlib.util
import io
import os
import subprocess
import sys
import tempfile
import unittest
from typing import Any

TOOL = f"{os.path.dirname(os.path.abspath(__file__))}/refused"
# A runner with one queue, which makes a request before its first call, one for each call, and one for its lines; it refuses them
# itself, as the library would. FAULT is run where a call is refused.
PROGRAM = """
import json, os, sys
at, on, count = int(os.environ.get("REFUSED_AT", 0)), "REFUSED_ON" in os.environ, 0

def refused():
    global count
    count += 1
    if at and count == at:
        open(os.environ["REFUSED_TO"], "w").close()
    return at and (count == at or on and count > at)

def memory():
    print("memory", file=sys.stderr)
    sys.exit(3)

if refused():
    memory()
calls = json.load(open(sys.argv[3 if sys.argv[1] == "select" else 2]))["calls"]
db = sys.argv[-1] if "--db" in sys.argv else None
waiting = json.load(open(db)) if db and os.path.exists(db) else []
numbers, lines, status = {}, [], 0
for call in calls:
    line = "ok"
    publish = lambda: None
    if call["op"] == "send":
        session = tuple(call["s"])
        numbers[session] = numbers.get(session, 0) + 1
        line = f"sent {numbers[session]}"
        publish = lambda: "queue" in call and waiting.append([*session, numbers[session]])
    take = call["op"] == "receive" and bool(waiting)
    if call["op"] == "receive":
        line = f"message {waiting[0]}" if waiting else "none"
    if refused():
        line, status = "refused Memory", 3
        FAULT
    else:
        publish()
        waiting = waiting[1:] if take else waiting
    lines.append(line)
if refused():
    memory()
if "--threads" in sys.argv and refused():
    status = 3
if sys.argv[1] == "lone":
    lines = [line for line in lines if line.startswith("message") or line == "none"]
for number, line in enumerate(lines, 1):
    print(number, line)
if db:
    json.dump(waiting, open(db, "w"))
sys.exit(status)
"""
# A program with two calls on a list of 3 items, the first of which makes two requests: one for what it is made on, and one of its own.
CALLS = """
import os, sys
at, on, count = int(os.environ.get("REFUSED_AT", 0)), "REFUSED_ON" in os.environ, 0
items = [1, 2, 3]

def refused():
    global count
    count += 1
    if at and count == at:
        open(os.environ["REFUSED_TO"], "w").close()
    return at and (count == at or on and count > at)

def grown():
    if refused():
        FAULT
        return "memory"
    items.append(4)
    return str(len(items))

def copied():
    return "memory" if refused() else str(len(items[:]))

for number, name, call in ((0, "jm_a List::grow", grown), (32, "jm_b copy", copied)):
    if sys.argv[1:] not in ([], [str(number)]):
        continue
    if refused():
        print("memory", file=sys.stderr)
        sys.exit(3)
    items[:] = [1, 2, 3]
    before, answer = len(items), call()
    left = f", {before} left {len(items)}, {call()}" if answer == "memory" else ""
    print(f"{number} {name}: {answer}{left}")
"""
SEND = {"op": "send", "s": [1, 1], "queue": "q", "now": 0, "text": "a"}
RECEIVE = {"op": "receive", "s": [2, 1], "k": 1, "now": 0}
SCENARIO = {"calls": [{"op": "start", "c": 1}, SEND, SEND, RECEIVE, SEND, RECEIVE]}
AFTER = {"calls": [RECEIVE, RECEIVE]}


def load() -> Any:
    """Returns the tool as a module, whose library is none."""
    loader = importlib.machinery.SourceFileLoader("refused", TOOL)
    made = importlib.util.module_from_spec(importlib.util.spec_from_loader("refused", loader))
    sys.modules["refused"] = made
    loader.exec_module(made)
    made.library = lambda room: ""
    return made


class Refused(unittest.TestCase):
    def told(self, fault: str, *ways: tuple[Any, ...]) -> tuple[str, int]:
        """Returns what the tool prints of a program with that fault, and its status: of one run and of one over a store, or
        of those named."""
        tool = load()
        with tempfile.TemporaryDirectory() as room:
            for name, scenario in (("one", SCENARIO), ("two", AFTER)):
                with open(f"{room}/{name}.json", "w", encoding="utf-8") as it:
                    tool.json.dump(scenario, it)
            with open(f"{room}/program.py", "w", encoding="utf-8") as it:
                it.write(PROGRAM.replace("FAULT", fault))
            tool.SCENARIOS, tool.RUNS = room, [tool.Way(*it) for it in ways or (("one",), ("one", "two"))]
            printed = io.StringIO()
            with contextlib.redirect_stdout(printed):
                status = tool.main([sys.executable, "-IS", f"{room}/program.py"])
        return printed.getvalue(), status

    def test_all_is_left_as_it_was(self) -> None:
        printed, status = self.told("pass")
        # eight requests a run; each alone, and each with all behind it, of two runs
        self.assertEqual(printed, "one: 8 requests\none: 8 requests\n32 passed, 0 failed\n")
        self.assertEqual(status, 0)

    def test_runs_on_threads(self) -> None:
        printed, status = self.told("pass", ("one", "two", ("run",), ("--threads",)))
        # one request more, for the audit
        self.assertEqual((printed, status), ("one --threads: 9 requests\n18 passed, 0 failed\n", 0))

    def test_what_is_told_of_one_subscription(self) -> None:
        way = ("one", None, ("lone",), ("key",))
        self.assertEqual(self.told("pass", way), ("'lone' one key: 8 requests\n16 passed, 0 failed\n", 0))
        # (two calls that are left out, where one was refused)
        self.assertEqual(self.told("waiting = waiting[2:]", way)[1], 1)

    def test_what_tells_of_no_call(self) -> None:
        printed, status = self.told("pass", ("one", None, ("select", "x")))
        self.assertIn("'select' 'x' one: request 2:", printed)
        self.assertEqual(status, 1)

    def test_a_number_may_be_free_again(self) -> None:
        printed, status = self.told("numbers.update({tuple(call['s']): numbers[tuple(call['s'])] - 1} if call['op'] == 'send' else {})")
        self.assertEqual((printed.splitlines()[-1], status), ("32 passed, 0 failed", 0))

    def test_what_was_refused_is_done(self) -> None:
        for fault in ("publish()", "waiting = waiting[1:] if take else waiting"):
            printed, status = self.told(fault)
            self.assertIn("without what was refused", printed)
            self.assertEqual(status, 1)

    def test_another_answer(self) -> None:
        self.assertEqual(self.told("line = 'none'")[1], 1)

    def test_another_status(self) -> None:
        self.assertEqual(self.told("status = 0")[1], 1)

    def test_a_program_that_dies(self) -> None:
        printed, status = self.told("os.abort()")
        self.assertIn("status -6", printed)
        self.assertEqual(status, 1)

    def test_a_store_that_keeps_what_was_refused(self) -> None:
        printed, status = self.told("db and call['op'] == 'receive' and waiting.append([9, 9, 9])")
        self.assertIn("another run finds", printed)
        self.assertEqual(status, 1)

    def told_of_calls(self, fault: str, listed: str = "jm_a List::grow\njm_b copy", none: str = "") -> tuple[str, int]:
        """Returns what the tool prints of a program that makes calls, with that fault, and its status."""
        tool = load()
        lists = {"ONE_BY_ONE": listed, "WHOLE_RUNS": "", "TAKE_NONE": none}
        tool.listed = lambda name: [it for it in lists[name].split("\n") if it]
        with tempfile.TemporaryDirectory() as room:
            with open(f"{room}/program.py", "w", encoding="utf-8") as it:
                it.write(CALLS.replace("FAULT", fault))
            printed = io.StringIO()
            with contextlib.redirect_stdout(printed):
                status = tool.main(["--calls", sys.executable, "-IS", f"{room}/program.py"])
        return printed.getvalue(), status

    def test_calls_that_leave_all_as_it_was(self) -> None:
        printed, status = self.told_of_calls("pass")
        # two requests each; each alone, and each with all behind it
        self.assertEqual(printed, "jm_a List::grow: 2 requests\njm_b copy: 2 requests\n8 passed, 0 failed\n")
        self.assertEqual(status, 0)

    def test_a_call_that_changes_something(self) -> None:
        printed, status = self.told_of_calls("items.append(4)")
        self.assertIn("3 left 4, 5: it changed something", printed)
        self.assertEqual(status, 1)

    def test_a_call_that_is_answered_otherwise(self) -> None:
        self.assertIn("with ample memory 4", self.told_of_calls("return '3'")[0])
        # (and where it is made again)
        printed, _ = self.told_of_calls("globals().update(refused=lambda: items.append(0)); return 'memory'")
        self.assertIn("memory, 3 left 3, 5; with ample memory 4", printed)

    def test_a_call_that_dies_or_says_nothing(self) -> None:
        self.assertIn("status -6", self.told_of_calls("os.abort()")[0])
        self.assertEqual(self.told_of_calls("sys.exit(0)")[1], 1)

    def test_a_call_that_makes_no_request(self) -> None:
        printed, status = self.told_of_calls("items.append(4); return str(len(items))")
        self.assertIn("jm_a List::grow: request of its own: none was refused", printed)
        self.assertEqual(status, 1)

    def test_a_call_that_is_to_make_no_request(self) -> None:
        printed, status = self.told_of_calls("return str(len(items) + 1)", "jm_b copy", "jm_a List::grow")
        self.assertNotIn("jm_a List::grow: request of its own", printed)
        printed, status = self.told_of_calls("pass", "jm_b copy", "jm_a List::grow")
        self.assertIn("jm_a List::grow: request of its own: one was refused", printed)
        self.assertEqual(status, 1)

    def test_the_calls_are_those_of_the_list(self) -> None:
        printed, status = self.told_of_calls("pass", "jm_a List::grow\njm_c take")
        self.assertIn("jm_c take: request of a call that is not made\njm_b copy: request of a call that is not listed\n", printed)
        self.assertEqual(status, 1)

    def test_the_calls_of_this_repository(self) -> None:
        self.assertIn("jm_base Str::copy", load().listed("ONE_BY_ONE"))

    def test_the_library_refuses_what_the_program_asks_for(self) -> None:
        tool = load()
        if tool.compiler() is None:
            self.skipTest("there is no C compiler")
        source = "#include <stdlib.h>\n#include <stdio.h>\nint main(void) { for (int i = 0; i < 4; i++) printf(\"%d\", malloc(8) != NULL); }"
        with tempfile.TemporaryDirectory() as room:
            subprocess.run([tool.compiler(), "-O0", "-x", "c", "-o", f"{room}/program", "-"], input=source, text=True, check=True)
            words = [tool.compiler(), "-shared", "-fPIC", "-o", f"{room}/refused.so", f"{TOOL}.c"]
            subprocess.run(words, check=True)
            limits = {"LD_PRELOAD": f"{room}/refused.so", "REFUSED_AT": "3", "REFUSED_TO": f"{room}/told"}
            run = lambda more: subprocess.run([f"{room}/program"], env={**os.environ, **limits, **more}, capture_output=True, text=True, check=True)
            self.assertEqual(run({}).stdout, "1101")
            self.assertTrue(os.path.exists(f"{room}/told"))
            self.assertEqual(run({"REFUSED_ON": "1"}).stdout, "1100")


if __name__ == "__main__":
    unittest.main()
