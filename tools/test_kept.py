"""Tests of tools/kept.py and tools/prove, with stand-ins for the kit and its crates."""
from __future__ import annotations

import importlib
import importlib.machinery
import importlib.util
import os
import re
import subprocess
import sys
import tempfile
import time
import unittest
from types import ModuleType, SimpleNamespace
from typing import Any

HERE = os.path.dirname(os.path.abspath(__file__))


def write(path: str, text: str) -> str:
    os.makedirs(os.path.dirname(path), exist_ok=True)
    with open(path, "w", encoding="utf-8") as it:
        it.write(text)
    return path


class Low:
    """A library, or a crate of tests, that proves itself by writing what it was given."""

    is_program = False
    below_it: list[Any] = []

    def __init__(self, top: str, name: str, text: str):
        self.folder, self.name, self.said, self.out = f"{top}/crates/{name}", name, {}, sys.stderr
        self.rlib, self.proofs = f"{self.folder}/out/rlib/{name}.rlib", 0
        write(f"{self.folder}/src/lib.rt", text)

    def below(self) -> list[Any]:
        return self.below_it

    def ci(self, flags: list[str], tests: bool) -> int:
        self.proofs += 1
        self.jobs = flags[1]
        write(f"{self.folder}/out/{self.name}_tests" if tests else f"{self.rlib}/code", self.name)
        return int("wrong" in self.text())

    def count(self, what: bytes) -> int:
        return len(re.findall(what, self.text().encode()))

    def text(self) -> str:
        with open(f"{self.folder}/src/lib.rt", encoding="utf-8") as it:
            return it.read()


class Tried(unittest.TestCase):
    kept: ModuleType
    prove: ModuleType

    @classmethod
    def setUpClass(cls) -> None:
        sys.path.insert(0, HERE)
        cls.kept = importlib.import_module("kept")
        loader = importlib.machinery.SourceFileLoader("prove", f"{HERE}/prove")
        cls.prove = importlib.util.module_from_spec(importlib.util.spec_from_loader("prove", loader))
        loader.exec_module(cls.prove)

    def setUp(self) -> None:
        room = tempfile.TemporaryDirectory()
        self.addCleanup(room.cleanup)
        self.top = room.name
        self.crate = Low(self.top, "low", "fn low() {}")
        self.tried: list[str] = []
        self.jobs: list[str] = []
        self.rt = self.kit("this kit")

    def kit(self, name: str) -> Any:
        """Returns a stand-in for rt whose kit has this name."""

        class Crate(Low):
            allowed = ("Threads",)

        def must_fail_all(crate: Any, edits: list[str], flags: list[str]) -> list[tuple[bool, str]]:
            self.tried += edits
            return [("turned" in it, f"{os.path.basename(it)} told") for it in edits]

        write(f"{self.top}/{name}/WHAT", name)
        rt = write(f"{self.top}/{name}/rt", "rt")
        files_of = lambda folder: self.kept.files_below(f"{folder}/src")
        lib = SimpleNamespace(KIT=os.path.dirname(rt), __file__=rt, files_of=files_of)
        made = {"rtlib": lib, "__file__": rt, "Crate": Crate, "BACKENDS": {"llvm": ""}, "need": lambda crate: 100}
        return SimpleNamespace(**made, must_fail_all=must_fail_all, say=lambda text, out=None: None)

    def store(self, rt: Any = None, anew: bool = False) -> Any:
        return self.kept.Kept(rt or self.rt, anew, f"{self.top}/store")


class Keys(Tried):
    def test_the_same_has_the_same_key(self) -> None:
        self.assertEqual(self.store().key(self.crate), self.store().key(self.crate))

    def test_another_text_has_another(self) -> None:
        before = self.store().key(self.crate)
        write(f"{self.crate.folder}/src/lib.rt", "fn low() { }")
        self.assertNotEqual(before, self.store().key(self.crate))

    def test_another_kit_has_another(self) -> None:
        self.assertNotEqual(self.store().key(self.crate), self.store(self.kit("that kit")).key(self.crate))

    def test_other_handles_have_another(self) -> None:
        before = self.store().key(self.crate)
        self.rt.Crate.allowed = ()
        self.assertNotEqual(before, self.store().key(self.crate))

    def test_a_library_built_otherwise_gives_another(self) -> None:
        above = Low(self.top, "above", "fn above() {}")
        above.below_it = [self.crate]
        self.crate.ci(["--jobs", "1"], False)
        before = self.store().key(above)
        self.assertEqual(before, self.store().key(above))
        write(f"{self.crate.rlib}/code", "built otherwise")
        self.assertNotEqual(before, self.store().key(above))


class Entries(Tried):
    def test_what_is_kept_comes_back(self) -> None:
        write(f"{self.top}/made/out/code", "code")
        self.store().keep("name", f"{self.top}/made", ["out/code"])
        self.assertTrue(self.store().take("name", f"{self.top}/taken"))
        with open(f"{self.top}/taken/out/code", encoding="utf-8") as it:
            self.assertEqual(it.read(), "code")

    def test_what_is_not_there_is_not_taken(self) -> None:
        self.assertFalse(self.store().take("name", f"{self.top}/taken"))
        self.assertIsNone(self.store().refused("name"))

    def test_anew_takes_nothing(self) -> None:
        self.store().keep_refused("name", "why")
        self.assertEqual(self.store().refused("name"), "why")
        self.assertIsNone(self.store(anew=True).refused("name"))
        self.assertFalse(self.store(anew=True).take("name", f"{self.top}/taken"))

    def test_the_oldest_go_once_there_is_no_room(self) -> None:
        store = self.store()
        for number, name in enumerate(["first", "second", "third"]):
            store.keep_refused(name, "a why of 21 letters..")
            os.utime(f"{store.folder}/{name}", times=(number + 1, number + 1))
        self.kept.ROOM, before = 50, self.kept.ROOM
        store.drop_oldest()
        self.kept.ROOM = before
        self.assertEqual(sorted(os.listdir(store.folder)), ["second", "third"])

    def test_what_an_ended_run_left_goes(self) -> None:
        store = self.store()
        for name, age in (("aside-old", 2 * self.kept.ENDED), ("aside-new", 0)):
            write(f"{store.folder}/{name}/code", "")
            os.utime(f"{store.folder}/{name}", times=(time.time() - age,) * 2)
        store.drop_oldest()
        self.assertEqual(os.listdir(store.folder), ["aside-new"])


class Proves(Tried):
    def run_ci(self, *, tests: bool = False, anew: bool = False) -> int:
        """Has a new run prove the crate, in a checkout of its own, and returns how often it did."""
        self.prove.rt = rt = self.kit("this kit")
        crate = rt.Crate(f"{self.top}/{time.monotonic_ns()}", "low", self.crate.text())
        self.prove.over(self.store(rt, anew))
        self.status = crate.ci(["--jobs", "1"], tests)
        self.assertEqual(rt.need(crate), int(100 * self.prove.MEASURED))
        self.assertTrue(os.path.exists(f"{crate.folder}/out/low_tests" if tests else f"{crate.rlib}/code"))
        self.jobs.append(getattr(crate, "jobs", ""))
        return crate.proofs

    def test_what_was_proved_is_taken(self) -> None:
        self.assertEqual([self.run_ci(), self.run_ci(), self.status], [1, 0, 0])

    def test_a_proof_is_none_of_the_tests(self) -> None:
        self.assertEqual([self.run_ci(), self.run_ci(tests=True), self.run_ci(tests=True)], [1, 1, 0])

    def test_a_large_crate_gets_more_jobs(self) -> None:
        self.run_ci()
        write(f"{self.crate.folder}/src/lib.rt", "\n" * (self.prove.LARGE + 1))
        self.run_ci()
        self.assertEqual([self.jobs[0], self.jobs[1]], ["1", str(self.prove.JOBS)])

    def test_anew_proves_again(self) -> None:
        self.assertEqual([self.run_ci(), self.run_ci(anew=True)], [1, 1])

    def test_what_was_not_proved_is_not_kept(self) -> None:
        write(f"{self.crate.folder}/src/lib.rt", "wrong")
        self.assertEqual([self.run_ci(), self.status, self.run_ci(), self.status], [1, 1, 1, 1])

    def test_a_changed_text_is_proved_again(self) -> None:
        before = self.run_ci()
        write(f"{self.crate.folder}/src/lib.rt", "fn high() {}")
        self.assertEqual([before, self.run_ci()], [1, 1])

    def test_an_edit_that_was_refused_is_not_tried_again(self) -> None:
        paths = [write(f"{self.crate.folder}/must-fail/{it}.edit", it) for it in ("turned", "open")]
        self.prove.rt = self.rt
        self.prove.over(self.store())
        first, second = (self.rt.must_fail_all(self.crate, paths, []) for _ in range(2))
        self.assertEqual(first, [(True, "turned.edit told"), (False, "open.edit told")])
        self.assertEqual(second, [(True, "turned.edit told (in an earlier run)"), (False, "open.edit told")])
        self.assertEqual(self.tried, [*paths, paths[1]])


class OverTheChecker(unittest.TestCase):
    """Three crates: a library, a program on it, and one that is not proved."""

    FILES = {
        "crates.txt": "low:\nhigh: low\nwrong:\n",
        "HANDLES": "Handles allowed: none.\n",
        "crates/low/src/lib.rt": "#![tactic(auto)]\n\npub fn low(a: u8) -> u8\n    ensures { result ≡ a }\n{\n    a\n}\n",
        "crates/high/src/main.rt": "#![tactic(auto)]\n\nuse low::low;\n\nfn main() {\n    let _one = low(1);\n}\n",
        "crates/wrong/src/lib.rt": "#![tactic(auto)]\n\npub fn wrong() -> u8\n    ensures { result ≡ 1 }\n{\n    2\n}\n",
    }
    runs: list[tuple[list[str], int, bool]]
    kit_keeps: bool

    @classmethod
    def setUpClass(cls) -> None:
        sys.path.insert(0, HERE)
        cls.kit_keeps = hasattr(importlib.import_module("edits").rt, "Kept")
        use = "\nghost use Rattle.std.specs.Prelude.{◌≡◌};\n"
        with tempfile.TemporaryDirectory() as top, tempfile.TemporaryDirectory() as cache:
            for path, text in cls.FILES.items():
                write(f"{top}/{path}", text.replace("]\n", f"]\n{use}", 1) if "≡" in text else text)
            os.mkdir(f"{top}/.git")
            cls.runs = [cls.run_it(top, cache, it) for it in ("high", "high", "wrong", "higher")]

    @staticmethod
    def run_it(top: str, cache: str, name: str) -> tuple[list[str], int, bool]:
        how = {"stdin": subprocess.DEVNULL, "stdout": subprocess.PIPE, "stderr": subprocess.STDOUT}
        env = {**os.environ, "XDG_CACHE_HOME": cache}
        ran = subprocess.run([sys.executable, f"{HERE}/prove", name], cwd=top, env=env, **how)
        made = f"{top}/crates/{name}/out/{name}"
        is_made = os.path.isfile(made)
        if is_made:
            os.remove(made)
        return ran.stdout.decode().splitlines(), ran.returncode, is_made

    def test_what_is_named_is_proved_with_what_it_stands_on(self) -> None:
        """Where the kit keeps, these tests may have run on the machine before."""
        lines, status, is_made = self.runs[0]
        self.assertEqual((lines[-1], status, is_made), ("2 passed, 0 failed", 0, True), lines)
        self.assertTrue(self.kit_keeps or not any("earlier run" in it for it in lines), lines)

    def test_a_second_run_takes_what_the_first_saw(self) -> None:
        """What is said of it is the kit's own where the kit keeps."""
        lines, status, is_made = self.runs[1]
        self.assertEqual((lines[-1], status, is_made), ("2 passed, 0 failed", 0, True), lines)
        taken = sum("an earlier run on this machine proved it" in it for it in lines)
        self.assertTrue(taken == 2 or self.kit_keeps, lines)

    def test_what_is_wrong_fails(self) -> None:
        lines, status, is_made = self.runs[2]
        self.assertEqual((lines[-1], status, is_made), ("0 passed, 1 failed", 1, False), lines)

    def test_a_name_that_no_crate_has_is_told(self) -> None:
        lines, status, _ = self.runs[3]
        self.assertEqual((lines[0], status), ("prove: crates.txt names no crate higher", 1))


if __name__ == "__main__":
    unittest.main()
