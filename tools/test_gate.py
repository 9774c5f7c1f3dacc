"""Tests of tools/gate, with a stand-in for rt ci."""
from __future__ import annotations

import os
import subprocess
import sys
import tempfile
import unittest

GATE = f"{os.path.dirname(os.path.abspath(__file__))}/gate"


# A script for rt ci that builds a runner.
BUILDS = "mkdir -p crates/jmsrun/out; touch crates/jmsrun/out/jmsrun; echo '3 passed, 0 failed'"


def said(ci: str, *words: str, **files: str) -> tuple[list[str], int]:
    """Returns the lines that the gate prints in a repository with no crate's edits, where rt is that script and tools/ has
    those files, and its status."""
    with tempfile.TemporaryDirectory() as top:
        os.makedirs(f"{top}/crates/low/src")
        os.makedirs(f"{top}/crates/low/out")
        os.mkdir(f"{top}/bin")
        texts = {"crates.txt": "low:\n", "crates/low/src/lib.rt": "", "bin/rt": f"#!/bin/sh\n{ci}\n"}
        for path, text in {**texts, **{f"tools/{name}": text for name, text in files.items()}}.items():
            os.makedirs(os.path.dirname(f"{top}/{path}"), exist_ok=True)
            with open(f"{top}/{path}", "w", encoding="utf-8") as it:
                it.write(text)
        os.chmod(f"{top}/bin/rt", 0o755)
        how = {"stdin": subprocess.DEVNULL, "stdout": subprocess.PIPE, "stderr": subprocess.DEVNULL}
        path = f"{top}/bin:{os.environ['PATH']}"
        ran = subprocess.run([sys.executable, GATE, *words], cwd=top, env={**os.environ, "PATH": path}, **how)
        return ran.stdout.decode().splitlines(), ran.returncode


class Gate(unittest.TestCase):
    def test_all_that_passes_passes(self) -> None:
        lines, status = said("echo proved; echo '3 passed, 0 failed'")
        self.assertEqual((lines[-1], status), ("3 passed, 0 failed", 0))
        self.assertIn("proved", lines)

    def test_the_repository_s_own_tool_proves(self) -> None:
        lines, status = said("echo '3 passed, 0 failed'", "--anew", prove="import sys; print(*sys.argv[1:]); print('4 passed, 0 failed')")
        self.assertEqual((lines[-1], status), ("4 passed, 0 failed", 0))
        self.assertIn("--anew", lines)

    def test_what_fails_is_counted(self) -> None:
        lines, status = said("echo '3 passed, 2 failed'; exit 1")
        self.assertEqual((lines[-1], status), ("3 passed, 2 failed", 1))

    def test_a_command_that_fails_with_no_count_is_a_failure(self) -> None:
        lines, status = said("exit 2")
        self.assertEqual((lines[-1], status), ("0 passed, 1 failed", 1))

    def test_what_failed_is_said_at_the_end(self) -> None:
        lines, _ = said("echo 'low NOT PROVED'; echo proved; echo '3 passed, 1 failed'; exit 1")
        self.assertEqual(lines[-2:], ["gate: failed: low NOT PROVED", "3 passed, 1 failed"])

    def test_each_part_says_its_processor_minutes(self) -> None:
        lines, _ = said("echo '3 passed, 0 failed'")
        self.assertRegex("\n".join(lines), r"(?m)^gate: rt ci: \d+\.\d processor minutes$")

    def test_only_the_last_line_is_a_count(self) -> None:
        lines, _ = said("echo '3 passed, 0 failed'")
        self.assertEqual([it for it in lines if it.startswith("3 ")], ["3 passed, 0 failed"])
        self.assertEqual(lines.index("3 passed, 0 failed"), len(lines) - 1)

    def test_the_runner_that_was_built_is_killed(self) -> None:
        lines, status = said(BUILDS, kills="import sys; print(*sys.argv[1:]); print('50 passed, 0 failed')")
        self.assertEqual((lines[-1], status), ("53 passed, 0 failed", 0))
        self.assertRegex("\n".join(lines), r"(?m)^50 .*/crates/jmsrun/out/jmsrun$")

    def test_a_kill_that_fails_is_counted_and_said_at_the_end(self) -> None:
        tool = "print('kill 7 of --seed 5: a message is gone'); print('7 passed, 1 failed'); raise SystemExit(1)"
        lines, status = said(BUILDS, kills=tool)
        self.assertEqual(status, 1)
        self.assertEqual(lines[-2:], ["gate: failed: kill 7 of --seed 5: a message is gone", "10 passed, 1 failed"])

    def test_without_a_runner_nothing_is_killed(self) -> None:
        lines, status = said("echo '3 passed, 0 failed'", kills="raise SystemExit(1)")
        self.assertEqual((lines[-1], status), ("3 passed, 0 failed", 0))
        self.assertIn("gate: tools/kills: skipped, as there is no crates/jmsrun/out/jmsrun", lines)

    def test_requests_for_memory_are_refused_with_the_runner(self) -> None:
        lines, status = said(BUILDS, refused="print('one: request 3: status -6'); print('8 passed, 1 failed'); raise SystemExit(1)")
        self.assertEqual((lines[-1], status), ("11 passed, 1 failed", 1))
        self.assertIn("gate: failed: one: request 3: status -6", lines)

    def test_requests_of_single_calls_are_refused_with_their_program(self) -> None:
        tool = "import sys; print(*sys.argv[1:]); print('a b: request of a call that is not made'); print('8 passed, 1 failed'); raise SystemExit(1)"
        lines, status = said(BUILDS.replace("jmsrun", "allocations"), refused=tool)
        self.assertEqual((lines[-1], status), ("11 passed, 1 failed", 1))
        self.assertRegex("\n".join(lines), r"(?m)^--calls .*/crates/allocations/out/allocations$")
        self.assertIn("gate: failed: a b: request of a call that is not made", lines)

    def test_without_the_tool_nothing_is_killed(self) -> None:
        lines, status = said(BUILDS)
        self.assertEqual((lines[-1], status), ("3 passed, 0 failed", 0))
        self.assertIn("gate: tools/kills: skipped, as there is no tools/kills", lines)

    def test_what_earlier_runs_kept_is_not_read(self) -> None:
        lines, _ = said("ls crates/low; ls -d .git; echo '1 passed, 0 failed'")
        self.assertEqual(lines[1:3], ["src", ".git"])

    def test_a_crate_that_is_not_there_stops_it(self) -> None:
        lines, status = said("exit 0", "hole")
        self.assertNotEqual(status, 0)
        self.assertEqual(lines, [])


if __name__ == "__main__":
    unittest.main()
