"""Tests of tools/kills, with programs that stand in for the runner: one that keeps what it should, and some that do not."""
from __future__ import annotations

import os
import subprocess
import sys
import tempfile
import unittest

KILLS = f"{os.path.dirname(os.path.abspath(__file__))}/kills"
# A runner over the model of tools/kills, which writes what is stored after each call, with one commit. FAULT is run in that.
PROGRAM = """
import contextlib, importlib.machinery, importlib.util, json, os, re, sqlite3, sys
sys.dont_write_bytecode = True
loader = importlib.machinery.SourceFileLoader("kills", KILLS)
kills = importlib.util.module_from_spec(importlib.util.spec_from_loader("kills", loader))
sys.modules["kills"] = kills
loader.exec_module(kills)
TABLES = [re.sub("CREATE TABLE", "CREATE TABLE IF NOT EXISTS", it) for it in re.findall(
    '"(CREATE TABLE [^"]*)"', open(kills.ROOT + "/crates/jm_tables/src/texts.rt").read())]

def record(message):
    numbers = [it.to_bytes(4, "big") for it in message.sender[:3]]
    return b"\\1" + b"".join(numbers) + message.sender[3].to_bytes(8, "big") + message.text.encode()

def load(base):
    provider = kills.Provider()
    for opening, in base.execute("SELECT opening FROM meta"):
        provider.opening = opening
    for family, client, name, _, topic, selector, _ in base.execute("SELECT * FROM station WHERE family = 2"):
        provider.stations[family, client, name] = (topic, selector)
    dues = dict(base.execute("SELECT place, due FROM delayed").fetchall())
    for family, client, name, place, count, record in base.execute(
            "SELECT h.*, m.record FROM held AS h JOIN message AS m ON m.place = h.place"):
        message = kills.Message(kills.sender(record), record[21:].decode(), True, dues.get(place))
        provider.rows[family, client, name][place] = [message, count, False]
    return provider

def store(base, provider):
    for table in ("held", "delayed", "message", "station", "meta"):
        base.execute("DELETE FROM " + table)
    base.execute("INSERT INTO meta VALUES (1, 2, ?)", (provider.opening,))
    base.execute("INSERT INTO station VALUES (1, '', 'q', 0, '', '', 0)")
    for (family, client, name), (topic, selector) in provider.stations.items():
        base.execute("INSERT INTO station VALUES (?, ?, ?, 0, ?, ?, 0)", (family, client, name, topic, selector))
    for key, rows in provider.rows.items():
        for place, (message, count, _) in rows.items():
            if message.is_kept:
                base.execute("INSERT INTO message VALUES (?, ?)", (place, record(message)))
                base.execute("INSERT INTO held VALUES (?, ?, ?, ?, ?)", (*key, place, count))
                if message.due is not None:
                    base.execute("INSERT INTO delayed VALUES (?, ?)", (place, message.due))

def run(path, name):
    calls = json.load(open(path))["calls"]
    base = sqlite3.connect(name, isolation_level=None)
    base.execute("PRAGMA journal_mode = WAL")
    base.execute("PRAGMA synchronous = OFF")
    base.execute("BEGIN")
    for text in TABLES:
        base.execute(text)
    provider = load(base)
    provider.open()
    store(base, provider)
    base.execute("COMMIT")
    lines = []
    for number, call in enumerate(calls, 1):
        base.execute("BEGIN")
        lines.append(str(number) + " " + provider.make(call))
        store(base, provider)
        FAULT
        base.execute("COMMIT")
    print("\\n".join(lines))

run(sys.argv[2], sys.argv[4])
"""


def said(fault: str, kills: int, seed: int = 5) -> tuple[list[str], int]:
    """Returns the lines that tools/kills prints of the program with that fault, and its status."""
    with tempfile.TemporaryDirectory() as folder:
        with open(f"{folder}/program.py", "w", encoding="utf-8") as it:
            it.write(PROGRAM.replace("KILLS)", f"{KILLS!r})").replace("FAULT", fault or "pass"))
        words = [sys.executable, KILLS, "--seed", str(seed), str(kills), sys.executable, f"{folder}/program.py"]
        how = {"stdin": subprocess.DEVNULL, "stdout": subprocess.PIPE, "env": {**os.environ, "TMPDIR": folder}}
        ran = subprocess.run(words, check=False, **how)
    return ran.stdout.decode().splitlines(), ran.returncode


# How a fault of what is stored shows: after the kill, in what the second run says, or after that, as the moment of the kill has it.
SEEN = "after none of the calls|and not|stands"


class Kills(unittest.TestCase):
    def test_what_is_kept_passes(self) -> None:
        lines, status = said("", 6)
        self.assertEqual((lines[-1], status), ("6 passed, 0 failed", 0))
        self.assertRegex(lines[-2], r"^kills: [1-9]\d* while the program ran, --seed 5$")

    def assert_fails(self, fault: str, why: str) -> None:
        # (the first kill that sees it is the last: so many are for those that hit before the fault, or after the end)
        lines, status = said(fault, 60)
        self.assertEqual(status, 1)
        self.assertRegex(lines[-1], r"^\d+ passed, 1 failed$")
        self.assertRegex(lines[0], why)

    def test_a_message_that_is_lost_is_seen(self) -> None:
        self.assert_fails("base.execute('DELETE FROM held WHERE place % 2 = 0')", SEEN)

    def test_a_count_that_is_lost_is_seen(self) -> None:
        self.assert_fails("base.execute('UPDATE held SET deliveries = 0')", SEEN)

    def test_a_call_in_two_transactions_is_seen(self) -> None:
        fault = "base.execute('DELETE FROM held'); base.execute('COMMIT'); base.execute('BEGIN'); store(base, provider)"
        self.assert_fails(fault, SEEN)

    def test_rows_that_do_not_fit_together_are_seen(self) -> None:
        self.assert_fails("base.execute('DELETE FROM message WHERE place % 2 = 0')", "foreign_key_check")

    def test_a_file_that_is_no_database_is_seen(self) -> None:
        fault = "base.execute('COMMIT'); open(sys.argv[4], 'r+b').write(b'x' * 20); base.execute('BEGIN')"
        # (what it says hangs on the moment: SQLite may still find the first page in its log)
        self.assert_fails(fault, "gone|ends with|and not|stands")

    def test_a_second_run_that_says_something_else_is_seen(self) -> None:
        self.assert_fails("lines[-1] = lines[-1].replace('count=2', 'count=1')", "and not")

    def test_a_second_run_that_fails_is_seen(self) -> None:
        self.assert_fails("provider.opening < 3 or sys.exit(3)", "ends with 3")


if __name__ == "__main__":
    unittest.main()
