"""Tests of docs/STORE.md: that sqlite3 runs its queries, and that the crate of tests runs the same."""
from __future__ import annotations

import os
import re
import sqlite3
import unittest

ROOT = os.path.dirname(os.path.dirname(os.path.abspath(__file__)))


def read(path: str) -> str:
    with open(f"{ROOT}/{path}", encoding="utf-8") as it:
        return it.read()


def queries() -> list[str]:
    """Returns the queries of the page, each in one line."""
    return [" ".join(it.split()) for it in re.findall(r"```sql\n(.*?)```", read("docs/STORE.md"), re.DOTALL)]


def record(version: int, opening: int, number: int, sent: int, *due: int) -> bytes:
    """Returns the first bytes of the record of a message of session 1.1."""
    parts = [it.to_bytes(4, "big") for it in (opening, 1, 1)] + [it.to_bytes(8, "big") for it in (number, sent, 0, *due)]
    return bytes([version]) + b"".join(parts) + bytes([1, 4])


def store() -> sqlite3.Connection:
    """Returns a database with the tables of a store: a queue, one that is empty, and three subscriptions, one without rows."""
    base = sqlite3.connect(":memory:")
    base.execute("PRAGMA foreign_keys = ON")
    for text in re.findall(r'"(CREATE [^"]*)"', read("crates/jm_tables/src/texts.rt")):
        base.execute(text)
    stations = [
        (1, "", "empty", 0, "", "", 0), (1, "", "orders", 0, "", "", 0), (2, "", "audit", 1, "t", "", 0),
        (2, "k", "bills", 0, "t", "x > 1", 0), (2, "k", "none", 0, "u", "", 1),
    ]
    messages = [(3, record(1, 1, 1, 1000)), (4, record(1, 1, 2, 1002)), (9, record(2, 2, 1, 66000, 67000))]
    held = [
        (1, "", "orders", 4, 0), (1, "", "orders", 9, 0), (2, "", "audit", 3, 2), (2, "", "audit", 4, 1),
        (2, "", "audit", 9, 0), (2, "k", "bills", 4, 7),
    ]
    base.executemany("INSERT INTO station VALUES (?, ?, ?, ?, ?, ?, ?)", stations)
    base.executemany("INSERT INTO message VALUES (?, ?)", messages)
    base.execute("INSERT INTO delayed VALUES (9, 67000)")
    base.executemany("INSERT INTO held VALUES (?, ?, ?, ?, ?)", held)
    return base


class Page(unittest.TestCase):
    def test_each_query_shows_its_rows(self) -> None:
        first, second = "00000000000003E8", "00000000000003EA"
        wanted = [
            [("", "audit", "t", "", 3, 2, 3, first), ("k", "bills", "t", "x > 1", 1, 7, 4, second),
             ("k", "none", "u", "", 0, None, None, "")],
            [("orders", 2, 0, 4, second)],
            [(9, 67000)],
        ]
        base = store()
        self.assertEqual([base.execute(it).fetchall() for it in queries()], wanted)
        base.close()

    def test_the_crate_of_tests_runs_the_same_queries(self) -> None:
        texts = re.findall(r'text: "([^"]*)"', read("crates/tests_store/src/queries.rt"))
        self.assertEqual(texts, queries())


if __name__ == "__main__":
    unittest.main()
