"""Tests of tools/allocations, over a small repository of their own and over this one."""
from __future__ import annotations

import contextlib
import importlib.machinery
import importlib.util
import io
import os
import sys
import tempfile
import unittest
from typing import Any

TOOL = f"{os.path.dirname(os.path.abspath(__file__))}/allocations"
LIB = """
mod list;
mod hidden;
pub use list::{Fault, Other, Room, plain, take};
"""
LIST = """
use std::alloc::AllocError;

/// Why a call fails.
pub enum Fault {
    Bad,
    Memory,
}

pub enum Other {
    Bad,
    Good { memory: bool },
}

pub struct Room {
    items: Vec<u8>, // -> AllocError
}

impl Room {
    pub fn new(n: usize) -> Room {
        Room
    }

    pub fn reserve(
        &mut self,
        n: usize,
    ) -> Result<(), AllocError>
        requires { n < 4 }
    {
        Ok(())
    }

    pub(crate) fn inner(&self) -> Result<(), AllocError> {
        Ok(())
    }
}

impl Clone for Room {
    pub fn clone(&self) -> Result<Room, AllocError> {
        Ok(Room)
    }
}

impl<T: Drop> Hidden<T> {
    pub fn reserve(&mut self) -> Result<(), AllocError> {
        Ok(())
    }
}

pub fn take(text: &str) -> Result<Vec<(u8, Other)>, Fault> {
    Err(Fault::Bad)
}

pub fn plain(text: &str) -> Result<Fault, Other> {
    Err(Other::Bad)
}
"""
TAKING = ["jm_one Room::reserve", "jm_one take"]


def load() -> Any:
    """Returns the tool as a module."""
    loader = importlib.machinery.SourceFileLoader("allocations", TOOL)
    made = importlib.util.module_from_spec(importlib.util.spec_from_loader("allocations", loader))
    sys.modules["allocations"] = made
    loader.exec_module(made)
    return made


class Allocations(unittest.TestCase):
    def told(self, made: str, take_none: str = "", within: str = "", as_another: str = "") -> tuple[int, list[str]]:
        """The status and the lines over the small repository, with those lists."""
        tool = load()
        tool.TAKE_NONE, tool.MADE_BY_RUNS, tool.ONE_BY_ONE, tool.WHOLE_RUNS, tool.WITHIN = take_none, "", made, "\na_run\n", within
        tool.AS_ANOTHER = as_another
        with tempfile.TemporaryDirectory() as room:
            files = {"jm_one/src/lib.rt": LIB, "jm_one/src/list.rt": LIST, "jm_one/src/hidden.rt": LIST}
            files |= {"one/src/lib.rt": "pub use a;\n\npub fn a() -> AllocError {}\n"}
            for name, text in files.items():
                os.makedirs(os.path.dirname(f"{room}/crates/{name}"), exist_ok=True)
                with open(f"{room}/crates/{name}", "w", encoding="utf-8") as it:
                    it.write(text)
            printed = io.StringIO()
            with contextlib.redirect_stdout(printed):
                status = tool.main(room)
        return status, printed.getvalue().splitlines()

    def test_all_are_listed(self) -> None:
        self.assertEqual(self.told("\njm_one Room::reserve\n", "\njm_one take\n"), (0, ["2 passed, 0 failed"]))

    def test_a_call_is_left_out(self) -> None:
        status, lines = self.told("\njm_one Room::reserve\n")
        self.assertEqual((status, lines), (1, ["jm_one take: stands in no list: FAILED", "2 passed, 1 failed"]))

    def test_a_call_stands_in_two_lists(self) -> None:
        status, lines = self.told("\njm_one Room::reserve\njm_one take\n", "\njm_one take\n")
        self.assertEqual((status, lines[0]), (1, "jm_one take: stands in two lists: FAILED"))

    def test_what_is_no_such_call(self) -> None:
        status, lines = self.told("\njm_one Room::reserve\njm_one take\njm_one plain\n", "\njm_one Room::inner\n")
        told = [f"jm_one {it}: is no public call that takes memory: FAILED" for it in ("Room::inner", "plain")]
        self.assertEqual((status, lines), (1, [*told, "2 passed, 2 failed"]))

    def test_a_call_is_made_within_a_row(self) -> None:
        for row in ("jm_one Room::reserve", "a_run"):
            told = self.told("\njm_one Room::reserve\n", "", f"\njm_one take: {row}\n")
            self.assertEqual(told, (0, ["2 passed, 0 failed"]))

    def test_a_call_is_made_within_what_is_no_row(self) -> None:
        status, lines = self.told("\njm_one Room::reserve\n", "", "\njm_one take: jm_one plain\n")
        self.assertEqual((status, lines[0]), (1, "jm_one take: is made within jm_one plain, which is no row: FAILED"))

    def test_the_requests_of_a_call_are_anothers(self) -> None:
        told = self.told("\njm_one Room::reserve\n", "", "", "\njm_one take: why\n")
        self.assertEqual(told, (0, ["2 passed, 0 failed"]))

    def test_the_error_of_a_result(self) -> None:
        tool = load()
        for text, wanted in (
            ("Result<(), AllocError>", "AllocError"),
            ("Result<Vec<(usize, Reply)>, LoneFault>", "LoneFault"),
            ("Result<Option<Core>, (Error, S)>", "(Error, S)"),
            ("Reply", "Reply"),
            ("fmt::Result", "fmt::Result"),
        ):
            self.assertEqual(tool.error(text), wanted)

    def test_the_calls_of_this_repository(self) -> None:
        self.assertEqual(load().main(), 0)


if __name__ == "__main__":
    unittest.main()
