"""verdicts: says for tools/wrong-bodies what rattle's lines and files tell of an edit."""
from __future__ import annotations

import contextlib
import os
import re
from os import path
from typing import NamedTuple

from edits import Edit, rt


class Verdict(NamedTuple):
    path: str
    is_refused: bool
    why: str


def path_of(room: str, name: str) -> str:
    """Returns the folder for the proof of a function by hand."""
    return f"{room}/proofs/{name.replace('::', '/')}"


def is_by_hand(edit: Edit) -> bool:
    """Returns whether a part of the function's proof is given by hand: where a search refuses nothing, a check decides."""
    return path.isdir(path_of(edit.crate.folder, edit.at))


def adds_return(edit: Edit) -> bool:
    """Returns whether the edited text has a way out more, whose goals nobody answered by hand."""
    texts = re.findall(r"(?m)^(old|new): (.*)$", rt.rtlib.text_of(edit.path) or "")
    count = lambda word: sum(len(re.findall(r"\breturn\b", text)) for it, text in texts if it == word)
    return count("old") < count("new")


def is_started(edit: Edit) -> bool:
    """Returns whether rattle can search for the function's proof alone, without those of what it calls, and is likely to refuse
    it: the function is in no cycle, and of its proof nothing is given by hand, or invariants and answers to other goals are."""
    in_cycle, folder = (edit.group or "").startswith("#"), path_of(edit.crate.folder, edit.at)
    return not in_cycle and not path.exists(f"{folder}/Proof.antt") and (not is_by_hand(edit) or adds_return(edit))


def answered(edit: Edit) -> set[str]:
    """Returns the goals of the function that are answered by hand."""
    text = rt.rtlib.text_of(f"{path_of(edit.crate.folder, edit.at)}/Answers.antt") or ""
    return {*re.findall(r"(?m)^(?:pub )?(\S+) : goal\.", text)}


def hide_answers(room: str, edit: Edit) -> None:
    """Takes the answers out of a copy, in which a search then writes down what it leaves."""
    with contextlib.suppress(FileNotFoundError):
        os.remove(f"{path_of(room, edit.name)}/Answers.antt")


def unread(edits: list[Edit], said: list[str]) -> str:
    """Returns the line that shows that the edited text does not read, or that the check judged nothing."""
    files = {file for it in edits for file in rt.read_edit(it.path, it.crate.folder)[0]}
    found = [it for it in said if rt.unread(it, files) or rt.rtlib.STALE.search(it)]
    if not found and not re.match(r"only=\d+ proved=|started=\d+$", said[-1]):
        found = [it for it in said if "error" in it] or said[-1:]
    return found[0] if found else ""


def judge_started(room: str, edit: Edit, said: list[str]) -> Verdict:
    """Returns whether the search for the function's proof left a goal that is not answered by hand: rattle has written a file
    for what it left."""
    file = f"{path_of(room, edit.name)}/Answers.antt"
    left = re.findall(r"(?m)^(\S+) .*= \?$", rt.rtlib.text_of(file) or "")
    goals = [it for it in left if it not in answered(edit)]
    if goals:
        return Verdict(edit.path, True, f"`{goals[0]}`")
    line = next((it for it in said if f"`{edit.crate.name}::{edit.name}`" in it), "the search does not name it")
    is_proved = line.endswith("needs no file: nothing is left to choose or to answer")
    return Verdict(edit.path, False, "it is still proved" if is_proved else f"no goal of its own is refused: {line}")


def judge(edit: Edit, said: list[str]) -> Verdict:
    """Returns whether the function is refused by a goal of its own."""
    head, folder = f"fn {edit.crate.name}::{edit.name}: ", f"./proofs/{edit.name.replace('::', '/')}/"
    line = next((it[len(head) :] for it in said if it.startswith(head)), "")
    goals = re.search(r"`search` did not prove (`[^;:]*)", line)
    # (that a proof names what the edit took away shows nothing of the contract)
    lost = r": record `|is not in scope|has no field|has no `|was not admitted|`goal\.[^`]*`: module `"
    answers = [it for it in said if it.startswith(folder) and ": error: " in it and not re.search(lost, it)]
    if goals or answers and line.startswith("not proved"):
        return Verdict(edit.path, True, goals[1] if goals else answers[0].partition(": error: ")[2][:100])
    why = f"no goal of its own is refused: {line or 'the check does not name it'}"
    return Verdict(edit.path, False, "it is still proved" if line.startswith("proved") else why)
