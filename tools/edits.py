"""edits: reads the wrong bodies of a crate for tools/wrong-bodies, and makes copies of the crate with them."""
from __future__ import annotations

import copy
import os
import re
import shutil
import sys
from importlib import machinery, util
from typing import Any, NamedTuple, Optional

# Where an item begins; the group is a function's name.
ITEM = r"(?m)^ *(?:pub(?:\([^)]*\))? )?(?:(?:const )?fn (\w+)|(?:const|static|struct|enum|impl|trait|type|use|mod|ghost)\b)"
# What ends with its line.
COMMENT = r"//|\\\n"


class Edit(NamedTuple):
    crate: Any
    path: str
    at: str
    name: str  # the function as the copy has it: that one, or a twin of it
    group: Optional[str]  # the function or its cycle of calls; none where any other text is changed


def once(method: Any) -> Any:
    """Returns a method of a crate that is asked once for each folder, where no text changes between."""
    known: dict[str, Any] = {}

    def asked(crate: Any) -> Any:
        if crate.folder not in known:
            known[crate.folder] = method(crate)
        return copy.copy(known[crate.folder])

    return asked


def load_rt() -> Any:
    """Returns rt as a module: the first on the path that stands beside its rtlib.py. (It asks what lies below a crate, and what its
    files are, anew on each way down, which takes longer than the proofs where many crates stand on one another.)"""
    paths = [os.path.realpath(f"{it}/rt") for it in os.get_exec_path()]
    kits = [it for it in paths if os.path.isfile(f"{os.path.dirname(it)}/rtlib.py")]
    loader = machinery.SourceFileLoader("rt", kits[0] if kits else sys.exit("wrong-bodies: no rt on the path"))
    made = util.module_from_spec(util.spec_from_loader("rt", loader))
    loader.exec_module(made)
    of_lib = made.rtlib.Crate
    of_lib.below, of_lib.stamp = once(of_lib.below), once(of_lib.stamp)
    return made


rt = load_rt()


def group_of(source: str, old: str, at: str) -> Optional[str]:
    """Returns the function, or its cycle of calls, where the text stands inside that function."""
    start = source.find(old) + len(old) - len(old.lstrip())
    above = [it for it in re.finditer(ITEM, source) if it.start() <= start]
    if not above or above[-1][1] != at.rpartition("::")[2]:
        return None
    cycles = re.findall(r"#\[cycle\(\w+\)\]", source[above[-2].end() if above[1:] else 0 : above[-1].start()])
    return cycles[0] if cycles else at


def function_of(source: str, old: str) -> tuple[str, str]:
    """Returns the text of the function in which the text stands, and the lines with its attributes."""
    start = source.find(old) + len(old) - len(old.lstrip())
    begin = [it.start() for it in re.finditer(ITEM, source) if it.start() <= start][-1]
    text = re.compile(r"(?s)( *).*?\n\1\}\n").match(source, begin)[0]
    return text, re.search(r"(?m)(^ *#\[.*\n)*\Z", source[:begin])[0]


def may_have_twin(edit: Edit, above: str, text: str) -> bool:
    """Returns whether a second function of that text is proved as the first: it is in no cycle and no trait's impl, and its
    proof is in its own files, which nothing else names."""
    folder, own = f"{edit.crate.folder}/proofs/{edit.at.replace('::', '/')}", f".proofs.{edit.at.replace('::', '.')}."
    header = (re.findall(r"(?m)^impl\b.*", above) or [""])[-1] if text.startswith(" ") else ""
    files = [f"{at}/{it}" for at, _, names in os.walk(f"{edit.crate.folder}/proofs") for it in names]
    others = [it for it in files if it not in (f"{folder}/Answers.antt", f"{folder}/Invariants.antt")]
    is_named = any(it.startswith(f"{folder}/") or own in rt.rtlib.text_of(it) for it in others)
    # (an attribute of several lines is not read)
    return not (is_named or (edit.group or "#").startswith("#") or " for " in header or above.endswith("]\n"))


def edit_of(crate: Any, path: str) -> tuple[Optional[Edit], str]:
    """Returns the edit, or why it cannot be applied to the crate."""
    why = rt.read_edit(path, crate.folder)[1] if path.endswith(".edit") else "its name does not end in .edit"
    if why:
        return None, why
    text = rt.rtlib.text_of(path)
    at = re.findall(r"(?m)^at: *(\S+)$", text)
    if len(at) != 1:
        return None, "it has not one line 'at: module::function'"
    groups, source = set(), ""
    for key, value in re.findall(r"(?m)^(file|old): (.*)$", text):
        if key == "file":
            source = rt.rtlib.text_of(f"{crate.folder}/{value.strip()}")
        else:
            groups.add(group_of(source, value, at[0]))
    return Edit(crate, path, at[0], at[0], groups.pop() if len(groups) == 1 else None), ""


def write(path: str, text: str) -> None:
    os.makedirs(os.path.dirname(path), exist_ok=True)
    with open(path, "w", encoding="utf-8") as it:
        it.write(text)


def turn(room: str, edit: Edit, taken: list[Edit], heads: dict[str, str]) -> Optional[Edit]:
    """Makes an edit inside a function, or in a twin of one that is edited already, where it may have one."""
    parts = re.findall(r"(?m)^(file|old|new): ?(.*)$", rt.rtlib.text_of(edit.path))
    path, olds, news = parts[0][1].strip(), [it for key, it in parts if key == "old"], [it for key, it in parts if key == "new"]
    source, number = rt.rtlib.text_of(f"{edit.crate.folder}/{path}"), 1 + sum(it.group == edit.group for it in taken)
    text, attributes = function_of(source, olds[0])
    turned = text
    for old, new in zip(olds, news):
        turned = turned.replace(old, new)
    if number == 1:
        edit, heads[edit.at] = edit._replace(name=edit.at), turned
    elif may_have_twin(edit, source[: source.index(attributes + text)], text):
        text, edit = heads[edit.at].rstrip(), edit._replace(name=f"{edit.at}_{number}")
        twin = attributes + re.sub(r"fn (\w+)", rf"fn \1_{number}", turned.rstrip(), count=1)
        # (on one line, where that reads, so that what stands below keeps its place, and what is kept of its proof)
        turned = f"{text} {twin if re.search(COMMENT, twin) else ' '.join(twin.splitlines())}"
        copy_proof(room, edit)
    else:
        return None
    write(f"{room}/{path}", rt.rtlib.text_of(f"{room}/{path}").replace(text, turned))
    return edit


def copy_proof(room: str, twin: Edit) -> None:
    """Gives a twin the answers and the invariants of its function."""
    folders = [f"{room}/proofs/{it.replace('::', '/')}" for it in (twin.at, twin.name)]
    modules = [f".proofs.{it.replace('::', '.')}." for it in (twin.at, twin.name)]
    for name in os.listdir(folders[0]) if os.path.isdir(folders[0]) else []:
        write(f"{folders[1]}/{name}", rt.rtlib.text_of(f"{folders[0]}/{name}").replace(*modules))


def fill(room: str, edits: list[Edit]) -> tuple[list[Edit], list[Edit]]:
    """Makes a copy of the crate with as many of the edits as go together, and returns these and what is left."""
    crate, taken, left, heads = edits[0].crate, [], [], {}
    for part in rt.rtlib.PARTS:
        if os.path.isdir(f"{crate.folder}/{part}"):
            shutil.copytree(f"{crate.folder}/{part}", f"{room}/{part}")
    for edit in edits:
        made = None
        if not taken and not edit.group:
            for path, text in rt.read_edit(edit.path, room)[0].items():
                write(f"{room}/{path}", text)
            made = edit
        elif edit.group and not (taken and not taken[0].group):
            made = turn(room, edit, taken, heads)
        (taken if made else left).append(made or edit)
    return taken, left
