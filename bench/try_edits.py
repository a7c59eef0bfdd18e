#!/usr/bin/env python3
"""Tries the edits of crates that the gate does not try, each of which must be refused.

    try_edits.py CRATE..        those of bench/edits/CRATE, one crate after another
    try_edits.py                those of all crates

The gate tries few edits, of promises that no row or run turns; the others stand in bench/edits. They are tried after a
change of the crate's contracts, over a copy of the repository in a folder of its own. The copy has the libraries that
`rt check` or `rt lib` left in `out/rlib`, so that no crate below is proved again.

Edits of different functions are tried together, as each function is proved for itself: after one `rt check` of them all
each must have left a function of its own without a proof, and not only since that calls another which has none. An edit
of which a check with others tells nothing is tried alone, and then the crate must not be proved. Ends with 1 where one
is let through, is not judged, or has a text that no longer stands in its file.
"""
import collections
import os
import re
import shutil
import subprocess
import sys
import tempfile
from asked import answer_help

answer_help(__name__, __doc__)

ROOT = os.path.dirname(os.path.dirname(os.path.abspath(__file__)))
EDITS = os.path.join(ROOT, "bench", "edits")
COPIED = ("crates.txt", "HANDLES")
# What `rt check` says of a function that has no proof, and what it says where only a callee has none.
SAID = re.compile(r"fn ([\w:+]+): (.*)")
OF_A_CALLEE = re.compile(r"(no proof: |not proved; )it calls ")

Edit = collections.namedtuple("Edit", "name changes functions")


def copy_of_the_repository(to):
    """What a check reads, with the libraries that stand proved, and nothing else of what checks have made."""
    shutil.copytree(os.path.join(ROOT, "crates"), os.path.join(to, "crates"), ignore=shutil.ignore_patterns("out"))
    for crate in os.listdir(os.path.join(ROOT, "crates")):
        proved = os.path.join(ROOT, "crates", crate, "out", "rlib")
        if os.path.isfile(os.path.join(proved, "stamp")):
            shutil.copytree(proved, os.path.join(to, "crates", crate, "out", "rlib"), copy_function=link_or_copy)
    for name in COPIED:
        shutil.copy(os.path.join(ROOT, name), to)
    subprocess.run(["git", "init", "-q"], cwd=to, check=True)


def link_or_copy(there, to):
    """The same file under another name, or a copy of it on another disk."""
    try:
        os.link(there, to)
    except OSError:
        shutil.copy2(there, to)


def text_of(path):
    with open(path, encoding="utf-8") as it:
        return it.read()


def function_at(file, text, end):
    """The module and the name of the function in which the text ends there."""
    names = re.findall(r"\bfn (\w+)", text[:end])
    module = re.sub(r"^src/|\.rt$", "", file).replace("/", "::")
    return module, names[-1] if names else ""


def read_edit(folder, path):
    """What the edit of the crate in that folder changes, and in which functions; None where it no longer fits."""
    changes, functions, file, old = [], set(), None, None
    for line in text_of(path).splitlines():
        kind, _, rest = line.partition(": ")
        if kind == "file":
            file = rest.strip()
        elif kind == "old":
            old = rest
        elif line.startswith("new:"):
            text = text_of(os.path.join(folder, file))
            if text.count(old) != 1:
                return None
            changes.append((file, old, rest))
            functions.add(function_at(file, text, text.index(old) + len(old)))
    return Edit(os.path.basename(path), changes, functions)


def together(edits):
    """As many of the edits as change different functions."""
    chosen, taken = [], set()
    for edit in edits:
        if not edit.functions & taken:
            chosen.append(edit)
            taken |= edit.functions
    return chosen


def check_of(folder, edits):
    """What a check of the crate says with these edits, of each function, and whether it is proved."""
    files = {file: text_of(os.path.join(folder, file)) for edit in edits for file, _, _ in edit.changes}
    edited = dict(files)
    for edit in edits:
        for file, old, new in edit.changes:
            edited[file] = edited[file].replace(old, new)
    try:
        for file, text in edited.items():
            write(os.path.join(folder, file), text)
        ran = subprocess.run(["rt", "check", "--jobs", "1"], cwd=folder, capture_output=True, text=True, errors="replace")
    finally:
        for file, text in files.items():
            write(os.path.join(folder, file), text)
    return SAID.findall(ran.stdout + ran.stderr), ran.returncode == 0


def write(path, text):
    with open(path, "w", encoding="utf-8") as it:
        it.write(text)


def is_of(function, path):
    """Whether a function's path in what a check says is that of a module and a name."""
    words = path.split("::")
    module, name = function
    return words[-1] == name and "::".join(words[1:]).startswith(module + "::")


def is_left_unproved(edit, said):
    """Whether a function that the edit changes has no proof of its own account."""
    return any(
        told != "proved" and ("did not prove" in told or not OF_A_CALLEE.match(told))
        for path, told in said
        for function in edit.functions
        if is_of(function, path)
    )


def are_refused(top, crate):
    """Whether the crate's edits that stand apart are all refused."""
    folder, apart = os.path.join(top, "crates", crate), os.path.join(EDITS, crate)
    names = sorted(os.listdir(apart))
    read = {name: read_edit(folder, os.path.join(apart, name)) for name in names}
    faults = {name: "its text no longer stands once in its file" for name in names if read[name] is None}
    left, alone = [read[name] for name in names if read[name]], []
    while left:
        batch = together(left)
        left = [edit for edit in left if edit not in batch]
        said, _ = check_of(folder, batch)
        alone += [edit for edit in batch if not is_left_unproved(edit, said)]
    for edit in alone:
        said, is_proved = check_of(folder, [edit])
        if is_proved:
            faults[edit.name] = "let through"
        elif all(told == "proved" for _, told in said):
            faults[edit.name] = "not judged, as where it does not compile"
    of_those = f", {len(alone)} tried alone" if alone else ""
    print(f"{crate}: {len(names) - len(faults)} of {len(names)} edits refused{of_those}", flush=True)
    for name, fault in faults.items():
        print(f"    {name}: {fault}", flush=True)
    return not faults


def main(crates):
    there = sorted(os.listdir(EDITS))
    unknown = [crate for crate in crates if crate not in there]
    if unknown:
        print(f"no edits stand apart of: {' '.join(unknown)}; of these do: {' '.join(there)}")
        return 1
    with tempfile.TemporaryDirectory() as top:
        copy_of_the_repository(top)
        let_through = [crate for crate in crates or there if not are_refused(top, crate)]
    print(f"not all refused: {' '.join(let_through)}" if let_through else "all refused")
    return 1 if let_through else 0


if __name__ == "__main__":
    sys.exit(main(sys.argv[1:]))
