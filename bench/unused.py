#!/usr/bin/env python3
"""Lists what nothing cites: lemmas of proofs/ and definitions of specs/, by crate.

    unused.py

A name counts as cited where it stands as a word in another definition, a source, an edit or a page of docs. Worked
rows are cited by nothing and are left out, as are those laws that are theorems for readers (`router_says`). What is
listed is a place to look: take it away, and what it alone cited is listed next.
"""
import collections
import os
import re
import subprocess
from asked import answer_help

answer_help(__name__, __doc__)

ROOT = os.path.dirname(os.path.dirname(os.path.abspath(__file__)))
WORD = re.compile(r"[\w◌]+(?:[-'][\w◌]+)*")
HEAD = re.compile(r"^(?:abbrev )?(pub )?(?:record )?([\w◌]+(?:[-'][\w◌]+)*)\s+[:(]")
THEOREMS = {"router_says"}


def blocks(text):
    """The runs of lines between empty ones."""
    return [block.split("\n") for block in re.split(r"\n\s*\n", text) if block.strip()]


def head_of(block):
    """Whether a block's definition is public, and its name."""
    for line in block:
        if not line.startswith(("--", "use ")):
            return HEAD.match(line)
    return None


def words_of(path, block):
    """The words of a block without its comments."""
    lines = (line.split("--")[0] for line in block) if path.endswith(".antt") else block
    return set(WORD.findall("\n".join(lines)))


def may_be_unused(path):
    """Whether a file has lemmas or definitions that something should cite."""
    parts = path.split("/")
    return (path.endswith(".antt") and parts[2] in ("proofs", "specs") and parts[1] not in THEOREMS
            and parts[-1] != "Lib.antt" and not parts[-1].endswith("Rows.antt"))


def main():
    listed = subprocess.check_output(["git", "ls-files"], cwd=ROOT, text=True).split("\n")
    kept = (".antt", ".rt", ".md", ".edit")
    found = {path: blocks(open(os.path.join(ROOT, path)).read()) for path in listed if path.endswith(kept)}
    cited = collections.Counter()
    for path, its in found.items():
        for block in its:
            cited.update(words_of(path, block))
    lines = 0
    for path, its in sorted(found.items()):
        if not may_be_unused(path):
            continue
        answers = path.endswith(("Answers.antt", "Invariants.antt", "Measures.antt", "Proof.antt"))
        for block in its:
            head = head_of(block)
            # A goal's answer is cited by its name alone.
            if head and cited[head.group(2)] <= 1 and not (answers and head.group(1)):
                print(f"{path}: {head.group(2)} ({len(block)} lines)")
                lines += len(block)
    print(f"{lines} lines are cited by nothing")


if __name__ == "__main__":
    main()
