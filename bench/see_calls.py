#!/usr/bin/env python3
"""Makes the wrong calls of bench/calls/wrong.txt, and compares what the programs say of them.

    see_calls.py ROUTER PICTURE [--write]

The file has for each call a line of words behind `>`, as a shell takes them; behind `<` the status and the first line
of standard output, if there is one; and behind `!` the first line of standard error, if there is one. Lines that
begin with `=` make the files that calls are wrong about: each has a command of the shell. Calls of `picture` go to
PICTURE, all others to ROUTER. They run in a folder with the examples and the files of bench/vtr, and none of them may
change a file there or leave one. What stands behind the code of a fault is compared with what seen_words.py reckons
from the files. Prints each call that says something else, and last how many there are; ends with 1
where one does. With --write the file is written anew with what is said now.
"""
import argparse
import os
import shlex
import shutil
import subprocess
import sys
import tempfile

from seen_words import behind_code, shown_of

HERE = os.path.dirname(os.path.abspath(__file__))
CALLS = os.path.join(HERE, "calls", "wrong.txt")
FOLDERS = (os.path.join(HERE, "..", "examples"), os.path.join(HERE, "vtr"), os.path.join(HERE, "vtr", "other"))


def standing():
    """What stands in the folder: for each name the bytes, or none of a folder."""
    return {name: None if os.path.isdir(name) else open(name, "rb").read() for name in os.listdir(".")}


def first_line(text):
    return text.decode(errors="backslashreplace").split("\n")[0]


def said_of(asked, words):
    """The lines that say how a call ends, and what is otherwise behind a code."""
    words = shlex.split(words)
    is_picture = words[:1] == ["picture"]
    program = [asked.picture, *words[1:]] if is_picture else [asked.router, *words]
    ended = subprocess.run(program, capture_output=True, stdin=subprocess.DEVNULL)
    lines = [f"< {ended.returncode} {first_line(ended.stdout)}".rstrip()]
    if ended.stderr:
        lines.append(f"! {first_line(ended.stderr)}")
    shown = None if is_picture else shown_of(words, first_line(ended.stdout), files_of(words))
    said = ended.stderr.decode(errors="replace").rstrip("\n")
    return lines, [] if shown is None or behind_code(said) == shown else [f"  behind the code not {shown!r}"]


def files_of(words):
    """The files that words name."""
    found = {}
    for word in words:
        if os.path.isfile(word):
            with open(word, "rb") as it:
                found[word] = it.read()
    return found


def calls_of(text):
    """The lines of the file up to each call, and those that say how it ends."""
    before, call, said = [], None, []
    for line in text.splitlines():
        if call is not None and line[:2] in ("< ", "! "):
            said.append(line)
            continue
        if call is not None:
            yield before, call, said
            before, call, said = [], None, []
        if line.startswith("> ") or line == ">":
            call = line
        else:
            before.append(line)
    if call is not None:
        yield before, call, said


def words():
    parser = argparse.ArgumentParser(description=__doc__, formatter_class=argparse.RawDescriptionHelpFormatter)
    parser.add_argument("router", metavar="ROUTER")
    parser.add_argument("picture", metavar="PICTURE")
    parser.add_argument("--write", action="store_true")
    asked = parser.parse_args()
    asked.router, asked.picture = map(os.path.abspath, (asked.router, asked.picture))
    return asked


def fill(desk):
    """Gives the folder the files that calls speak of."""
    for folder in FOLDERS:
        for name in os.listdir(folder):
            if os.path.isfile(os.path.join(folder, name)) and not name.endswith(".svg"):
                shutil.copy(os.path.join(folder, name), desk)


def main():
    asked = words()
    text = open(CALLS).read()
    lines, count, wrong = [], 0, 0
    with tempfile.TemporaryDirectory() as desk:
        fill(desk)
        os.chdir(desk)
        for before, call, wanted in calls_of(text):
            for line in before:
                if line.startswith("= "):
                    subprocess.run(["bash", "-c", line[2:]], check=True)
            there = standing()
            said, others = said_of(asked, call[2:])
            lines += [*before, call, *said]
            count += 1
            changed = sorted(name for name in {*there, *standing()} if there.get(name, "") != standing().get(name, ""))
            if changed or others or said != wanted and not asked.write:
                wrong += 1
                came = [*said, *others, *map("  changed: {}".format, changed)]
                print("\n".join([call, "  wanted", *wanted, "  came", *came]))
        os.chdir(HERE)
    if asked.write:
        with open(CALLS, "w") as out:
            out.write("\n".join(lines) + "\n")
    print(f"{count} wrong calls, {wrong} otherwise than they stand")
    sys.exit(1 if wrong else 0)


if __name__ == "__main__":
    main()
