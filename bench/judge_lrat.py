#!/usr/bin/env python3
"""Judges logs of full LRAT in plain definitions over sets, from the text of docs/FORMATS.md.

    judge_lrat.py CNF LRAT     says what `check` is to say of two files that read
    judge_lrat.py rows FILE    judges each case of a file of rows that judges a log, and says which
                               of them have another line `comes` or another `status`

It shares nothing with the program, and is slow.
"""
import sys
from asked import answer_help

answer_help(__name__, __doc__)

NO_CLAUSE, OPEN, TRUE, NO_CONFLICT, BEHIND, NOT_THERE, NO_END, NO_GROUP, WRONG_GROUP, NO_GROUP_CONFLICT = range(1, 11)


class Refused(Exception):
    """Why a step is refused: its cause."""


def parts(numbers):
    """The numbers, cut behind each 0."""
    found, part = [], []
    for number in numbers:
        if number == 0:
            found.append(part)
            part = []
        else:
            part.append(number)
    assert not part, "no 0 at the end"
    return found


def read_cnf(text):
    """The clauses, each a list of literals."""
    lines = [line for line in text.split("\n") if line.split() and line[0] != "c"]
    return parts(int(word) for line in lines[1:] for word in line.split())


def read_log(text):
    """The steps: ("delete", ids) or ("add", id, literals, hints)."""
    for line in text.split("\n"):
        words = line.split()
        if not words or line[0] == "c":
            continue
        if words[1:2] == ["d"]:
            (ids,) = parts(map(int, words[2:]))
            yield "delete", ids
        else:
            literals, hints = parts(map(int, words[1:]))
            yield "add", int(words[0]), literals, hints


def has_conflict(live, false, hints):
    """Whether a clause all of whose literals are false is met; the false literals become more."""
    for at, hint in enumerate(hints):
        if hint not in live:
            raise Refused(NO_CLAUSE)
        left = set(live[hint]) - false
        if not left:
            if at + 1 < len(hints):
                raise Refused(BEHIND)
            return True
        if len(left) > 1:
            raise Refused(OPEN)
        (literal,) = left
        if -literal in false:
            raise Refused(TRUE)
        false.add(-literal)
    return False


def cut_at_groups(hints):
    """The hints before the first negative one, and the groups: an id and its hints."""
    front, groups = [], []
    for hint in hints:
        if hint < 0:
            groups.append((-hint, []))
        elif groups:
            groups[-1][1].append(hint)
        else:
            front.append(hint)
    return front, groups


def judge_group(live, false, literal, had, name, hints):
    """Refuses a group that does not show the clause of this name without the literal."""
    if name not in live:
        raise Refused(NO_CLAUSE)
    if name in had or literal not in live[name]:
        raise Refused(WRONG_GROUP)
    others = set(live[name]) - {literal}
    if any(-other in false for other in others):
        if hints:
            raise Refused(BEHIND)
    elif not has_conflict(live, false | others, hints):
        raise Refused(NO_GROUP_CONFLICT)


def judge_addition(live, literals, hints):
    front, groups = cut_at_groups(hints)
    false = set(literals)
    if has_conflict(live, false, front):
        if groups:
            raise Refused(BEHIND)
        return
    if not literals:
        raise Refused(WRONG_GROUP if groups else NO_CONFLICT)
    had = set()
    for name, more in groups:
        judge_group(live, false, -literals[0], had, name, more)
        had.add(name)
    if any(-literals[0] in clause and name not in had for name, clause in live.items()):
        raise Refused(NO_GROUP)


def judge_step(live, step):
    """Takes the step, and says whether it adds the empty clause."""
    if step[0] == "delete":
        for name in step[1]:
            if live.pop(name, None) is None:
                raise Refused(NOT_THERE)
        return False
    _, name, literals, hints = step
    judge_addition(live, literals, hints)
    live[name] = literals
    return not literals


def judge(clauses, steps):
    """The line that `check` says, and its status."""
    live = dict(enumerate(clauses, 1))
    number = 0
    for number, step in enumerate(steps, 1):
        try:
            if judge_step(live, step):
                return "accepted", 0
        except Refused as why:
            return f"not accepted: step {number} cause {why.args[0]}", 1
    return f"not accepted: step {number + 1} cause {NO_END}", 1


# Rows.

def sections(text):
    """The sections of a file of rows: the words of the first line, and the lines behind it."""
    found = []
    for line in text.split("\n"):
        if line.split(" ")[0] in ("part", "common", "case"):
            found.append((line, []))
        elif line and line[0] != "#":
            found[-1][1].append(line)
    return found


def texts_of(lines, known):
    """The files that lines give, by name."""
    files, name = {}, None
    for line in lines:
        if line.startswith("file "):
            name = line[5:]
            files[name] = ""
        elif line[0] in "|+":
            files[name] += line[1:].replace("\\t", "\t").replace("\\r", "\r") + "\n" * (line[0] == "|")
        elif line[0] == "&":
            files[name] += known[line[1:]]
    return files


def said_of(lines):
    """What lines say comes, as `judge` says it."""
    said = {line.split(" ", 1)[0]: line.split(" ", 1)[1] for line in lines if line[0] in "cs"}
    return said["comes"], int(said["status"])


def judge_rows(text):
    known, common, others, count = {}, [], 0, 0
    for heading, lines in sections(text):
        if heading.startswith("part "):
            known[heading[5:]] = texts_of(["file part"] + lines, known)["part"]
        elif heading == "common":
            common = lines
        else:
            files, said = texts_of(common + lines, known), said_of(common + lines)
            if not said[0].startswith(("accepted", "not accepted")):
                continue
            count += 1
            found = judge(read_cnf(files["two.cnf"]), read_log(files["two.lrat"]))
            if found != said:
                others += 1
                print(f"{heading}: {found[0]}")
    print(f"{count} cases, {others} otherwise")


def main():
    if sys.argv[1] == "rows":
        judge_rows(open(sys.argv[2]).read())
    else:
        print(judge(read_cnf(open(sys.argv[1]).read()), read_log(open(sys.argv[2]).read()))[0])


if __name__ == "__main__":
    main()
