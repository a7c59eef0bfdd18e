#!/usr/bin/env python3
"""Has models of outside solvers decoded by the built program, and changed ones refused.

    decoded.py [PROGRAM [CASES]]

Makes 200 problems by `gen`, or as many as are asked for, and takes each at the least width from 2 on that a solver
finds a model of. `minisat` and `cadical`, those of them that are there, search through the clauses that `encode`
writes, in turn without an option, with `--pin`, with `--symmetry` and with `--reach 16`. Of each model `decode` is to
say that the width is routed, and `verify` that the file is legal. Then one literal of the model is turned round, and
one is left out: the script reads the clauses and finds the first without a literal of what is left, which `decode` is
to name without writing a file; where there is none, the model counts. Prints how many of each there were, and each case
that is otherwise. Its status is 1 where there is one.
"""
import os
import random
import shutil
import subprocess
import sys
import tempfile
from asked import answer_help

answer_help(__name__, __doc__)

HERE = os.path.dirname(os.path.abspath(__file__))
BUILT = os.path.join(HERE, "..", "crates", "router", "out", "router")
FILES = ["d.arch", "d.net", "d.place", "d.route"]
METHODS = ([], ["--pin"], ["--symmetry"], ["--reach", "16"])
SATISFIABLE = 10
WIDEST = 64


def run(*words):
    """The status of a command, and the last line that it says."""
    came = subprocess.run(words, stdout=subprocess.PIPE, stderr=subprocess.DEVNULL, text=True)
    lines = came.stdout.splitlines()
    return came.returncode, lines[-1] if lines else ""


def by_minisat(cnf, model):
    return run("minisat", "-verb=0", cnf, model)[0] == SATISFIABLE


def by_cadical(cnf, model):
    with open(model, "w") as out:
        return subprocess.run(["cadical", cnf], stdout=out).returncode == SATISFIABLE


def solvers():
    known = {"minisat": by_minisat, "cadical": by_cadical}
    return {name: solve for name, solve in known.items() if shutil.which(name)}


def clauses_of(cnf):
    """The clauses of a CNF file, in their order."""
    clauses, clause = [], []
    for line in open(cnf):
        if line[0] in "cp":
            continue
        for number in map(int, line.split()):
            if number == 0:
                clauses.append(clause)
                clause = []
            else:
                clause.append(number)
    return clauses


def literals_of(model):
    """The literals of a model as a solver writes it."""
    literals = []
    for line in open(model):
        words = line.split()
        if not words or words[0] in ("s", "SAT") or words[0][0] == "c":
            continue
        literals += [int(word) for word in words if word != "v"]
    assert literals.pop() == 0 and 0 not in literals
    return literals


def first_unmet(clauses, literals):
    """The number of the first clause without one of the literals, counted from 1, or None."""
    given = set(literals)
    for number, clause in enumerate(clauses, 1):
        if given.isdisjoint(clause):
            return number
    return None


def write_model(name, literals, style):
    """Writes literals as a solver might: a bare list, or lines of seven."""
    with open(name, "w") as out:
        if style == 0:
            out.write("SAT\n" + " ".join(map(str, literals)) + " 0\n")
            return
        out.write("c made\ns SATISFIABLE\n")
        for at in range(0, len(literals), 7):
            out.write("v " + " ".join(map(str, literals[at:at + 7])) + "\n")
        out.write("v 0\nc behind\n")


def width_with_model(program, solve, method):
    """The least width from 2 on at which the solver finds a model of the clauses, with its files."""
    for width in range(2, WIDEST + 1):
        status, said = run(program, "encode", *FILES, str(width), "all", *method)
        if status != 0:
            return None
        if solve("all.cnf", "all.model"):
            return width
    return None


def decoded(program, width, model, method):
    """What `decode` comes to, and whether there is a route file."""
    if os.path.exists("out.route"):
        os.remove("out.route")
    came = run(program, "decode", *FILES, str(width), model, "out", *method)
    return came, os.path.exists("out.route")


def changed(program, width, clauses, literals, method, style, counts):
    """What is wrong with the answer for a changed model."""
    write_model("changed.model", literals, style)
    number = first_unmet(clauses, literals)
    came, there = decoded(program, width, "changed.model", method)
    due = (0, f"routed {width}") if number is None else (1, f"not a model: clause {number}")
    counts["refused" if number else "still a model"] += 1
    if came != due or there != (number is None):
        return [f"{due} is due, {came} came"]
    return []


def compare(program, solve, method, seed, counts):
    """What differs in one case."""
    draw = random.Random(seed)
    made = run(program, "gen", str(seed), str(3 + seed % 5), str(4 + seed % 6), "d")
    if made[0] != 0:
        return [f"gen: {made}"]
    width = width_with_model(program, solve, method)
    if width is None:
        return ["no width has a model"]
    came, there = decoded(program, width, "all.model", method)
    if came != (0, f"routed {width}") or not there:
        return [f"decode: {came}"]
    reach = method if "--reach" in method else []
    judged = run(program, "verify", *FILES, str(width), "out.route", *reach)
    if judged != (0, "legal"):
        return [f"verify: {judged}"]
    counts["decoded"] += 1
    clauses = clauses_of("all.cnf")
    literals = literals_of("all.model")
    at = draw.randrange(len(literals))
    turned = literals[:at] + [-literals[at]] + literals[at + 1:]
    less = literals[:at] + literals[at + 1:]
    return (changed(program, width, clauses, turned, method, 0, counts)
            + changed(program, width, clauses, less, method, 1, counts))


def main():
    program = os.path.abspath(sys.argv[1] if len(sys.argv) > 1 else BUILT)
    cases = int(sys.argv[2]) if len(sys.argv) > 2 else 200
    there = solvers()
    if not there:
        sys.exit("neither minisat nor cadical is there")
    failed = False
    with tempfile.TemporaryDirectory() as folder:
        os.chdir(folder)
        for name, solve in there.items():
            counts = {"decoded": 0, "refused": 0, "still a model": 0}
            for seed in range(1, cases + 1):
                method = METHODS[seed % len(METHODS)]
                for wrong in compare(program, solve, method, seed, counts):
                    failed = True
                    print(f"{name} {seed} {' '.join(method)}: {wrong}")
            print(f"{name}: " + ", ".join(f"{count} {what}" for what, count in counts.items()))
    sys.exit(1 if failed else 0)


if __name__ == "__main__":
    main()
