#!/usr/bin/env python3
"""Makes formulas with their refutations, for measurements of the proof checker.

    make_proof.py tree COUNT BITS PREFIX     COUNT blocks of BITS variables, each with all clauses over them; resolved pair by pair, two hints a step, and what was resolved is deleted
    make_proof.py chain COUNT LINKS PREFIX   COUNT chains of LINKS implications, each drawn together by one step with LINKS hints

The files are PREFIX.cnf and PREFIX.lrat.
"""
import sys
from asked import answer_help

answer_help(__name__, __doc__)


def signs(variables, pattern):
    """The clause over these variables that the values of this pattern make false."""
    return [v if pattern >> k & 1 else -v for k, v in enumerate(variables)]


def line(numbers):
    return " ".join(map(str, numbers)) + "\n"


def write_cnf(prefix, variables, clauses):
    with open(prefix + ".cnf", "w") as out:
        out.write(f"p cnf {variables} {len(clauses)}\n")
        for clause in clauses:
            out.write(line(clause + [0]))


def tree(count, bits, prefix):
    """Each block has a switch, which its clauses have too; the last clause says that some switch is off."""
    clauses = []
    for block in range(count):
        first = block * (bits + 1) + 1
        variables = list(range(first + 1, first + bits + 1))
        clauses += [[first] + signs(variables, pattern) for pattern in range(1 << bits)]
    clauses.append([-(block * (bits + 1) + 1) for block in range(count)])
    write_cnf(prefix, count * (bits + 1), clauses)
    at = len(clauses)
    units = []
    with open(prefix + ".lrat", "w") as out:
        for block in range(count):
            first = block * (bits + 1) + 1
            level = [block * (1 << bits) + pattern + 1 for pattern in range(1 << bits)]
            for left in range(bits - 1, -1, -1):
                half = 1 << left
                variables = list(range(first + 1, first + left + 1))
                new = []
                for pattern in range(half):
                    at += 1
                    lits = [first] + signs(variables, pattern)
                    out.write(line([at] + lits + [0, level[pattern], level[pattern + half], 0]))
                    new.append(at)
                out.write(f"{at} d " + line(level + [0]))
                level = new
            units += level
        out.write(line([at + 1, 0] + units + [len(clauses), 0]))


def chain(count, links, prefix):
    """Each chain leads from a variable to another; the first is true, and all last ones are not true at once."""
    step = links + 1
    clauses = []
    for k in range(count):
        first = k * step + 1
        clauses += [[-v, v + 1] for v in range(first, first + links)]
    units = len(clauses)
    clauses += [[k * step + 1] for k in range(count)]
    clauses.append([-(k * step + links + 1) for k in range(count)])
    write_cnf(prefix, count * step, clauses)
    at = len(clauses)
    ends = []
    with open(prefix + ".lrat", "w") as out:
        for k in range(count):
            at += 1
            hints = [units + k + 1] + list(range(k * links + 1, (k + 1) * links + 1))
            out.write(line([at, k * step + links + 1, 0] + hints + [0]))
            ends.append(at)
        out.write(line([at + 1, 0] + ends + [len(clauses), 0]))


def main():
    kinds = {"tree": tree, "chain": chain}
    if len(sys.argv) != 5 or sys.argv[1] not in kinds:
        sys.exit(__doc__)
    kinds[sys.argv[1]](int(sys.argv[2]), int(sys.argv[3]), sys.argv[4])


main()
