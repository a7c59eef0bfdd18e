#!/usr/bin/env python3
"""Prints clauses, as DIMACS CNF, of nets that want the tracks of one cell: those of `searches` in `crates/rows/data`.

    make_rivals.py crowd NETS TRACKS
    make_rivals.py traps COUNT [CHAIN]
    make_rivals.py guarded COUNT NETS TRACKS
    make_rivals.py rows NETS TRACKS LENGTH VARIABLES

A crowd has a variable for each track of each net: each net has a track and no two, and no track has two nets. A trap
is a crowd of eight nets that want seven tracks, unless a literal is true that is false where the first variable of the
trap is true. Nothing but this literal leads out of it early, and no conflict meets the first variable. Behind the traps
stands a chain of so many variables, which the first of each trap makes true, one by the other. A guarded crowd stands
behind guards: so many times two nets want one track where the first variable and one other are true, and two where the
first and two others are, unless the second variable is true; and first of all two where the first two variables are. In
rows the variable of each track of each net is followed by so many others, one by the other, and two nets on a track are
rivals by some of these, or by the first ones, and on the first track once more by others; there are so many variables
in all.
"""
import sys
from asked import answer_help

answer_help(__name__, __doc__)


def crowd(nets, tracks, behind, guard):
    """The clauses of a crowd behind so many other variables, each behind the literals of the guard."""
    clauses = [[behind + net * tracks + track + 1 for track in range(tracks)] for net in range(nets)]
    for b in range(nets * tracks):
        for a in range(b):
            if a // tracks == b // tracks or a % tracks == b % tracks:
                clauses.append([-(behind + a + 1), -(behind + b + 1)])
    return [guard + clause for clause in clauses]


def traps(count, chain=0):
    """The clauses of so many traps, and of a chain behind them."""
    end = count * 59 + 1
    clauses = [[-v, v + 1] for v in range(end, end + chain - 1)]
    for trap in range(count):
        first = trap * 59 + 1
        second, way_out = first + 1, first + 2
        clauses += [[-first, second], [-second, -way_out]] + crowd(8, 7, first + 2, [way_out])
        clauses += [[-first, end]] if chain > 0 else []
    return clauses


def guarded(count, nets, tracks):
    """The clauses of guards that one conflict each refutes, and of a crowd behind them."""
    clauses = crowd(2, 1, 2, [-1, -2])
    behind = 4
    for _ in range(count):
        for more in (1, 2):
            others = [-variable for variable in range(behind + 1, behind + more + 1)]
            clauses += crowd(2, 1, behind + more, [-1, 2] + others)
            behind += more + 2
    return clauses + crowd(nets, tracks, behind, [])


def rows(nets, tracks, length, variables):
    """The clauses of rivals by the variables that follow those of a crowd, and one that holds the last variable."""
    representatives = nets * tracks

    def at(net, track, place):
        representative = net * tracks + track + 1
        if place % (length + 1) == 0:
            return representative
        return representatives + (representative - 1) * length + place % (length + 1)

    clauses = [[at(net, track, 0) for track in range(tracks)] for net in range(nets)]
    for net in range(nets):
        for track in range(tracks):
            clauses += [[-at(net, track, place), at(net, track, place + 1)] for place in range(length)]
    for track in range(tracks):
        for b in range(nets):
            for a in range(b):
                clauses.append([-at(a, track, a + b + track), -at(b, track, 2 * a + b)])
                if track == 0:
                    clauses.append([-at(a, track, a), -at(b, track, 3 * b)])
    return clauses + [[variables - 1, variables]]


def main():
    kind, *numbers = sys.argv[1:]
    numbers = [int(number) for number in numbers]
    makers = {"crowd": lambda *of: crowd(*of, 0, []), "traps": traps, "guarded": guarded, "rows": rows}
    clauses = makers[kind](*numbers)
    variables = max(abs(literal) for clause in clauses for literal in clause)
    print(f"p cnf {variables} {len(clauses)}")
    for clause in clauses:
        print(*clause, 0)


main()
