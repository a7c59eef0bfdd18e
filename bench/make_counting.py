#!/usr/bin/env python3
"""Refutes a cell that more nets want than there are tracks, by counting with new variables, in full LRAT.

    make_counting.py CNF LRAT TRACKS

CNF is what `encode` writes at that many tracks of a problem of make_crowd.py with one net more. LRAT gets a refutation
whose steps may resolve on their first literal, after Cook's short proof that pigeons do not fit their holes (1976): it
grows as the fourth power of TRACKS, where refutations by learned clauses grow exponentially.

From slots 0 to n and tracks 0 to n - 1 it goes to one slot and one track less. A new variable says of a slot and a
track that the slot has the track, or that it has the last track and the last slot has this one. Four clauses say so;
then each slot has one of the fewer tracks, and no two slots have one. With two slots and one track left the empty
clause follows. What served one level alone is deleted behind it.
"""
import sys
from asked import answer_help

answer_help(__name__, __doc__)


class Log:
    """An LRAT text, and the ids of its clauses."""

    def __init__(self, file, last_id, last_variable):
        self.file, self.last_id, self.last_variable = file, last_id, last_variable

    def variable(self):
        self.last_variable += 1
        return self.last_variable

    def add(self, literals, hints):
        self.last_id += 1
        print(self.last_id, *literals, 0, *hints, 0, file=self.file)
        return self.last_id

    def erase(self, ids):
        if ids:
            print(self.last_id, "d", *ids, 0, file=self.file)


class Level:
    """Slots and tracks: the variable of each slot and track, the id of the clause that each slot has some track, and
    of the one that two slots (the lower first) do not both have a track."""

    def __init__(self, has, some, apart):
        self.has, self.some, self.apart = has, some, apart

    def ids(self):
        return [*self.some, *self.apart.values()]


def first_level(ids, tracks):
    slots = range(tracks + 1)
    has = [[slot * tracks + track + 1 for track in range(tracks)] for slot in slots]
    some = [ids[frozenset(row)] for row in has]
    apart = {(i, j, t): ids[frozenset((-has[i][t], -has[j][t]))] for t in range(tracks) for j in slots for i in range(j)}
    return Level(has, some, apart)


def define(log, has, slot, track, last_slot, last_track):
    """A variable for `has track, or has the last track and the last slot has this one`, with its four clauses."""
    new, direct = log.variable(), has[slot][track]
    moved, given = has[slot][last_track], has[last_slot][track]
    by_direct = log.add([new, -direct], [])
    by_moved = log.add([new, -moved, -given], [])
    groups = [-by_direct, -by_moved]
    or_moved = log.add([-new, direct, moved], groups)
    or_given = log.add([-new, direct, given], groups)
    return new, (by_direct, by_moved, or_moved, or_given)


def next_level(log, level):
    """One slot and one track less, and the ids of what served to come there."""
    last_slot = len(level.has) - 1
    last_track = last_slot - 1
    slots, tracks = range(last_slot), range(last_track)
    made = [[define(log, level.has, i, t, last_slot, last_track) for t in tracks] for i in slots]
    has = [[new for new, _ in row] for row in made]
    says = [[clauses for _, clauses in row] for row in made]
    some = [log.add(has[i], [says[i][t][0] for t in tracks] + [level.some[i]] + [says[i][t][1] for t in tracks]
                    + [level.apart[i, last_slot, last_track], level.some[last_slot]]) for i in slots]
    apart, helps = {}, []
    for t in tracks:
        for j in slots:
            for i in range(j):
                help_id = log.add([-has[i][t], -has[j][t], -level.has[i][t]],
                                  [level.apart[i, j, t], level.apart[i, last_slot, t], says[j][t][3]])
                helps.append(help_id)
                apart[i, j, t] = log.add([-has[i][t], -has[j][t]],
                                         [help_id, says[i][t][2], says[i][t][3], level.apart[j, last_slot, t],
                                          says[j][t][2], level.apart[i, j, last_track]])
    return Level(has, some, apart), helps + [clause for row in says for clauses in row for clause in clauses]


def main():
    cnf, lrat, tracks = sys.argv[1], sys.argv[2], int(sys.argv[3])
    with open(cnf, encoding="ascii") as file:
        variables = int(next(file).split()[2])
        clauses = [frozenset(map(int, line.split()[:-1])) for line in file]
    ids = {clause: number for number, clause in reversed(list(enumerate(clauses, 1)))}
    with open(lrat, "w", encoding="ascii") as file:
        log, level, old = Log(file, len(clauses), variables), first_level(ids, tracks), []
        while len(level.has) > 2:
            level, served = next_level(log, level)
            log.erase(served + old)
            old = level.ids()
        log.add([], [*level.some, level.apart[0, 1, 0]])


main()
