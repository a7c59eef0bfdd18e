#!/usr/bin/env python3
"""Draws the calls of `search_tests/src/random_watches.rt`, and prints how many clauses they attach, and a sum over which
literals are true behind each call, which it works out by the clauses alone: a literal is true where it was decided, or
where all others of a clause are false."""
from asked import answer_help

answer_help(__name__, __doc__)

VARS, PRIME, WORD = 40, 0x100000001B3, (1 << 64) - 1
state = 1


def draw(below):
    """The next number of a sequence, below another."""
    global state
    state = (state * 6364136223846793005 + 1442695040888963407) & WORD
    return (state >> 33) % below


def draw_sign(variable):
    return -variable if draw(2) else variable


def follow(clauses, true):
    """Adds to the true literals what follows by the clauses, and says whether no clause is false."""
    grows = True
    while grows:
        grows = False
        for clause in clauses:
            if any(l in true for l in clause):
                continue
            left = [l for l in clause if -l not in true]
            if not left:
                return False
            if len(left) == 1:
                true.add(left[0])
                grows = True
    return True


def drawn_clause():
    """The literals of a clause."""
    a = draw(VARS - 12) + 1
    b = a + draw(3) + 1
    c = b + draw(3) + 1
    x, y, z = draw_sign(a), draw_sign(b), draw_sign(c)
    kind = draw(3)
    if kind == 0:
        return [x, y]
    if kind == 1:
        return [z, x, y]
    d = c + draw(3) + 1
    e = d + draw(3) + 1
    v, w = draw_sign(d), draw_sign(e)
    return [z, v, x, w, y]


def call(clauses, levels):
    """One more call; says whether it attached a clause. Of each level there are the literals that are true then."""
    kind = draw(8)
    if kind == 0:
        if len(levels) > 1:
            del levels[draw(len(levels) - 1) + 1:]
    elif kind <= 3:
        clause = drawn_clause()
        if -clause[0] not in levels[-1] and -clause[-1] not in levels[-1]:
            clauses.append(clause)
            return True
    else:
        l = draw_sign(draw(VARS) + 1)
        if l in levels[-1] or -l in levels[-1]:
            return False
        levels.append(levels[-1] | {l})
        if follow(clauses, levels[-1]):
            return False
        if draw(4) > 0:
            del levels[draw(len(levels) - 1) + 1:]
        else:
            del levels[1:]
            del clauses[:1]
    return False


def main():
    total, count = 0, 0
    for _ in range(25):
        clauses, levels = [], [set()]
        for _ in range(400):
            count += call(clauses, levels)
            for number in [len(levels) - 1] + [2 * (v in levels[-1]) + (-v in levels[-1]) for v in range(1, VARS + 1)]:
                total = (total ^ number) * PRIME & WORD
    print(count, total)


main()
