#!/usr/bin/env python3
"""Makes the four files of one net from the middle of an array of 100 by 100 to the blocks about it.

    make_comb.py PREFIX QUARTERS

writes PREFIX.arch, PREFIX.net, PREFIX.place and PREFIX.route. The net goes along the middle row, and from there up and
down the columns of one to four quarters of the array, with a sink at each cell, none of which is more than 64 joins
away: 1,735 cells a quarter.
"""
import sys
from asked import answer_help

answer_help(__name__, __doc__)

ARCHITECTURE = """io_rat 2
chan_width_io 1
chan_width_x uniform 1
chan_width_y uniform 1
inpin class: 0 right
outpin class: 1 top
switch_block_type subset
Fc_type fractional
Fc_output 1
Fc_input 1
Fc_pad 1
segment frequency: 1 length: 1 wire_switch: 0 opin_switch: 0 Frac_cb: 1. Frac_sb: 1.
"""
SIDE, MIDDLE = 100, 50
QUARTERS = [(1, 1), (1, -1), (-1, 1), (-1, -1)]


def channel(kind, x, y):
    return f"{kind} ({x},{y}) Track: 0\n"


def arms(quarters):
    """For each arm its column, the column before it on the trunk, and the rows of its cells."""
    for across in (1, -1):
        for distance in range(0 if across == 1 else 1, 49):
            for up in (up for side, up in quarters if side == across):
                rows = [MIDDLE + 1 + k if up == 1 else MIDDLE - k for k in range(min(48, 60 - distance))]
                yield MIDDLE + across * distance, MIDDLE + across * (distance - 1), rows


def main():
    prefix, quarters = sys.argv[1], QUARTERS[: int(sys.argv[2])]
    route = [f"SOURCE ({MIDDLE},{MIDDLE}) Class: 1\nOPIN ({MIDDLE},{MIDDLE}) Pin: 1\n"]
    trunk, sinks = set(), []
    for column, before, rows in arms(quarters):
        stem = [channel("CHANX", column, MIDDLE)]
        if trunk and column not in trunk:
            stem.insert(0, channel("CHANX", before, MIDDLE))
        trunk.add(column)
        for row in rows:
            stem.append(channel("CHANY", column, row))
            if (column, row) == (MIDDLE, MIDDLE):
                continue
            sinks.append((column, row))
            route += stem + [f"IPIN ({column},{row}) Pin: 0\nSINK ({column},{row}) Class: 0\n"]
            stem = [channel("CHANY", column, row)]
    size = f"Array size: {SIDE} x {SIDE} logic blocks"
    texts = {
        "arch": ARCHITECTURE,
        "net": ".clb d\npinlist: open n\n" + "".join(f".clb b{x}_{y}\npinlist: n open\n" for x, y in sinks),
        "place": f"Netlist file: {prefix}.net   Architecture file: {prefix}.arch\n{size}\n\nd {MIDDLE} {MIDDLE} 0\n"
        + "".join(f"b{x}_{y} {x} {y} 0\n" for x, y in sinks),
        "route": f"{size}.\n\nRouting:\nNet 0 (n)\n" + "".join(route),
    }
    for ending, text in texts.items():
        with open(f"{prefix}.{ending}", "w", encoding="ascii") as out:
            out.write(text)


main()
