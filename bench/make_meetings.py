#!/usr/bin/env python3
"""Makes the four files of nets that all meet, each two of them in a cell of their own.

    make_meetings.py PREFIX NETS

writes PREFIX.arch, PREFIX.net, PREFIX.place and PREFIX.route. Net k of NETS, from 2 to 49, goes along row k of the
array from pad to pad, and from there down between columns 2k and 2k + 1 to a pad below, so that it takes one cell of
each lower row. No cell has more than two nets, but all of them need tracks of their own under subset switches.
"""
import sys
from asked import answer_help

answer_help(__name__, __doc__)

ARCHITECTURE = """io_rat 1
chan_width_io 1
chan_width_x uniform 1
chan_width_y uniform 1
inpin class: 0 bottom
outpin class: 1 bottom
switch_block_type subset
Fc_type fractional
Fc_output 1
Fc_input 1
Fc_pad 1
segment frequency: 1 length: 1 wire_switch: 0 opin_switch: 0 Frac_cb: 1. Frac_sb: 1.
"""


def line(kind, x, y, label):
    return f" {kind} ({x},{y})  {label}  \n"


def pad(kind, place):
    return line(kind, *place, "Pad: 0")


def along(cells):
    return "".join(line(kind, x, y, "Track: 0") for kind, x, y in cells)


def net(k, columns):
    start, right, low = (0, k), (columns + 1, k), (2 * k + 1, 0)
    row = [("CHANY", 0, k)] + [("CHANX", x, k) for x in range(1, columns + 1)] + [("CHANY", columns, k)]
    column, down = 2 * k, [("CHANX", 2 * k, k)]
    for y in range(k, 0, -1):
        down.append(("CHANY", column, y))
        down.append(("CHANX", 2 * k + 1, y - 1))
        column = 4 * k + 1 - column
    return (
        f"\n\nNet {k - 1} (n{k})\n\n" + pad("SOURCE", start) + pad("OPIN", start) + along(row) + pad("IPIN", right)
        + pad("SINK", right) + along(down) + pad("IPIN", low) + pad("SINK", low)
    )


def main():
    prefix, nets = sys.argv[1], int(sys.argv[2])
    if not 2 <= nets <= 49:
        sys.exit("NETS is from 2 to 49")
    columns, size = 2 * nets + 2, nets
    each = range(1, nets + 1)
    texts = {
        "arch": ARCHITECTURE,
        "net": "".join(
            f".input p{k}\npinlist: n{k}\n.output q{k}\npinlist: n{k}\n.output r{k}\npinlist: n{k}\n" for k in each
        ),
        "place": f"Netlist file: {prefix}.net   Architecture file: {prefix}.arch\n"
        f"Array size: {columns} x {size} logic blocks\n\n"
        + "".join(f"p{k} 0 {k} 0\nq{k} {columns + 1} {k} 0\nr{k} {2 * k + 1} 0 0\n" for k in each),
        "route": f"Array size: {columns} x {size} logic blocks.\n\nRouting:" + "".join(net(k, columns) for k in each),
    }
    for ending, text in texts.items():
        with open(f"{prefix}.{ending}", "w", encoding="ascii") as out:
            out.write(text)


main()
