#!/usr/bin/env python3
"""Makes the four files of nets that all meet, a third of them in each two of three cells.

    make_triangle.py PREFIX NETS

writes PREFIX.arch, PREFIX.net, PREFIX.place and PREFIX.route. NETS, at most 96, are dealt to three groups. Those of the
first go from the block on the left to the one in the middle, those of the second from there to the one on the right,
and those of the third from this to the one on the left, round the middle one: so each two groups share the cell below
one block. A cell has the nets of two groups, but all of them need tracks of their own under subset switches.
"""
import sys
from asked import answer_help

answer_help(__name__, __doc__)

HEAD = """io_rat 1
chan_width_io 1
chan_width_x uniform 1
chan_width_y uniform 1
"""
TAIL = """switch_block_type subset
Fc_type fractional
Fc_output 1
Fc_input 1
Fc_pad 1
segment frequency: 1 length: 1 wire_switch: 0 opin_switch: 0 Frac_cb: 1. Frac_sb: 1.
"""
COLUMNS = 3
# For each group the columns of its blocks, from and to, and the cells between.
GROUPS = [
    (1, 2, [("CHANX", 1, 0), ("CHANX", 2, 0)]),
    (2, 3, [("CHANX", 2, 0), ("CHANX", 3, 0)]),
    (3, 1, [("CHANX", 3, 0), ("CHANY", 2, 1), ("CHANX", 2, 1), ("CHANY", 1, 1), ("CHANX", 1, 0)]),
]


def line(kind, x, y, label):
    return f" {kind} ({x},{y})  {label}  \n"


def net(k, most):
    """Net k, of whose group there are k // 3 before it: it leaves by that pin, and ends at one behind the outputs."""
    start, end, cells = GROUPS[k % 3]
    out, into = k // 3, most + k // 3
    return (
        f"\n\nNet {k} (n{k})\n\n" + line("SOURCE", start, 1, f"Class: {out}") + line("OPIN", start, 1, f"Pin: {out}")
        + "".join(line(*cell, "Track: 0") for cell in cells)
        + line("IPIN", end, 1, f"Pin: {into}") + line("SINK", end, 1, f"Class: {into}")
    )


def pins(column, nets, most):
    at = ["open"] * (2 * most)
    for k in range(nets):
        start, end, _ = GROUPS[k % 3]
        if column == start:
            at[k // 3] = f"n{k}"
        if column == end:
            at[most + k // 3] = f"n{k}"
    return " ".join(at)


def main():
    prefix, nets = sys.argv[1], int(sys.argv[2])
    if not 1 <= nets <= 96:
        sys.exit("NETS is from 1 to 96")
    most = (nets + 2) // 3
    columns, size = range(1, COLUMNS + 1), f"Array size: {COLUMNS} x 1 logic blocks"
    texts = {
        "arch": HEAD + "".join(f"outpin class: {k} bottom\n" for k in range(most))
        + "".join(f"inpin class: {most + k} bottom\n" for k in range(most)) + TAIL,
        "net": "".join(f".clb b{x}\npinlist: {pins(x, nets, most)}\n" for x in columns),
        "place": f"Netlist file: {prefix}.net   Architecture file: {prefix}.arch\n{size}\n\n"
        + "".join(f"b{x} {x} 1 0\n" for x in columns),
        "route": f"{size}.\n\nRouting:" + "".join(net(k, most) for k in range(nets)),
    }
    for ending, text in texts.items():
        with open(f"{prefix}.{ending}", "w", encoding="ascii") as out:
            out.write(text)


main()
