#!/usr/bin/env python3
"""Makes the four files of nets that run side by side along the rows of an array of 100 columns.

    make_tube.py PREFIX NETS [ROWS]

writes PREFIX.arch, PREFIX.net, PREFIX.place and PREFIX.route. NETS, at most 67, run in each of ROWS rows (1), each
from an output pin to the right: net k of a row from column k + 1 on, through column 66 in any case. With one row they
end at pads below it, with more each behind 75 columns at an input pin, so that NETS is at most 26 there.
"""
import sys
from asked import answer_help

answer_help(__name__, __doc__)

ARCHITECTURE = """io_rat 2
chan_width_io 1
chan_width_x uniform 1
chan_width_y uniform 1
inpin class: 0 bottom
outpin class: 1 bottom
switch_block_type subset
Fc_type fractional
Fc_output 1
Fc_input 1
Fc_pad 1
segment frequency: 1 length: 1 wire_switch: 0 opin_switch: 0 Frac_cb: 1. Frac_sb: 1.
"""
COLUMNS = 100


def main():
    prefix, nets, rows = sys.argv[1], int(sys.argv[2]), int((sys.argv[3:] or ["1"])[0])
    if not (1 <= nets <= (67 if rows == 1 else 26) and 1 <= rows <= 100):
        sys.exit("NETS is from 1 to 67, or to 26 in more rows than one; ROWS from 1 to 100")
    netlist, places, routes = [], [], []
    for row in range(1, rows + 1):
        for k in range(nets):
            name, start = f"{k}_{row}", k + 1
            netlist.append(f".clb a{name}\npinlist: open n{name}\n")
            places.append(f"a{name} {start} {row} 0\n")
            if rows == 1:
                end, below = 66 + k // 2, k % 2
                netlist.append(f".output z{name}\npinlist: n{name}\n")
                places.append(f"z{name} {end} 0 {below}\n")
                last = f"IPIN ({end},0) Pad: {below}\nSINK ({end},0) Pad: {below}\n"
            else:
                end = start + 74
                netlist.append(f".clb z{name}\npinlist: n{name} open\n")
                places.append(f"z{name} {end} {row} 0\n")
                last = f"IPIN ({end},{row}) Pin: 0\nSINK ({end},{row}) Class: 0\n"
            cells = "".join(f"CHANX ({x},{row - 1}) Track: 0\n" for x in range(start, end + 1))
            first = f"SOURCE ({start},{row}) Class: 1\nOPIN ({start},{row}) Pin: 1\n"
            routes.append(f"Net {len(routes)} (n{name})\n{first}{cells}{last}")
    size = f"Array size: {COLUMNS} x {rows} logic blocks"
    texts = {
        "arch": ARCHITECTURE,
        "net": "".join(netlist),
        "place": f"Netlist file: {prefix}.net   Architecture file: {prefix}.arch\n{size}\n\n" + "".join(places),
        "route": f"{size}.\n\nRouting:\n" + "".join(routes),
    }
    for ending, text in texts.items():
        with open(f"{prefix}.{ending}", "w", encoding="ascii") as out:
            out.write(text)


main()
