#!/usr/bin/env python3
"""Makes the four files of nets round a ring of cells, which need more tracks than any cell shows.

    make_rings.py PREFIX PARTS NETS SEED

writes PREFIX.arch, PREFIX.net, PREFIX.place and PREFIX.route. The cells along the border of an array form a ring,
which is cut into PARTS parts, from 3 to 199, an odd number. NETS nets, at most 8, go along each part, from the first
cell of it to that of the next, so that each meets the nets of its own part and of the two beside it. A cell has at
most twice NETS nets; but as the ring is odd, 2 * NETS + ceil(2 * NETS / (PARTS - 1)) tracks are needed, and one width
less is refuted only by a search. SEED shuffles the nets; 0 leaves them in order.
"""
import random
import sys
from asked import answer_help

answer_help(__name__, __doc__)

ARCHITECTURE = """io_rat 16
chan_width_io 1
chan_width_x uniform 1
chan_width_y uniform 1
inpin class: 0 bottom
outpin class: 1 bottom
switch_block_type subset
Fc_type fractional
Fc_output 1
Fc_input 1
Fc_pad 1
segment frequency: 1 length: 1 wire_switch: 0 opin_switch: 0 Frac_cb: 1. Frac_sb: 1.
"""


def border(size):
    """The cells along the border, round once, each with the place of the pads beside it."""
    steps = range(1, size + 1)
    bottom = [(("CHANX", x, 0), (x, 0)) for x in steps]
    right = [(("CHANY", size, y), (size + 1, y)) for y in steps]
    top = [(("CHANX", x, size), (x, size + 1)) for x in reversed(steps)]
    left = [(("CHANY", 0, y), (0, y)) for y in reversed(steps)]
    return bottom + right + top + left


def net(number, cells, start, end):
    lines = [f"\n\nNet {number} (n{number})\n"]
    (x, y), pad = start
    lines += [f"SOURCE ({x},{y})  Pad: {pad}  ", f"  OPIN ({x},{y})  Pad: {pad}  "]
    lines += [f" {kind} ({x},{y})  Track: 0  " for kind, x, y in cells]
    (x, y), pad = end
    lines += [f"  IPIN ({x},{y})  Pad: {pad}  ", f"  SINK ({x},{y})  Pad: {pad}  "]
    return "\n".join(lines) + "\n"


def main():
    prefix, parts, nets, seed = sys.argv[1], *(int(word) for word in sys.argv[2:5])
    if not (3 <= parts <= 199 and parts % 2 == 1 and 1 <= nets <= 8):
        sys.exit("PARTS is odd and from 3 to 199, NETS from 1 to 8")
    size = max(2, (2 * parts + 3) // 4)
    ring = border(size)
    order = list(range(parts * nets))
    if seed:
        random.Random(seed).shuffle(order)
    pads = [0] * len(ring)
    netlist, placed, routed = [], [], []
    for number, which in enumerate(order):
        part = which % parts
        first, last = part * len(ring) // parts, (part + 1) * len(ring) // parts
        cells = [ring[k % len(ring)][0] for k in range(first, last + 1)]
        ends = []
        for k in (first, last % len(ring)):
            ends.append((ring[k][1], pads[k]))
            pads[k] += 1
        netlist.append(f".input p{number}\npinlist: n{number}\n.output q{number}\npinlist: n{number}\n")
        placed += [f"{name}{number} {x} {y} {pad}\n" for name, ((x, y), pad) in zip("pq", ends)]
        routed.append(net(number, cells, *ends))
    texts = {
        "arch": ARCHITECTURE,
        "net": "".join(netlist),
        "place": f"Netlist file: {prefix}.net   Architecture file: {prefix}.arch\n"
        f"Array size: {size} x {size} logic blocks\n\n" + "".join(placed),
        "route": f"Array size: {size} x {size} logic blocks.\n\nRouting:" + "".join(routed),
    }
    for ending, text in texts.items():
        with open(f"{prefix}.{ending}", "w", encoding="ascii") as out:
            out.write(text)


main()
