#!/usr/bin/env python3
"""Makes the four files of COUNT nets through one cell, which need COUNT tracks.

    make_crowd.py PREFIX COUNT

writes PREFIX.arch, PREFIX.net, PREFIX.place and PREFIX.route. COUNT is at most 32: each net runs from an output to an
input of one logic block, along the cell below it.
"""
import sys
from asked import answer_help

answer_help(__name__, __doc__)


def architecture(count):
    pins = "".join(f"outpin class: {k} bottom\n" for k in range(count))
    pins += "".join(f"inpin class: {count + k} bottom\n" for k in range(count))
    return (
        "io_rat 1\nchan_width_io 1\nchan_width_x uniform 1\nchan_width_y uniform 1\n"
        + pins
        + "switch_block_type subset\nFc_type fractional\nFc_output 1\nFc_input 1\nFc_pad 1\n"
        + "segment frequency: 1 length: 1 wire_switch: 0 opin_switch: 0 Frac_cb: 1. Frac_sb: 1.\n"
    )


def net(k, count):
    return (
        f"\n\nNet {k} (n{k})\n\nSOURCE (1,1)  Class: {k}  \n  OPIN (1,1)  Pin: {k}  \n CHANX (1,0)  Track: 0  \n"
        f"  IPIN (1,1)  Pin: {count + k}  \n  SINK (1,1)  Class: {count + k}  \n"
    )


def main():
    prefix, count = sys.argv[1], int(sys.argv[2])
    if not 1 <= count <= 32:
        sys.exit("COUNT is from 1 to 32")
    names = " ".join(f"n{k}" for k in range(count))
    texts = {
        "arch": architecture(count),
        "net": f".clb b\npinlist: {names} {names}\n",
        "place": f"Netlist file: {prefix}.net   Architecture file: {prefix}.arch\n"
        "Array size: 1 x 1 logic blocks\n\nb 1 1 0\n",
        "route": "Array size: 1 x 1 logic blocks.\n\nRouting:" + "".join(net(k, count) for k in range(count)),
    }
    for ending, text in texts.items():
        with open(f"{prefix}.{ending}", "w") as out:
            out.write(text)


main()
