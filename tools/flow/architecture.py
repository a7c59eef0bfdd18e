"""The fabric that a design is made for: the pins of a block, the pads, switch blocks and boxes.

A logic block has its inputs round its four sides, an output at the top and at the right, and a clock
that global nets alone take. VPR's own example of blocks with one table of four inputs looks like this.
"""
from dataclasses import dataclass

SWITCHES = ("subset", "wilton", "universal")
SIDES = ("bottom", "left", "top", "right")
OUTPUT_SIDES = ("top", "right")
INPUT_CLASS, OUTPUT_CLASS, CLOCK_CLASS = 0, 1, 2


@dataclass(frozen=True)
class Architecture:
    """How many inputs a block has and pads a place, the switch blocks, and what boxes open.

    A box opens a share of the tracks, from 0 to 1. Shares are kept as the words that they came in, so
    that the text says exactly what was asked for.
    """

    inputs: int = 4
    pads: int = 2
    switch: str = "wilton"
    input_box: str = "1"
    output_box: str = "1"
    pad_box: str = "1"

    def side_of_input(self, pin):
        return SIDES[pin % len(SIDES)]

    def text(self):
        pins = [f"inpin class: {INPUT_CLASS} {self.side_of_input(pin)}" for pin in range(self.inputs)]
        pins.append(f"outpin class: {OUTPUT_CLASS} {' '.join(OUTPUT_SIDES)}")
        pins.append(f"inpin class: {CLOCK_CLASS} global top")
        return "\n".join([
            f"# Logic blocks of one table of {self.inputs} inputs with its flip-flop.",
            f"io_rat {self.pads}",
            "chan_width_io 1",
            "chan_width_x uniform 1",
            "chan_width_y uniform 1",
            "",
            *pins,
            "",
            "subblocks_per_clb 1",
            f"subblock_lut_size {self.inputs}",
            "",
            f"switch_block_type {self.switch}",
            "Fc_type fractional",
            f"Fc_output {self.output_box}",
            f"Fc_input {self.input_box}",
            f"Fc_pad {self.pad_box}",
            "segment frequency: 1 length: 1 wire_switch: 0 opin_switch: 0 Frac_cb: 1. \\",
            "    Frac_sb: 1. Rmetal: 4.16 Cmetal: 81e-15",
            "switch 0 buffered: yes R: 786.9 Cin: 7.512e-15 Cout: 10.762e-15 Tdel: 456e-12",
            "T_ipad 478e-12",
            "",
        ])
