"""The netlist and the placement as the texts of VPR 4.30; `architecture` has its own."""
import os

ENDINGS = ("arch", "net", "place")


def netlist_text(design, architecture):
    lines = []
    for net in design.nets:
        if net.is_global:
            lines.append(f".global {net.name}")
    for block in design.blocks:
        lines += ["", f".{block.kind} {block.name}"]
        if block.is_pad():
            lines.append(f"pinlist: {block.output or block.inputs[0]}")
        else:
            lines += clb_lines(block, architecture)
    return "\n".join(lines) + "\n"


def clb_lines(block, architecture):
    spare = ["open"] * (architecture.inputs - len(block.inputs))
    pins = block.inputs + spare + [block.output, block.clock or "open"]
    used = [str(pin) if net != "open" else "open" for pin, net in enumerate(pins)]
    return [f"pinlist: {' '.join(pins)}", f"subblock: {block.name} {' '.join(used)}"]


def placement_text(design, placement, prefix):
    name = "".join(os.path.basename(prefix).split()).replace("#", "_") or "design"
    lines = [
        f"Netlist file: {name}.net   Architecture file: {name}.arch",
        f"Array size: {placement.side} x {placement.side} logic blocks",
        "",
        "#block name\tx\ty\tsubblk\tblock number",
        "#----------\t--\t--\t------\t------------",
    ]
    for number, (block, (x, y, spot)) in enumerate(zip(design.blocks, placement.places)):
        lines.append(f"{block.name}\t{x}\t{y}\t{spot}\t#{number}")
    return "\n".join(lines) + "\n"


def texts_of(design, placement, architecture, prefix):
    """The three texts of a placement by the endings of their files."""
    texts = (architecture.text(), netlist_text(design, architecture),
             placement_text(design, placement, prefix))
    return dict(zip(ENDINGS, texts))


def write_texts(texts, prefix):
    """Writes each text as PREFIX with its ending: all of them, or none where one can't be written."""
    names = {ending: f"{prefix}.{ending}" for ending in texts}
    try:
        for ending, name in names.items():
            with open(name + ".part", "w", encoding="utf-8", errors="surrogateescape") as file:
                file.write(texts[ending])
    except OSError:
        for name in names.values():
            if os.path.exists(name + ".part"):
                os.remove(name + ".part")
        raise
    for name in names.values():
        os.replace(name + ".part", name)
    return list(names.values())
