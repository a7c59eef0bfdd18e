#!/usr/bin/env python3
"""Lists what took longest in a check of a crate, by function.

    dear.py CRATE [COUNT]

`rt check --jobs 1` in the crate's folder, where nothing was kept before (no `out/incremental`), leaves a file for each
module that it has checked, and the time from one file to the next is that of the later one's module. A function has
several modules: what its code does (Lts), the goals of its proof (Proof), what it reads, and so on.
"""
import collections
import os
import re
import sys
from asked import answer_help

answer_help(__name__, __doc__)

ROOT = os.path.dirname(os.path.dirname(os.path.abspath(__file__)))
# The modules of a function have its name and then one of these words.
PARTS = set("Answers Code Given Goals Invariants Key Kinds Layout Lts Met Mir Named Proof Reads Statement Symbol TheLink "
            "Tie View decls".split())
# So many seconds no module takes: there was another check in between.
LONGEST = 300


def checked(crate):
    """Of each module when its file was written, the first one first."""
    found = []
    for folder, _, files in os.walk(os.path.join(ROOT, "crates", crate, "out", "incremental")):
        for name in files:
            if name.endswith(".oantt"):
                module = re.sub(rf"^Rattle[-.]{crate}[-.]", "", name[: -len(".oantt")])
                found.append((os.stat(f"{folder}/{name}").st_mtime, module))
    return sorted(found)


def function_and_part(module):
    """The function of a module, or what else it is of, and which part it is."""
    words = module.split(".")
    for place, word in enumerate(words):
        if word in PARTS:
            return ".".join(words[:place]), word
    return module, ""


def main():
    if len(sys.argv) not in (2, 3):
        sys.exit(__doc__)
    crate, count = sys.argv[1], int(sys.argv[2]) if len(sys.argv) == 3 else 10
    found = checked(crate)
    if not found:
        sys.exit(f"nothing is kept of {crate}")
    times, parts = collections.Counter(), collections.defaultdict(collections.Counter)
    before = found[0][0]
    for moment, module in found:
        taken, before = moment - before, moment
        if taken < LONGEST:
            function, part = function_and_part(module)
            times[function] += taken
            parts[function][part] += taken
    print(f"{sum(times.values()):.0f} seconds of {crate}")
    for function, taken in times.most_common(count):
        most = ", ".join(f"{part} {time:.1f}" for part, time in parts[function].most_common(3) if part)
        print(f"{taken:7.1f}  {function}  ({most})")


main()
