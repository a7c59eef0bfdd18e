"""Has the program look for a global route of a placement, with its tracks in view.

`gafkelam least` goes up from as many tracks as a cut of the placement asks for, and `gafkelam global` takes one
number of tracks. What they find is a route with its tracks, which they have judged.
"""
import os
import subprocess
import sys
import tempfile
from dataclasses import dataclass

from texts import write_texts

TOOLS = os.path.dirname(os.path.dirname(os.path.realpath(__file__)))
ROUTED, BEYOND, UNDECIDED = 0, 1, 2  # statuses of the program
OWN_WORDS = "gafkelam: "  # what the script says of itself, as that it compiles the program
CELLS = ("CHANX", "CHANY")


class ProgramFailure(Exception):
    """The program came to no answer: its status, and what it said."""

    def __init__(self, status, said):
        self.status = status
        super().__init__(f"the program that looks for a route ended with status {status}" + "".join(
            f"\n{line}" for line in said))


@dataclass
class Route:
    """The text of a route, its tracks, as many as no routing does without, and its wires."""

    text: str
    tracks: int
    bound: int
    wires: int


@dataclass
class Search:
    """What is looked for: a route with so many tracks, or with the fewest up to the most, in so many rounds."""

    tracks: int
    most: int
    rounds: int

    def words(self):
        command, width = ("global", self.tracks) if self.tracks else ("least", self.most)
        return [command, "out.arch", "out.net", "out.place", str(width), "out", "--rounds", str(self.rounds)]


def program():
    """The program that the environment names, or the script beside the tools."""
    named = os.environ.get("GAFKELAM")
    if not named:
        return os.path.join(os.path.dirname(TOOLS), "gafkelam")
    return os.path.abspath(named) if os.sep in named else named


def call(words, folder):
    """How the program ended, its lines, and those on standard error, of which its own are passed on at once."""
    with tempfile.TemporaryFile("w+") as out:
        with subprocess.Popen([program(), *words], cwd=folder, stdout=out, stderr=subprocess.PIPE, text=True,
                              errors="surrogateescape") as child:
            said = []
            for line in child.stderr:
                if line.startswith(OWN_WORDS):
                    print(line, end="", file=sys.stderr, flush=True)
                else:
                    said.append(line.rstrip("\n"))
        out.seek(0)
        return child.returncode, out.read().splitlines(), said


def find_route(design, texts, search):
    """A route of the placement that the texts say, or a refusal where none was found."""
    with tempfile.TemporaryDirectory() as folder:
        write_texts(texts, os.path.join(folder, "out"))
        try:
            status, lines, said = call(search.words(), folder)
        except OSError as error:
            raise ProgramFailure(8, [f"{program()}: {error.strerror}"]) from error
        answer = lines[-1] if lines else ""
        if status in (BEYOND, UNDECIDED) and answer:
            refuse(design, search, lines)
        if status != ROUTED or not answer.startswith("routed "):
            raise ProgramFailure(status, said or lines)
        with open(os.path.join(folder, "out.route"), encoding="utf-8", errors="surrogateescape") as file:
            text = file.read()
    return Route(text, int(answer.split()[1]), bound_of(lines), wires_in(text))


def wires_in(text):
    """How many wires the nets of a route take, each once: a branch begins with the line of one that its net has."""
    count, taken = 0, set()
    for line in text.splitlines():
        if line.startswith("Net "):
            taken = set()
        elif line.lstrip().startswith(CELLS) and line not in taken:
            taken.add(line)
            count += 1
    return count


def bound_of(lines):
    """As many tracks as a cut asks for, whose lines `least` says: so many nets take a wire in one of its cells."""
    cut = [line.split() for line in lines if line.startswith("cut ")]
    if not cut:
        return None
    *_, cells, _, nets = cut[0]
    return -(-int(nets) // int(cells))


def refuse(design, search, lines):
    """Says why no route was found, and what may help."""
    said = lines[-1]
    nets = [line.split(" ", 1)[1] for line in lines if line.startswith("net ")]
    if said.startswith("bound "):
        design.refuse(None, f"no routing of this placement has fewer than {said.split()[1]} tracks, and {search.most} "
                            "are the most; more (--most) or another --seed is due")
    if said.startswith("no way "):
        design.refuse(None, f"with {search.tracks} tracks no wires lead to a sink of net {nets[0]}, whatever the other "
                            "nets have; another number of tracks or boxes that open more are due")
    wanted = f"{search.tracks} tracks" if search.tracks else f"up to {search.most} tracks"
    design.refuse(None, f"no route with {wanted} was found in {search.rounds} rounds; more of them (--tracks, --most, "
                        "--rounds), boxes that open more or another --seed is due")
