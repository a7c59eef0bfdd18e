"""Places blocks by annealing over the half perimeters of nets.

The schedule is that of VPR (Betz and Rose): each temperature is held for a number of moves that grows
with the blocks, it falls faster where nearly all or nearly no moves are taken, and moves reach as far as
lets some 44 in a hundred be taken.

`anneal.cc` does the same, draw for draw, and is some thirty times as fast; it is what runs where a
compiler is there, and both come to the same places.
"""
import hashlib
import math
import os
import shutil
import subprocess
from dataclasses import dataclass

LARGEST_SIDE = 100  # of the arrays that Gafkelam reads
SHARE_WANTED = 0.44  # of moves that are taken
HERE = os.path.dirname(os.path.abspath(__file__))
SOURCE = os.path.join(HERE, "anneal.cc")
COMPILERS = ("g++", "clang++", "c++")


class Chance:
    """Draws from 0 to 1 by Knuth's linear generator of 64 bits, which C++ has as easily as Python."""

    def __init__(self, seed):
        self.state = seed
        for _ in range(8):
            self.draw()

    def draw(self):
        self.state = self.state * 6364136223846793005 + 1442695040888963407 & 0xFFFFFFFFFFFFFFFF
        return (self.state >> 11) / 9007199254740992

    def below(self, count):
        return int(self.draw() * count)

    def shuffle(self, things):
        for last in range(len(things) - 1, 0, -1):
            other = self.below(last + 1)
            things[last], things[other] = things[other], things[last]


@dataclass
class Placement:
    """An array of side by side logic blocks, and for each block its place: x, y and number."""

    side: int
    places: list
    cost_at_first: int
    cost: int


def side_for(design, pads):
    """The side of the least square array that has room for the blocks, with so many pads a place."""
    border = [block for block in design.blocks if block.is_pad()]
    most = 4 * LARGEST_SIDE * pads
    if len(border) > most:
        design.refuse(border[most].line, f"pad {most + 1:,}; at most {most:,} are due, or more at a place (--pads)")
    logic = len(design.blocks) - len(border)
    return max(1, math.isqrt(max(0, logic - 1)) + 1, -(-len(border) // (4 * pads)))


def border_places(side):
    """The places of pads, in order round the array."""
    last = side + 1
    steps = range(1, last)
    return ([(x, 0) for x in steps] + [(last, y) for y in steps]
            + [(x, last) for x in reversed(steps)] + [(0, y) for y in reversed(steps)])


@dataclass
class Problem:
    """What is to be placed: which blocks are pads, and the blocks of each net, each once."""

    side: int
    pads: int
    seed: int
    effort: int
    is_pad: list
    nets: list

    def text(self):
        """As `anneal.cc` reads it."""
        lines = [f"{self.side} {self.pads} {self.seed} {self.effort} {len(self.is_pad)} {len(self.nets)}",
                 " ".join(str(int(is_pad)) for is_pad in self.is_pad)]
        lines += [" ".join(map(str, (len(blocks), *blocks))) for blocks in self.nets]
        return "\n".join(lines) + "\n"


class Board:
    """Spots, the blocks on them, and the bounds of each net: its columns and rows, least and greatest."""

    def __init__(self, problem, chance):
        side, pads = problem.side, problem.pads
        self.side = side
        self.pads = pads
        self.border = border_places(side)
        self.spots = [(x, y, 0) for x in range(1, side + 1) for y in range(1, side + 1)]
        self.first_pad = len(self.spots)
        self.spots += [(x, y, number) for x, y in self.border for number in range(pads)]
        self.spot_of = self.any_spots(problem.is_pad, chance)
        self.block_at = [-1] * len(self.spots)
        for block, spot in enumerate(self.spot_of):
            self.block_at[spot] = block
        self.xs = [self.spots[spot][0] for spot in self.spot_of]
        self.ys = [self.spots[spot][1] for spot in self.spot_of]
        self.nets = problem.nets
        self.nets_of = [[] for _ in problem.is_pad]
        for number, blocks in enumerate(self.nets):
            for block in blocks:
                self.nets_of[block].append(number)
        self.bounds = [self.bounds_among(blocks) for blocks in self.nets]

    def any_spots(self, is_pad, chance):
        logic = list(range(self.first_pad))
        pads = list(range(self.first_pad, len(self.spots)))
        chance.shuffle(logic)
        chance.shuffle(pads)
        return [(pads if pad else logic).pop() for pad in is_pad]

    def bounds_among(self, blocks):
        xs = [self.xs[block] for block in blocks]
        ys = [self.ys[block] for block in blocks]
        return min(xs), max(xs), min(ys), max(ys)

    def cost(self):
        return sum(right - left + top - bottom for left, right, bottom, top in self.bounds)

    def stand(self, block, spot):
        """Lets a block stand at a spot, as far as bounds are concerned."""
        self.xs[block], self.ys[block], _ = self.spots[spot]

    def take(self, block, spot, target):
        """Gives a block the target spot, and its own spot to what is there, if anything."""
        other = self.block_at[target]
        self.block_at[target], self.block_at[spot] = block, other
        self.spot_of[block] = target
        if other >= 0:
            self.spot_of[other] = spot

    def bounds_after(self, block, start, end, still):
        """The bounds of the block's nets after it went from one spot to another, of those that change.

        Nets that are still have a block on each of the two spots. All blocks of a net are looked at only
        where this one stood on a bound and went inward, so that large nets cost little.
        """
        x0, y0, _ = self.spots[start]
        x1, y1, _ = self.spots[end]
        found = []
        for net in self.nets_of[block]:
            if net in still:
                continue
            left, right, bottom, top = self.bounds[net]
            if x1 > x0 == left or x1 < x0 == right or y1 > y0 == bottom or y1 < y0 == top:
                found.append((net, self.bounds_among(self.nets[net])))
            elif x1 < left or x1 > right or y1 < bottom or y1 > top:
                found.append((net, (min(left, x1), max(right, x1), min(bottom, y1), max(top, y1))))
        return found

    def growth(self, found):
        """How much the half perimeters grow with these bounds."""
        growth = 0
        for net, (left, right, bottom, top) in found:
            old_left, old_right, old_bottom, old_top = self.bounds[net]
            growth += right - left + top - bottom - old_right + old_left - old_top + old_bottom
        return growth


class Annealer:
    """Moves on a board, taken by their cost and a temperature."""

    def __init__(self, board, chance):
        self.board = board
        self.chance = chance
        self.cost = board.cost()
        self.movable = [block for block, nets in enumerate(board.nets_of) if nets]
        self.reach = board.side

    def spot_near(self, block):
        """A spot for the block within reach: so many columns and rows away, or steps round the border."""
        board, reach, below = self.board, self.reach, self.chance.below
        x, y = board.xs[block], board.ys[block]
        if board.spot_of[block] < board.first_pad:
            left, bottom = max(1, x - reach), max(1, y - reach)
            x = left + below(min(x + reach, board.side) - left + 1)
            y = bottom + below(min(y + reach, board.side) - bottom + 1)
            return (x - 1) * board.side + y - 1
        steps = below(2 * reach + 1) - reach
        place = ((board.spot_of[block] - board.first_pad) // board.pads + steps) % len(board.border)
        return board.first_pad + place * board.pads + below(board.pads)

    def move(self, temperature):
        """Tries a move, and says whether it was taken."""
        board = self.board
        block = self.movable[self.chance.below(len(self.movable))]
        target = self.spot_near(block)
        spot = board.spot_of[block]
        if target == spot:
            return False
        other = board.block_at[target]
        still = ()
        board.stand(block, target)
        if other >= 0:
            still = set(board.nets_of[block]).intersection(board.nets_of[other])
            board.stand(other, spot)
        found = board.bounds_after(block, spot, target, still)
        if other >= 0:
            found += board.bounds_after(other, target, spot, still)
        growth = board.growth(found)
        if growth > 0 and self.chance.draw() >= math.exp(-growth / temperature):
            board.stand(block, spot)
            if other >= 0:
                board.stand(other, target)
            return False
        board.take(block, spot, target)
        for net, bounds in found:
            board.bounds[net] = bounds
        self.cost += growth
        return True

    def hold(self, temperature, moves):
        """Tries so many moves, and says the share that was taken."""
        taken = sum(self.move(temperature) for _ in range(moves))
        return taken / moves

    def first_temperature(self):
        """Twenty times how far the cost spreads over as many moves as there are blocks, all taken."""
        costs = []
        for _ in self.movable:
            self.move(math.inf)
            costs.append(self.cost)
        mean = sum(costs) / len(costs)
        spread = 0.0
        for cost in costs:
            spread += (cost - mean) * (cost - mean)
        return 20 * math.sqrt(spread / len(costs))

    def anneal(self, effort):
        """Cools down until moves change next to nothing, and at last takes no move that costs."""
        moves = max(1, int(effort * len(self.movable) ** (4 / 3)))
        temperature = self.first_temperature()
        while temperature > 0.005 * self.cost / len(self.board.nets):
            share = self.hold(temperature, moves)
            temperature *= cooling(share)
            wanted = self.reach * (1 - SHARE_WANTED + share)
            self.reach = max(1, min(self.board.side, int(wanted + 0.5)))
        self.hold(1e-9, moves)


def cooling(share):
    """By what the temperature falls, from the share of moves that were taken at it."""
    if share > 0.96:
        return 0.5
    if share > 0.8:
        return 0.9
    return 0.95 if share > 0.15 else 0.8


def annealed(problem):
    """The places of the blocks, and the cost at first and at last."""
    chance = Chance(problem.seed)
    board = Board(problem, chance)
    first = board.cost()
    if first > 0:
        Annealer(board, chance).anneal(problem.effort)
    return [board.spots[spot] for spot in board.spot_of], first, board.cost()


def annealed_by(program, problem):
    """The same by the program that was built of `anneal.cc`, or None where it doesn't run."""
    try:
        done = subprocess.run([program], input=problem.text(), capture_output=True, text=True, check=True)
    except (OSError, subprocess.CalledProcessError):
        return None
    numbers = list(map(int, done.stdout.split()))
    places = list(zip(numbers[2::3], numbers[3::3], numbers[4::3]))
    return places, numbers[0], numbers[1]


def build():
    """The program of `anneal.cc`, or None where no compiler makes one: then Python does the same in more time.

    It is kept beside its source, or among the caller's own files, by a sum of the source, where that folder may not
    be written in.
    """
    cache = os.environ.get("XDG_CACHE_HOME") or os.path.expanduser("~/.cache")
    with open(SOURCE, "rb") as source:
        name = "anneal-" + hashlib.sha256(source.read()).hexdigest()[:16]
    for program in (os.path.join(HERE, "out", "anneal"), os.path.join(cache, "gafkelam", name)):
        if os.path.exists(program) and os.path.getmtime(program) >= os.path.getmtime(SOURCE):
            return program
        try:
            os.makedirs(os.path.dirname(program), exist_ok=True)
        except OSError:
            continue
        if os.access(os.path.dirname(program), os.W_OK):
            return program if compile_to(program) else None
    return None


def compile_to(program):
    """Whether a compiler makes the program."""
    made = f"{program}.{os.getpid()}"
    for compiler in filter(shutil.which, COMPILERS):
        words = [compiler, "-std=c++17", "-O2", "-ffp-contract=off", "-o", made, SOURCE]
        if subprocess.run(words, capture_output=True).returncode == 0:
            os.replace(made, program)
            return True
    return False


def place(design, side, pads, seed, effort):
    """Places for the blocks of a design. The same words give the same places."""
    nets = [tuple(dict.fromkeys(net.blocks())) for net in design.ordinary_nets()]
    is_pad = [block.is_pad() for block in design.blocks]
    problem = Problem(side, pads, seed, effort, is_pad, nets)
    program = build()
    found = annealed_by(program, problem) if program else None
    return Placement(side, *(found or annealed(problem)))
