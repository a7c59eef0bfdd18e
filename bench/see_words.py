#!/usr/bin/env python3
"""Shows the words on standard error for each kind of report, by the built program on files.

    see_words.py PROGRAM [--quiet] [--runs N]

Runs the cases of crates/rows/data/cases on files of a folder of its own, those left out in which calls fail, a clock
ends searches or two files have one name, and prints each kind of report that came (its numbers but the code left out) with the words that
went with it, once. Says last how many runs came out as their case asks: status, standard output, and the bytes of the
files, where no file that was read has changed; and the words on a width without a routing, on an open one, and behind
the code of a fault or the cause of a file that is not legal, as seen_words.py reckons them from the files. That is a test of what no contract speaks of: `main` and the files of the
system. With --quiet only what came out otherwise is printed, and the last line. With --runs another number of runs
than this counts as one that came out otherwise, so that a row which is not run is seen.
"""
import argparse
import collections
import os
import re
import subprocess
import sys
import tempfile

from seen_words import behind_code, shown_of, words_of

DATA = os.path.join(os.path.dirname(os.path.dirname(os.path.abspath(__file__))), "crates", "rows", "data", "cases")
FILES = (
    "worked", "pinned", "symmetry", "count", "reach", "within", "failing_calls", "route_texts",
    "limits", "proof_texts", "resolution_logs", "routed_texts", "judged_texts", "members", "core",
    "bound", "global", "least", "decode", "limited",
)  # in the order of the program of rows: a file cites parts of those before it
ESCAPES = {"n": b"\n", "t": b"\t", "r": b"\r", "0": b"\0", "\\": b"\\"}


def plain(text):
    """The bytes of a text in which a backslash stands before a letter for a byte."""
    out, i = b"", 0
    while i < len(text):
        if text[i] == "\\" and i + 1 < len(text) and text[i + 1] in ESCAPES:
            out += ESCAPES[text[i + 1]]
            i += 2
        else:
            out += text[i].encode()
            i += 1
    return out


def repeated(first, end, text):
    """The text for each number from the first up to the end, which it has where it says so."""
    numbers = range(int(first), int(end))
    if "\\k" not in text:
        return plain(text) * len(numbers)
    parts = [plain(part) for part in text.split("\\k")]
    return b"".join(str(k).encode().join(parts) for k in numbers)


class Texts:
    """The parts that cases cite, and the files that the run before has written."""

    def __init__(self):
        self.parts, self.written = {}, {}

    def bytes_of(self, lines):
        out = b""
        for line in lines:
            kind, rest = line[0], line[1:]
            if kind == "|":
                out += plain(rest) + b"\n"
            elif kind == "+":
                out += plain(rest)
            elif kind == "*":
                out += repeated(*rest.split(" ", 2))
            elif kind == "&":
                out += self.parts[rest]
            elif kind == "^":
                out += self.written[rest]
        return out


def runs_of(lines):
    """The runs of a case: each a list of its lines."""
    runs = [[]]
    for line in lines:
        if line == "then":
            runs.append([])
        else:
            runs[-1].append(line)
    return runs


def places(text, part):
    """At how many places of a text this part of it begins."""
    count, at = 0, text.find(part)
    while at >= 0:
        count, at = count + 1, text.find(part, at + 1)
    return count


class Wanted:
    """A file that a run must leave: its whole text, its front, a part of it, a part so many times, or none."""

    def __init__(self, how, rest):
        self.how, self.lines, self.count = how, [], 0
        self.name = rest
        if how == "counts":
            self.name, count = rest.rsplit(" ", 1)
            self.count = int(count)

    def is_met(self, before, left, texts):
        text = left.get(self.name)
        if self.how == "lacks":
            return text == before.get(self.name)
        if text is None:
            return False
        part = texts.bytes_of(self.lines)
        if self.how == "writes":
            return text == part
        if self.how == "begins":
            return text.startswith(part)
        if self.how == "holds":
            return part in text
        return places(text, part) == self.count


class Asked:
    """A run as a case asks for it, by its lines."""

    def __init__(self, lines):
        self.words, self.lead, self.report, self.status = [], "", None, None
        self.files, self.wanted, self.fails, self.doubles = {}, [], False, False
        at = None
        for line in lines:
            if line[0] in "|+*&^":
                at.append(line)
                continue
            word, _, rest = line.partition(" ")
            if word == "words":
                self.words = rest.split(" ")
            elif word == "file":
                self.doubles = self.doubles or rest in self.files
                at = self.files[rest] = []
            elif word == "design":
                for ending in ("arch", "net", "place"):
                    self.files[ending] = [f"&{rest}.{ending}"]
            elif word in ("writes", "begins", "holds", "counts", "lacks"):
                self.wanted.append(Wanted(word, rest))
                at = self.wanted[-1].lines
            elif word == "says":
                self.lead += rest + "\n"
            elif word == "comes":
                self.report = rest
            elif word == "status":
                self.status = int(rest)
            elif word in ("desk", "shelf", "ends"):
                self.fails = True

    def others(self, ended, before, left, texts):
        """What came out otherwise than it is asked for."""
        said = ended.stdout.decode(errors="replace")
        if ended.returncode != self.status:
            yield f"status {ended.returncode}, not {self.status}"
        if said != f"{self.lead}{self.report}\n":
            yield f"said {said!r}, not {self.lead + self.report!r}"
        report = said.rstrip("\n").split("\n")[-1]
        wanted = words_of(self.words, report, before)
        if wanted is not None and words_in(ended) != wanted:
            yield f"words {words_in(ended)!r}, not {wanted!r}"
        shown = shown_of(self.words, report, before)
        if shown is not None and behind_code(words_in(ended)) != shown:
            yield f"words {words_in(ended)!r}, behind the code not {shown!r}"
        names = {wanted.name for wanted in self.wanted}
        for name, text in before.items():
            if name not in names and left.get(name) != text:
                yield f"{name} has changed, which was read"
        for wanted in self.wanted:
            if not wanted.is_met(before, left, texts):
                yield f"{wanted.name} is not as in: {wanted.how}"


def words_in(ended):
    """What a run has said on standard error."""
    return ended.stderr.decode(errors="replace").rstrip("\n")


def files_in(folder):
    found = {}
    for name in os.listdir(folder):
        with open(os.path.join(folder, name), "rb") as it:
            found[name] = it.read()
    return found


def kind_of(report):
    """A report without its numbers but codes."""
    kind = re.sub(r"\b(line|count|step|clause) \d+", r"\1 _", report)
    kind = re.sub(r"^(routed|unroutable|undecided|bound|no way) \d+( after \d+)?", r"\1 _\2", kind)
    return re.sub(r"after \d+", "after _", kind)


def run_case(program, texts, case, lines, seen, tally):
    texts.written = {}
    for lines_of_run in runs_of(lines):
        asked = Asked(lines_of_run)
        if asked.fails or asked.doubles:
            return
        before = {name: texts.bytes_of(text) for name, text in asked.files.items()}
        with tempfile.TemporaryDirectory() as folder:
            for name, text in before.items():
                with open(os.path.join(folder, name), "wb") as out:
                    out.write(text)
            ended = subprocess.run([program, *asked.words], cwd=folder, capture_output=True)
            left = files_in(folder)
        kind = kind_of(ended.stdout.decode(errors="replace").rstrip("\n").split("\n")[-1])
        seen.setdefault((asked.words[0] if asked.words else "", kind), words_in(ended))
        others = list(asked.others(ended, before, left, texts))
        tally["other" if others else "as asked"] += 1
        for other in others:
            print(f"OTHER: {case}: {' '.join(asked.words)}: {other}")
        texts.written = left


def main():
    parser = argparse.ArgumentParser(description=__doc__.splitlines()[0])
    parser.add_argument("program", metavar="PROGRAM")
    parser.add_argument("--quiet", action="store_true", help="says only what came out otherwise")
    parser.add_argument("--runs", metavar="N", type=int, help="how many runs there must be")
    given = parser.parse_args()
    program = os.path.abspath(given.program)
    texts, seen, tally = Texts(), {}, collections.Counter()
    for name in FILES:
        common, section, held = [], None, []

        def close():
            if section is None:
                return
            if section[0] == "part":
                texts.parts[section[1]] = texts.bytes_of(held)
            elif section[0] == "case" and not any(line.startswith(("each", "meets")) for line in held):
                run_case(program, texts, section[1], common + held, seen, tally)

        with open(os.path.join(DATA, f"{name}.rows"), encoding="utf-8") as rows:
            for line in rows.read().split("\n"):
                if not line or line.startswith("#"):
                    continue
                word, _, rest = line.partition(" ")
                if word in ("part", "common", "case"):
                    close()
                    if section is not None and section[0] == "common":
                        common = held
                    section, held = (word, rest), []
                else:
                    held.append(line)
            close()
    shown = [] if given.quiet else sorted(seen.items(), key=lambda it: (it[0][1], it[0][0]))
    for (command, kind), words in shown:
        print(f"{command or '(no words)'}: {kind}")
        for line in words.split("\n"):
            print(f"    {line}")
    print(f"{tally['as asked']} runs as their cases ask, {tally['other']} others")
    if given.runs not in (None, sum(tally.values())):
        print(f"{given.runs} runs are wanted")
        sys.exit(1)
    sys.exit(1 if tally["other"] or not tally else 0)


if __name__ == "__main__":
    main()
