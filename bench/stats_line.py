#!/usr/bin/env python3
"""Compares the numbers of a run with the files that it wrote.

    stats_line.py PREFIX [--cut] < LINE

LINE is the line of JSON that `--stats` says. Counts anew what stands in PREFIX.cnf, PREFIX.lrat and PREFIX.route, as
far as they are there, and says each number that is another one; with --cut the log was cut down behind the search, so
that it has no more than the search's. Ends with status 1 where it says something, or the line is no such object.
"""
import json
import os
import sys
from asked import answer_help

answer_help(__name__, __doc__)

NAMES = ["formula", "kibibytes", "log", "milliseconds", "problem", "restarts", "rounds", "route", "width"]


def formula_numbers(path):
    """The numbers of the head line of a CNF file."""
    with open(path) as file:
        _, _, variables, clauses = next(line for line in file if line.startswith("p ")).split()
    return {"clauses": int(clauses), "variables": int(variables)}


def log_numbers(path):
    """How many clauses a log adds and deletes, and how many hints it has."""
    numbers = {"deleted": 0, "hints": 0, "learned": 0}
    with open(path) as file:
        for line in file:
            words = line.split()
            if words[1] == "d":
                numbers["deleted"] += len(words) - 3
            else:
                numbers["learned"] += 1
                numbers["hints"] += len(words) - words.index("0", 1) - 2
    return numbers


def route_numbers(path):
    """How many wires the nets of a route take, and on how many tracks; what stands behind a sink stood before."""
    wires, tracks, behind = 0, set(), ""
    with open(path) as file:
        for line in file:
            words = line.split()
            if words and words[0] in ("CHANX", "CHANY"):
                wires += behind != "SINK"
                tracks.add(words[-1])
            behind = words[0] if words else behind
    return {"tracks_used": len(tracks), "wire_length": wires}


def main():
    words = [word for word in sys.argv[1:] if word != "--cut"]
    said = json.loads(sys.stdin.read())
    wrong = [] if list(said) == NAMES else [f"members: {list(said)}"]
    counts = [("formula", ".cnf", formula_numbers), ("log", ".lrat", log_numbers), ("route", ".route", route_numbers)]
    for name, ending, count in counts:
        path = words[0] + ending
        if not os.path.exists(path):
            continue
        found = count(path)
        if name == "log" and "--cut" in sys.argv:
            found = {**said[name], "learned": max(found["learned"], said[name]["learned"])}
        if said[name] != found:
            wrong.append(f"{name}: {said[name]} is said, {found} stands there")
    for line in wrong:
        print(line)
    return 1 if wrong else 0


if __name__ == "__main__":
    sys.exit(main())
