#!/usr/bin/env python3
"""Runs the built program on real files that fail, and prints a table of what came.

Each row is a run in a folder of its own: its status, what it says, and what stands then. A row is
wrong where one of these is otherwise than it must be, or its words on standard error are, or where
a file has changed that is not of the job. Some runs are on a system that moves one byte a call,
interrupts each second one and fails late (`slow_system.py`). Then each call of the system that a
command makes on files is refused alone, one number after the other, and all from a number on; and
interrupted, after which the run must go on.

    bench/fail_files.py [--router PATH] [--rows WORD] [--plain] [--count N]

It needs Linux, strace, gdb, and the right to mount a file system of fixed size; a row that cannot
be run here is named. With --plain only the rows that need none of these are run, as in
`.ci/program`, and only those that are wrong are printed. The superuser, whom no permission stops,
runs as another user the rows on permissions. The last line counts the rows; with --count another
number of right ones than this is a failure.
"""
import argparse
import errno
import os
import platform
import shutil
import stat
import subprocess
import sys
import tempfile

from slow_system import run_slowly

TOP = os.path.dirname(os.path.dirname(os.path.abspath(__file__)))
THREE = ["three.arch", "three.net", "three.place", "three.route"]
# Of the clauses of THREE with three tracks: each net has its own.
MODEL = b"v 1 -2 -3 -4 5 -6 -7 -8 9 0\n"
NOBODY = 65534
SECONDS = 60


class Row:
    """A run, what it must come to and what came."""

    def __init__(self, router, folder):
        self.router, self.folder = router, folder
        self.before, self.words = {}, b""

    def path(self, name):
        return os.path.join(self.folder, name)

    def held(self):
        """Each file below the folder with what it holds; of what is no file its kind. Of a file that
        may not be read how long it is and when it was written."""
        found = {}
        for top, folders, files in os.walk(self.folder):
            for name in files + folders:
                path = os.path.join(top, name)
                kind = os.lstat(path).st_mode
                short = os.path.relpath(path, self.folder)
                if stat.S_ISREG(kind):
                    try:
                        with open(path, "rb") as it:
                            found[short] = it.read()
                    except PermissionError:
                        found[short] = (os.lstat(path).st_size, os.lstat(path).st_mtime_ns)
                else:
                    found[short] = stat.S_IFMT(kind)
        return found

    def run(self, words, before=(), **how):
        """The status and the bytes said, by the program on these words, behind these words. Its words on
        standard error are kept."""
        self.before = self.held()
        how.setdefault("stdout", subprocess.PIPE)
        ran = subprocess.run(
            [*before, self.router, *words],
            cwd=self.folder,
            stdin=subprocess.DEVNULL,
            stderr=subprocess.PIPE,
            timeout=SECONDS,
            **how,
        )
        self.words = ran.stderr
        return ran.returncode, ran.stdout or b""

    def changed(self):
        """The names whose files are not as they were before the run."""
        now = self.held()
        names = set(now) | set(self.before)
        return sorted(n for n in names if now.get(n) != self.before.get(n))


def as_nobody():
    os.setgroups([])
    os.setgid(NOBODY)
    os.setuid(NOBODY)


def is_superuser():
    return os.geteuid() == 0


def give_to_nobody(*paths):
    """So that another user can run in a folder that the superuser made."""
    if is_superuser():
        for path in paths:
            os.chown(path, NOBODY, NOBODY)


def runs_as_nobody(router, folder):
    """Whether the program, which ends with 4 where it gets no words, runs as another user there."""
    try:
        ran = subprocess.run([router], cwd=folder, capture_output=True, preexec_fn=as_nobody)
    except (OSError, subprocess.SubprocessError):
        return False
    return ran.returncode == 4


def missing(*words):
    return [w for w in words if not shutil.which(w)]


class Table:
    """The rows that were run, as lines of a table."""

    def __init__(self, only, is_quiet):
        self.only, self.is_quiet = only, is_quiet
        self.right = self.wrong = self.left_out = 0

    def takes(self, name):
        return self.only is None or self.only in name

    def add(self, name, faults, status, said, left):
        line = said.decode("ascii", "replace").strip().replace("\n", "; ") or "nothing"
        self.show(f"| {name} | {status} | {line} | {left} |")
        self.count(name, faults)

    def show(self, line):
        if not self.is_quiet:
            print(line, flush=True)

    def count(self, name, faults):
        for fault in faults:
            print(f"WRONG: {name}: {fault}", flush=True)
        if faults:
            self.wrong += 1
        else:
            self.right += 1

    def leave_out(self, name, why):
        print(f"not run: {name}: {why}", flush=True)
        self.left_out += 1


def compare(row, status, said, wanted_status, wanted_said, wanted_changed, wanted_words):
    faults = []
    if status != wanted_status:
        faults.append(f"status {status}, not {wanted_status}")
    if said != wanted_said:
        faults.append(f"said {said!r}, not {wanted_said!r}")
    changed = row.changed()
    if changed != sorted(wanted_changed):
        faults.append(f"changed {changed}, not {sorted(wanted_changed)}")
    if row.words != wanted_words:
        faults.append(f"words {row.words!r}, not {wanted_words!r}")
    return faults


def unread(kind, name, why):
    """The words on a file that can't be read."""
    return f"{kind} file {name}: it can't be read: {why}\n".encode()


def unwritten(name, why):
    """The words on a file that can't be written."""
    return f"{name}: it can't be written: {why}\n".encode()


def simple_rows(table, router, fresh):
    """Names, folders and permissions: nothing changes but what is named."""

    def one(name, words, status, said, told, changed=(), prepare=None, **how):
        if not table.takes(name):
            return
        row = Row(router, fresh())
        if how and not runs_as_nobody(router, row.folder):
            table.leave_out(name, "the superuser can't be another user here")
            return
        if prepare:
            prepare(row)
        came = row.run(words, **how)
        faults = compare(row, *came, status, said, changed, told)
        table.add(name, faults, *came, ", ".join(row.changed()) or "all as before")

    def mode(name, bits):
        return lambda row: os.chmod(row.path(name), bits)

    def folder(name):
        return lambda row: os.makedirs(row.path(name))

    def read_only(name):
        def make(row):
            with open(row.path(name), "wb") as it:
                it.write(b"old\n")
            os.chmod(row.path(name), 0o444)

        return make

    def lines_behind(name, size):
        """Empty lines behind a file, up to so many bytes."""

        def make(row):
            with open(row.path(name), "ab") as it:
                it.write(b"\n" * (size - it.tell()))

        return make

    route = ["route", *THREE, "3", "out"]
    lacks = b"read fault: netlist\n"

    def with_netlist(name):
        return ["route", "three.arch", name, *THREE[2:], "3", "out"]

    no_such, folder_there = "no such file or folder", "it is a folder"
    one(
        "an input that is not there",
        with_netlist("no.net"),
        5,
        lacks,
        unread("netlist", "no.net", no_such),
    )
    one(
        "a folder in place of an input",
        with_netlist("."),
        5,
        lacks,
        unread("netlist", ".", folder_there),
    )
    one(
        "a file in place of a folder",
        with_netlist("three.net/x"),
        5,
        lacks,
        unread("netlist", "three.net/x", "a part of its path is no folder"),
    )
    one(
        "an input whose name is too long",
        with_netlist("n" * 300),
        5,
        lacks,
        unread("netlist", "n" * 300, "its name is too long"),
    )
    nobody = {"preexec_fn": as_nobody} if is_superuser() else {}
    one(
        "an input without permission",
        route,
        5,
        lacks,
        unread("netlist", "three.net", "no permission"),
        prepare=mode("three.net", 0o000),
        **nobody,
    )
    one(
        "an output folder without permission",
        route,
        6,
        b"write fault: slot 1\n",
        unwritten("out.route", "no permission"),
        prepare=mode(".", 0o555),
        **nobody,
    )
    one(
        "an output without permission",
        route,
        6,
        b"write fault: slot 1\n",
        unwritten("out.route", "no permission"),
        prepare=read_only("out.route"),
        **nobody,
    )
    one(
        "a folder in place of an output",
        route,
        6,
        b"write fault: slot 1\n",
        unwritten("out.route", folder_there),
        prepare=folder("out.route"),
    )
    one(
        "a folder in place of the second output",
        ["route", *THREE, "2", "out"],
        6,
        b"write fault: slot 3\n",
        unwritten("out.lrat", folder_there),
        ["out.cnf"],
        prepare=folder("out.lrat"),
    )
    one(
        "a folder in place of the third output",
        ["sweep", *THREE, "8", "out"],
        6,
        b"write fault: slot 2\n",
        unwritten("out.w2.cnf", folder_there),
        ["out.w1.cnf", "out.w1.lrat"],
        prepare=folder("out.w2.cnf"),
    )
    one(
        "a prefix in a folder that is not there",
        ["route", *THREE, "3", "no/out"],
        6,
        b"write fault: slot 1\n",
        unwritten("no/out.route", no_such),
    )
    if os.path.exists("/dev/full"):
        one(
            "a full device in place of an output",
            route,
            6,
            b"write fault: slot 1\n",
            unwritten("out.route", "no space is left"),
            prepare=lambda row: os.symlink("/dev/full", row.path("out.route")),
        )
    one(
        "an input in a folder that is not there",
        with_netlist("no/three.net"),
        5,
        lacks,
        unread("netlist", "no/three.net", no_such),
    )
    one(
        "an input of as many bytes as are read",
        route,
        0,
        b"routed 3\n",
        b"",
        ["out.route"],
        prepare=lines_behind("three.net", 67_108_864),
    )
    one(
        "an input of one byte too many",
        route,
        3,
        b"limit: code 912 count 67108865\n",
        b"netlist file three.net: the file has more bytes than are read: 67108865 (code 912)\n",
        prepare=lines_behind("three.net", 67_108_865),
    )
    one(
        "a prefix that is too long",
        ["gen", "1", "3", "2", "p" * 300],
        6,
        b"write fault: slot 4\n",
        unwritten("p" * 300 + ".arch", "its name is too long"),
    )
    no_text = ["route", b"thr\xff.arch", *THREE[1:], "3", "out"]
    one("an input whose name is no text", no_text, 8, b"", b"")
    one("a prefix that is no text", ["route", *THREE, "3", b"o\xff"], 8, b"", b"")
    one(
        "a model that is not there",
        ["decode", *THREE, "3", "no.model", "out"],
        5,
        b"read fault: model\n",
        unread("model", "no.model", no_such),
    )
    one(
        "an empty name",
        ["route", "", *THREE[1:], "3", "out"],
        5,
        b"read fault: architecture\n",
        unread("architecture", "", no_such),
    )


def output_rows(table, router, fresh):
    """Standard output that takes nothing: the files are whole, and the status says so."""

    def one(name, why, **how):
        if not table.takes(name):
            return
        row = Row(router, fresh())
        came = row.run(["route", *THREE, "2", "out"], **how)
        told = unwritten("standard output", why)
        faults = compare(row, *came, 6, b"", ["out.cnf", "out.lrat"], told)
        table.add(name, faults, *came, ", ".join(row.changed()))

    other = "the system gave another error"
    one("standard output closed", other, stdout=None, preexec_fn=lambda: os.close(1))
    read_end, write_end = os.pipe()
    os.close(read_end)
    one("a broken pipe", "nobody reads it any more", stdout=write_end)
    os.close(write_end)
    if os.path.exists("/dev/full"):
        with open("/dev/full", "wb") as it:
            one("a full device as standard output", "no space is left", stdout=it)


def whole_rows(table, router, fresh):
    """Names that a run can write, whatever stood there."""
    route = ["route", *THREE, "3", "out"]
    name = "a longer file in place of an output"
    if table.takes(name):
        ample, row = Row(router, fresh()), Row(router, fresh())
        good = ample.run(route)
        with open(row.path("out.route"), "wb") as it:
            it.write(b"old\n" * 20_000)
        came = row.run(route)
        faults = compare(row, *came, *good, ["out.route"], ample.words)
        if row.held() != ample.held():
            faults.append("out.route is not that of a run where no file stood")
        table.add(name, faults, *came, ", ".join(row.changed()))


def slow_rows(table, router, fresh):
    """What is moved byte by byte, and interrupted, comes whole; and what fails late is a fault."""

    def one(name, tracks, wanted=None, told=b"", changed=("out.route",), **refused):
        """Without a wanted status and report the run comes to what one on a fast system comes to."""
        if not table.takes(name):
            return
        words = ["route", *THREE, tracks, "out"]
        ample, row = Row(router, fresh()), Row(router, fresh())
        good = ample.run(words)
        row.before = row.held()
        try:
            status, said, row.words = run_slowly([router, *words], row.folder, **refused)
        except OSError as why:
            table.leave_out(name, why)
            return
        faults = compare(row, status, said, *(wanted or good), changed, told or ample.words)
        if wanted is None and row.held() != ample.held():
            faults.append("the files are not those of a run on a fast system")
        table.add(name, faults, status, said, ", ".join(row.changed()) or "all as before")

    if platform.machine() != "x86_64":
        table.leave_out("a slow system", "this is no x86-64")
        return
    other, fault = "the system gave another error", (6, b"write fault: slot 1\n")
    one("one byte a call, each second one interrupted", "3")
    one("the same with clauses and a log", "2", changed=("out.cnf", "out.lrat"))
    lacks = unread("architecture", "three.arch", other)
    one("a read that fails behind three", "3", (5, b"read fault: architecture\n"), lacks, (), reads=3)
    one("a disk that fails late", "3", fault, unwritten("out.route", other), sync=errno.EIO)
    full = unwritten("out.route", "no space is left")
    one("a disk that is full late", "3", fault, full, sync=errno.ENOSPC)
    one("a file that has no disk", "3", sync=errno.EINVAL)
    unsaid = unwritten("standard output", other)
    one("standard output that fails", "3", (6, b""), unsaid, output=errno.EIO)


def is_front(part, whole):
    return whole[: len(part)] == part


def compare_order(row, order, whole, status):
    """What is wrong with the files of a job where some call may have failed: so many are whole, the
    next is a front part, and later ones are not there. Gives the faults, and how many are whole."""
    now = row.held()
    faults = []
    kept = 0
    while kept < len(order) and now.get(order[kept]) == whole[order[kept]]:
        kept += 1
    if kept < len(order):
        part = now.get(order[kept], b"")
        if not is_front(part, whole[order[kept]]):
            faults.append(f"{order[kept]} is no front part")
        later = [n for n in order[kept + 1 :] if n in now]
        if later:
            faults.append(f"{later} stand behind {order[kept]}")
    others = [n for n in row.changed() if n not in order]
    if others:
        faults.append(f"{others} are not of the job")
    if status == 0 and kept < len(order):
        faults.append("status 0 without all files")
    return faults, kept


def disk_rows(table, router, fresh):
    """A file system of fixed size, which is full within a file."""
    jobs = [
        ("gen 1 100 10000", ["gen", "1", "100", "10000"], ["arch", "net", "place", "route"], 4, 64),
        ("trial 1 30 500 12", ["trial", "1", "30", "500", "12"], None, 2, 640),
        ("encode, three nets at width 64", ["encode", *THREE, "64"], ["cnf"], 2, 16),
    ]
    for name, words, endings, first_slot, kilobytes in jobs:
        title = f"a full disk of {kilobytes} KB: {name}"
        if not table.takes(title):
            continue
        ample = Row(router, fresh())
        ample.run([*words, "out"])
        whole = ample.held()
        row = Row(router, fresh())
        disk = row.path("disk")
        os.makedirs(disk)
        mounted = subprocess.run(
            ["mount", "-t", "tmpfs", "-o", f"size={kilobytes}k", "none", disk],
            stderr=subprocess.DEVNULL,
        )
        if mounted.returncode:
            table.leave_out(title, "no file system can be mounted here")
            continue
        try:
            status, said = row.run([*words, "disk/out"])
            if endings is None:
                made = sorted(n for n in ample.changed() if ".w" in n)
                made.sort(key=lambda n: (int(n.split(".w")[1].split(".")[0]), n))
                made += [n for n in ample.changed() if n == "out.route"]
                order = made
            else:
                order = [f"out.{e}" for e in endings]
            whole = {f"disk/{n}": whole[n] for n in order}
            order = [f"disk/{n}" for n in order]
            faults, kept = compare_order(row, order, whole, status)
            if status != 6 or not said.splitlines()[-1].startswith(b"write fault: slot "):
                faults.append(f"status {status}, said {said!r}")
            elif endings is not None and said != b"write fault: slot %d\n" % (first_slot + kept):
                faults.append(f"said {said!r} with {kept} whole files")
            part = len(row.held().get(order[kept], b"")) if kept < len(order) else 0
            left = f"{kept} whole, {part} of {len(whole[order[kept]])} bytes of the next"
            table.add(title, faults, status, said, left)
        finally:
            subprocess.run(["umount", disk], check=False)


JOBS = [
    ("route that routes", ["route", *THREE, "3", "out"], ["out.route"]),
    ("route that refutes", ["route", *THREE, "2", "out"], ["out.cnf", "out.lrat"]),
    (
        "sweep",
        ["sweep", *THREE, "8", "out"],
        ["out.w1.cnf", "out.w1.lrat", "out.w2.cnf", "out.w2.lrat", "out.route"],
    ),
    ("encode", ["encode", *THREE, "2", "out"], ["out.cnf"]),
    ("decode", ["decode", *THREE, "3", "three.model", "out"], ["out.route"]),
    ("global", ["global", *THREE[:3], "3", "out", "--from", THREE[3]], ["out.route"]),
    ("bound", ["bound", *THREE[:3]], []),
    (
        "least",
        ["least", *THREE[:3], "3", "out", "--from", THREE[3]],
        ["out.route", "out.cnf", "out.lrat"],
    ),
    ("check", ["check", "three.cnf", "three.lrat"], []),
    ("gen", ["gen", "1", "2", "1", "out"], ["out.arch", "out.net", "out.place", "out.route"]),
    ("trial", ["trial", "1", "2", "2", "4", "out"], ["out.w1.cnf", "out.w1.lrat", "out.route"]),
]
CALLS = ["openat", "read", "write", "fsync", "close"]


def call_rows(table, router, fresh):
    """Each call of the system refused alone, and all from a number on; interrupted ones go on."""
    lacking = missing("strace")
    for job, words, order in JOBS:
        ample = Row(router, fresh())
        good = ample.run(words)
        whole = ample.held()
        for call in CALLS:
            for how, when in [("EIO", "{}"), ("EIO", "{}+"), ("EINTR", "{}")]:
                title = f"{job}: {call} gives {how}, alone"
                if when != "{}":
                    title = f"{job}: {call} gives {how}, and all after it"
                if not table.takes(title):
                    continue
                if lacking:
                    table.leave_out(title, "there is no strace")
                    continue
                one_call(table, router, fresh, title, words, order, whole, good, call, how, when)


# The calls that the loader makes before the program begins.
LOADER = {"openat": 2, "read": 1, "write": 0, "fsync": 0, "close": 2}


def one_call(table, router, fresh, title, words, order, whole, good, call, how, when):
    faults, outcomes = [], []
    number = LOADER[call]
    while True:
        number += 1
        row = Row(router, fresh())
        trace = row.folder + ".trace"
        tracer = ["strace", "-qq", "-o", trace, "-e", f"trace={call}"]
        tracer += ["-e", f"inject={call}:error={how}:when={when.format(number)}"]
        status, said = row.run(words, before=tracer)
        with open(trace, "rb") as it:
            met = b"INJECTED" in it.read()
        os.unlink(trace)
        if not met:
            break
        wrong, kept = compare_order(row, order, whole, status)
        faults += [f"number {number}: {w}" for w in wrong]
        if how == "EINTR" and call != "close" and (status, said) != good:
            # An interrupted call is to be tried again.
            faults.append(f"number {number}: status {status}, said {said!r}")
        if (status, said) != good and status not in (5, 6):
            faults.append(f"number {number}: status {status}, said {said!r}")
        outcomes.append((status, said))
    if not outcomes:
        return
    counted = {}
    for it in outcomes:
        counted[it] = counted.get(it, 0) + 1
    parts = []
    for (status, said), count in counted.items():
        line = said.decode("ascii", "replace").strip().replace("\n", "; ") or "nothing"
        parts.append(f"{count} x {status} `{line}`")
    table.show(f"| {title} | {len(outcomes)} calls | {', '.join(parts)} |")
    table.count(title, faults)


def short_rows(table, router, fresh):
    """A write that the system takes a few bytes of goes on behind them."""
    title = "a write of which five bytes are taken goes on"
    if not table.takes(title):
        return
    if missing("gdb"):
        table.leave_out(title, "there is no gdb")
        return
    ample = Row(router, fresh())
    good = ample.run(["route", *THREE, "3", "out"])
    row = Row(router, fresh())
    script = row.folder + ".gdb"
    with open(script, "w") as it:
        it.write("catch syscall write\nrun\nset $rdx = 5\ncontinue\ncontinue\ndelete\ncontinue\n")
    came = row.run(
        ["route", *THREE, "3", "out"], before=["gdb", "-batch", "-x", script, "--args"]
    )
    os.unlink(script)
    whole, now = ample.held(), row.held()
    faults = [] if now == whole else ["the files are not those of a run with whole writes"]
    if b"nbytes=5)" not in came[1] or good[1] not in came[1]:
        faults.append("no write was made short")
    table.add(title, faults, good[0], good[1], ", ".join(row.changed()))


def main():
    words = argparse.ArgumentParser(description=__doc__.splitlines()[0])
    words.add_argument("--router", default=os.path.join(TOP, "crates/router/out/router"))
    words.add_argument("--rows", help="only rows with this in their name")
    words.add_argument("--plain", action="store_true", help="only rows that need no tool")
    words.add_argument("--count", type=int, help="how many rows there must be")
    asked = words.parse_args()
    router = os.path.abspath(asked.router)
    if not os.access(router, os.X_OK):
        sys.exit(f"{router} is not built")
    with tempfile.TemporaryDirectory(prefix="fail-files-") as top:
        os.chmod(top, 0o755)
        shutil.copy(router, os.path.join(top, "router"))
        router = os.path.join(top, "router")
        count = 0

        def fresh():
            nonlocal count
            count += 1
            folder = os.path.join(top, str(count))
            os.makedirs(folder)
            for name in THREE:
                shutil.copy(os.path.join(TOP, "examples", name), folder)
            for ending, text in proof.items():
                with open(os.path.join(folder, f"three.{ending}"), "wb") as it:
                    it.write(text)
            give_to_nobody(folder, *(os.path.join(folder, n) for n in os.listdir(folder)))
            return folder

        proof = {}
        first = Row(router, fresh())
        first.run(["route", *THREE, "2", "proof"])
        proof = {e: first.held()[f"proof.{e}"] for e in ("cnf", "lrat")}
        proof["model"] = MODEL
        table = Table(asked.rows, asked.plain)
        table.show("| what fails | status | said | what has changed |\n|---|---|---|---|")
        kinds = [simple_rows, whole_rows, output_rows, slow_rows]
        if not asked.plain:
            kinds += [disk_rows, short_rows, call_rows]
        for kind in kinds:
            kind(table, router, fresh)
    print(f"{table.right} rows as they must be, {table.wrong} not, {table.left_out} not run")
    if asked.count not in (None, table.right):
        print(f"{asked.count} rows are wanted")
        sys.exit(1)
    sys.exit(1 if table.wrong or not table.right else 0)


if __name__ == "__main__":
    main()
