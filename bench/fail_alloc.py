#!/usr/bin/env python3
"""Refuses the allocations of the built program one at a time, and looks at outcome and files.

For each command, and each number from 1 on, the allocation with that number is refused, once alone
and once with all after it. The run has to end by itself: as without the refusal, or with `out of
memory` and status 7, or with status 8 where the words could not be kept. Each file of the job is
whole or is not there, those before a file that is there are there too, and no other has changed.

    bench/fail_alloc.py [--router PATH] [--job WORD] [--every N] [--try]

It needs Linux on x86-64 and gdb, which stops the built program at `malloc` and `realloc`.
`--every N` takes one number of N. `--try` asks `rt try --fail-alloc 1..` too, which builds with
checks for bad access: a minute and more for each command, and it tells outcomes alone.
"""
import argparse
import os
import shlex
import shutil
import subprocess
import sys
import tempfile

from fail_files import JOBS, MODEL, THREE, TOP, Row, missing

# Counts the calls after `main` has begun, and gives a null pointer at those that are refused.
SCRIPT = """
import gdb
FROM, TO = {first}, {last}
count = 0
class Refusal(gdb.Breakpoint):
    def stop(self):
        global count
        count += 1
        return FROM <= count <= TO
gdb.execute("set pagination off")
gdb.execute("set debuginfod enabled off")
gdb.execute("break main")
gdb.execute("run {words} > {said}")
stops = [Refusal("*malloc"), Refusal("*realloc")]
gdb.execute("continue")
while gdb.selected_inferior().pid:
    sp = int(gdb.parse_and_eval("(unsigned long)$rsp"))
    back = int(gdb.parse_and_eval("*(unsigned long*)%d" % sp))
    gdb.execute("set $rax = 0")
    gdb.execute("set $rsp = %d" % (sp + 8))
    gdb.execute("set $pc = %d" % back)
    if count >= TO:
        for it in stops:
            it.enabled = False
    gdb.execute("continue")
with open("{told}", "w") as it:
    status = gdb.parse_and_eval("$_exitcode")
    it.write("%d %s" % (count, status))
"""
ALL = 10**9


def refuse(router, fresh, words, first, last):
    """The run, how many allocations it made up to the last refusal, its status and what it said."""
    row = Row(router, fresh())
    script, said, told = (f"{row.folder}.{e}" for e in ("py", "said", "told"))
    with open(script, "w") as it:
        quoted = " ".join(shlex.quote(w) for w in words)
        it.write(SCRIPT.format(first=first, last=last, said=said, told=told, words=quoted))
    row.run([], before=["gdb", "-batch", "-nx", "-x", script])
    with open(told) as it:
        count, status = it.read().split()
    with open(said, "rb") as it:
        line = it.read()
    for it in (script, said, told):
        os.unlink(it)
    # A program that was stopped by a signal has no exit code.
    return row, int(count), int(status) if status.isdigit() else None, line


def faults_of(row, order, whole, good, status, said):
    now = row.held()
    lead = good[1][: good[1].rfind(b"\n", 0, -1) + 1]
    faults = []
    if (status, said) == good:
        if now != whole:
            faults.append("the files are not those of a run without refusals")
        return faults
    if status == 7:
        if said not in (b"out of memory\n", lead + b"out of memory\n"):
            faults.append(f"status 7, said {said!r}")
    elif not (status == 8 and said == b""):
        faults.append(f"status {status}, said {said!r}")
    there = [n in now for n in order]
    if there != sorted(there, reverse=True):
        faults.append("a file is there behind one that is not")
    faults += [f"{n} is not whole" for n in order if n in now and now[n] != whole[n]]
    faults += [f"{n} is not of the job" for n in row.changed() if n not in order]
    return faults


def run_job(router, fresh, job, words, order, every):
    ample = Row(router, fresh())
    good = ample.run(words)
    whole = ample.held()
    _, total, *came = refuse(router, fresh, words, ALL, ALL)
    if tuple(came) != good:
        print(f"WRONG: {job}: without a refusal {came}")
        return 1
    wrong = 0
    for how, last in [("alone", None), ("and all after it", ALL)]:
        counted = {}
        for number in range(1, total + 1, every):
            row, _, status, said = refuse(router, fresh, words, number, last or number)
            for fault in faults_of(row, order, whole, good, status, said):
                print(f"WRONG: {job}: allocation {number}, {how}: {fault}", flush=True)
                wrong += 1
            files = sum(n in row.held() for n in order)
            line = said.decode("ascii", "replace").strip().replace("\n", "; ") or "nothing"
            it = f"{status} `{line}` with {files} of {len(order)} files"
            counted[it] = counted.get(it, 0) + 1
            shutil.rmtree(row.folder)
        came = ", ".join(f"{n} x {it}" for it, n in counted.items())
        print(f"| {job} | {total}, {how} | {came} |", flush=True)
    return wrong


def ask_try(job, words):
    """What `rt try` says where each allocation fails once."""
    crate = os.path.join(TOP, "crates/router")
    files = [n for n in THREE if n in words]
    given = [w for n in files for w in ("--data", f"{n}={os.path.join(TOP, 'examples', n)}")]
    ran = subprocess.run(
        ["rt", "try", "--fail-alloc", "1..", *given, "--", *words],
        cwd=crate,
        stdout=subprocess.PIPE,
        stderr=subprocess.STDOUT,
        check=False,
    )
    print(f"rt try: {job}: {ran.stdout.decode().strip().splitlines()[-1]}", flush=True)
    return ran.returncode in (4, 5, 6)


def main():
    words = argparse.ArgumentParser(description=__doc__.splitlines()[0])
    words.add_argument("--router", default=os.path.join(TOP, "crates/router/out/router"))
    words.add_argument("--job", help="only jobs with this in their name")
    words.add_argument("--every", type=int, default=1)
    words.add_argument("--try", action="store_true", dest="tries")
    asked = words.parse_args()
    if missing("gdb"):
        sys.exit("there is no gdb")
    if not os.access(asked.router, os.X_OK):
        sys.exit(f"{asked.router} is not built")
    wrong = 0
    with tempfile.TemporaryDirectory(prefix="fail-alloc-") as top:
        router = os.path.join(top, "router")
        shutil.copy(asked.router, router)
        count = 0
        proof = {}

        def fresh():
            nonlocal count
            count += 1
            folder = os.path.join(top, str(count))
            os.makedirs(folder)
            for name in THREE:
                shutil.copy(os.path.join(TOP, "examples", name), folder)
            for ending, text in proof.items():
                with open(os.path.join(folder, f"three.{ending}"), "wb") as it:
                    it.write(text)
            return folder

        first = Row(router, fresh())
        first.run(["route", *THREE, "2", "proof"])
        proof = {e: first.held()[f"proof.{e}"] for e in ("cnf", "lrat")}
        proof["model"] = MODEL
        print("| command | allocations | what comes |\n|---|---|---|")
        for job, job_words, order in JOBS:
            if asked.job is None or asked.job in job:
                wrong += run_job(router, fresh, job, job_words, order, asked.every)
                if asked.tries:
                    wrong += ask_try(job, job_words)
    print(f"{wrong} wrong")
    sys.exit(1 if wrong else 0)


if __name__ == "__main__":
    main()
