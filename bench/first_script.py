#!/usr/bin/env python3
"""Times the built program on large scripts: first_script.py PROGRAM. No part of the gate.

Runs a million inserts in one transaction, alone and with a select of all, the same of two sessions in turn, a million
comments, inserts with a hundred selects of one row each, without an index and with one that is summarised, the summarise of
that index, of ranges of 128 pages and of one, 64 sessions that insert rows in turn and then, behind a summarise, select a row
each in turn, and a hundred explains over 131,072 summarised ranges of one page; each three times. Tells the best time, lines
a second and the peak of memory. The answers go to a file, and each run makes its store in another.
"""
import os
import subprocess
import sys
import tempfile

LINES = 1_000_000
WORDS = ["run", "table t(a int8)"]
INDEX = ["index i on t(a minmax)"]
SMALL_RANGES = ["index i on t(a minmax) pages_per_range 1"]
ONE_A_PAGE = ["run", "--heap-blocks=131072", "table t(a int8) rows_per_page 1"]
RANGES = 131_072


def inserts(sessions):
    """The lines that put LINES rows, of the sessions in turn."""
    yield from (f"s{n + 1} begin\n" for n in range(sessions))
    yield from (f"s{1 + n % sessions} insert t {n}\n" for n in range(LINES))
    yield from (f"s{n + 1} commit\n" for n in range(sessions))


def select():
    yield "r begin\n"
    yield "r select t\n"


def summarise():
    yield "m summarize i\n"


def lookups():
    """The lines that select a hundred rows, one each."""
    yield "r begin\n"
    yield from (f"r select t where a = {n * (LINES // 100)}\n" for n in range(100))


def comments():
    yield from ("# a comment\n" for _ in range(LINES))


def interleaved():
    """64 sessions in turn: each puts a row, and selects it once all rows are summarised."""
    yield from (f"s{n} begin\n" for n in range(64))
    yield from (f"s{n % 64} insert t {n}\n" for n in range(LINES // 10))
    yield from summarise()
    yield from (f"s{n % 64} select t where a = {n}\n" for n in range(LINES // 10))
    yield from (f"s{n} commit\n" for n in range(64))


def explains():
    """The lines that fill a range of one page each and summarise them, and then explain a query of one row a hundred times."""
    yield "s begin\n"
    yield from (f"s insert t {n}\n" for n in range(RANGES))
    yield "s commit\n"
    yield from summarise()
    yield from (f"s explain t where a = {n * (RANGES // 100)}\n" for n in range(100))


def run(program, words, script, out):
    """The seconds and the peak of memory, in kilobytes, of a run; GNU time keeps this process out of the peak."""
    store = f"{out}.brin"
    if os.path.exists(store):
        os.remove(store)
    with open(script, "rb") as source, open(out, "wb") as sink:
        command = ["/usr/bin/time", "-f", "%e %M", program, store] + words
        child = subprocess.run(command, stdin=source, stdout=sink, stderr=subprocess.PIPE, text=True)
    if child.returncode != 0:
        sys.exit(child.stderr)
    seconds, peak = child.stderr.split()
    return float(seconds), int(peak)


def main():
    program = os.path.abspath(sys.argv[1])
    scripts = {
        "inserts": (WORDS, lambda: [inserts(1)]),
        "inserts with an index": (WORDS + INDEX, lambda: [inserts(1)]),
        "inserts, then a select of all": (WORDS, lambda: [inserts(1), select()]),
        "inserts of two sessions in turn, then a select of all": (WORDS, lambda: [inserts(2), select()]),
        "inserts, then 100 selects of one row": (WORDS, lambda: [inserts(1), lookups()]),
        "inserts and a summarize": (WORDS + INDEX, lambda: [inserts(1), summarise()]),
        "the same with ranges of one page": (WORDS + SMALL_RANGES, lambda: [inserts(1), summarise()]),
        "inserts and a summarize, then 100 selects of one row": (WORDS + INDEX, lambda: [inserts(1), summarise(), lookups()]),
        "64 sessions in turn, inserts, a summarize, and selects of one row": (WORDS + SMALL_RANGES, lambda: [interleaved()]),
        "100 explains over 131,072 ranges": (ONE_A_PAGE + SMALL_RANGES, lambda: [explains()]),
        "comments": (WORDS, lambda: [comments()]),
    }
    with tempfile.TemporaryDirectory() as folder:
        script, out = os.path.join(folder, "script"), os.path.join(folder, "out")
        for name, (words, parts) in scripts.items():
            with open(script, "w") as file:
                lines = 0
                for part in parts():
                    for line in part:
                        file.write(line)
                        lines += 1
            seconds, peak = min(run(program, words, script, out) for _ in range(3))
            rate = f"{lines / seconds:,.0f} lines/s" if seconds else "no time to measure"
            print(f"{name}: {seconds:.2f} s, {rate}, peak {peak / 1000:.0f} MB ({peak * 1024 / lines:.0f} bytes a line)")


if __name__ == "__main__":
    main()
