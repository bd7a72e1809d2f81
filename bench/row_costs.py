#!/usr/bin/env python3
"""Tells what rows of one int8 cost: row_costs.py [--rows N] [--rounds N] [PROGRAM or CHECKOUT..]. No part of the gate.

A file is a built program. Of a checkout (this one, if nothing is named) the program is built from a copy of its crates by LLVM at -O2,
without proof, so with the checks of `rt try` in it; a proved one is somewhat faster. So checkouts are compared with checkouts. Prints a
table with a column for each:

- an insert, in one transaction: without an index; with one that has no summary; with one summary that has its value, and with one that it
  widens; and of 64 sessions in turn; beside it what an insert takes beyond the same line that is refused, so without its reading and its answer;
- bytes a row, with its entry in the journal, and bytes a select of an empty table: the peaks of memory of N of them, beyond that of none;
- a summarise of all rows, with ranges of 128 pages and of one, for each page;
- a select of one row among all by an index that is summarised, with ranges of 128 pages and of one, and an explain of it with ranges of one;
- a row that a select without an index goes through, where none matches;
- an insert by steps: 64 sessions start one each, and make its steps in turn, four lines a row.

Times are of the processor in the program's own code (user time), so that a busy machine tells nearly the same as an idle one; each run is made
--rounds times (5, if not said), and the shortest counts. The answers go to a file, and the store of each run to another; so a program from
before stores stood in files can't be measured. A program that has a summary of each range at once refuses
the line of the summarise, and one that has no steps refuses theirs: what it can't do is told as "-". Needs `rt` for checkouts, and GNU time.
"""
import argparse
import os
import pathlib
import subprocess
import sys
import tempfile

from unproved import HERE, built

TABLE = "table t(a int8)"
WIDE = "index i on t(a minmax)"
NARROW = "index i on t(a minmax) pages_per_range 1"
WHOLE = "index i on t(a minmax) pages_per_range 131072"
SLOTS = 272

# How many selects a run makes: of one row by ranges of 128 pages and of one page, and of no row without an index.
SELECTS, NARROW_SELECTS, SCANS = 1_000, 2_000, 20


def inserts(rows):
    yield "s begin\n"
    yield from (f"s insert t {n}\n" for n in range(rows))
    yield "s commit\n"


def in_turn(rows):
    """The same rows, of 64 sessions in turn."""
    yield from (f"s{n} begin\n" for n in range(64))
    yield from (f"s{n % 64} insert t {n}\n" for n in range(rows))
    yield from (f"s{n} commit\n" for n in range(64))


def refused(rows):
    """The same lines, of a session without a transaction."""
    yield from (f"s insert t {n}\n" for n in range(rows))


def looks(rows):
    """As many requests, without a row."""
    yield "s begin\n"
    yield from ("s select t\n" for _ in range(rows))
    yield "s commit\n"


def behind_summary(rows, widens):
    """The rows but the first behind a summary of the first one's range, which each of them widens, or none."""
    yield "s begin\n"
    yield "s insert t 0\n"
    yield "m summarize i\n"
    yield from (f"s insert t {n if widens else 0}\n" for n in range(1, rows))
    yield "s commit\n"


def by_steps(rows):
    """Rows of 64 sessions behind such a summary: each starts its insert, then each makes a step, and another one, and then each the others."""
    yield from (f"s{n} begin\n" for n in range(64))
    yield "s0 insert t 0\n"
    yield "m summarize i\n"
    for _ in range(rows // 64):
        yield from (f"s{n} start insert t 0\n" for n in range(64))
        yield from (f"s{n} step\n" for n in range(64))
        yield from (f"s{n} step\n" for n in range(64))
        yield from (f"s{n} finish\n" for n in range(64))
    yield from (f"s{n} commit\n" for n in range(64))


def summarised(rows):
    """Behind the inserts, a summary of each range."""
    yield from inserts(rows)
    yield "m summarize i\n"


def asks(rows, count, verb):
    """Behind these, selects or explains of one row each, from all over the table."""
    yield from summarised(rows)
    yield "s begin\n"
    yield from (f"s {verb} t where a = {n * 7919 % rows}\n" for n in range(count))


def scans(rows, count):
    """Behind the inserts, selects that find none."""
    yield from inserts(rows)
    yield "s begin\n"
    yield from ("s select t where a < 0\n" for _ in range(count))


class Runs:
    """Runs of one program, each with its seconds of the processor and its peak of memory in bytes."""

    def __init__(self, program, rounds, scratch):
        self.program, self.rounds = program, rounds
        self.script, self.out = scratch / "script", scratch / "out"

    def run(self, words, lines):
        with open(self.script, "w") as file:
            file.writelines(lines)
        return min(self.once(words) for _ in range(self.rounds))

    def once(self, words):
        store = f"{self.out}.brin"
        if os.path.exists(store):
            os.remove(store)
        command = ["/usr/bin/time", "-f", "%U %M", self.program, store, "run", *words]
        with open(self.script, "rb") as source, open(self.out, "wb") as sink:
            child = subprocess.run(command, stdin=source, stdout=sink, stderr=subprocess.PIPE, text=True)
        if child.returncode != 0:
            sys.exit(f"{self.program}: {child.stderr}")
        seconds, peak = child.stderr.split()
        return float(seconds), int(peak) * 1024


def has_steps(runs):
    """Whether the program starts statements."""
    runs.run([TABLE], ["s start begin\n"])
    return runs.out.read_text() == "s started\n"


def costs(runs, rows):
    """The figures of one program, by their names."""
    pages = rows // SLOTS + 1
    blocks = f"--heap-blocks={pages}"
    plain, wide, narrow, whole = ([blocks, TABLE, *index] for index in ([], [WIDE], [NARROW], [WHOLE]))
    empty, refusal, look = (runs.run(plain, lines) for lines in ([], refused(rows), looks(rows)))
    put, put_wide, put_narrow = (runs.run(words, inserts(rows)) for words in (plain, wide, narrow))
    turns = runs.run(plain, in_turn(rows))
    had, widened = (runs.run(whole, behind_summary(rows, widens)) for widens in (False, True))
    made_wide, made_narrow = (runs.run(words, summarised(rows)) for words in (wide, narrow))
    by_wide = runs.run(wide, asks(rows, SELECTS, "select"))
    by_narrow = runs.run(narrow, asks(rows, NARROW_SELECTS, "select"))
    explained = runs.run(narrow, asks(rows, NARROW_SELECTS, "explain"))
    scan = runs.run(plain, scans(rows, SCANS))
    figures = {
        "an insert without an index": f"{put[0] / rows * 1e9:.0f} ns",
        "beyond its refused line": f"{(put[0] - refusal[0]) / rows * 1e9:.0f} ns",
        "of 64 sessions in turn": f"{turns[0] / rows * 1e9:.0f} ns",
        "an insert with an index that has no summary": f"{put_wide[0] / rows * 1e9:.0f} ns",
        "whose value the summary has": f"{had[0] / rows * 1e9:.0f} ns",
        "that widens the summary": f"{widened[0] / rows * 1e9:.0f} ns",
        "bytes a row": f"{(put[1] - empty[1]) / rows:.0f}",
        "bytes a select": f"{(look[1] - empty[1]) / rows:.0f}",
        "a page that is summarised, ranges of 128 pages": f"{(made_wide[0] - put_wide[0]) / pages * 1e6:.1f} µs",
        "a page, ranges of one": f"{(made_narrow[0] - put_narrow[0]) / pages * 1e6:.1f} µs",
        "a select of one row by an index, ranges of 128 pages": f"{(by_wide[0] - made_wide[0]) / SELECTS * 1e6:.0f} µs",
        "the same, ranges of one page": f"{(by_narrow[0] - made_narrow[0]) / NARROW_SELECTS * 1e6:.1f} µs",
        "an explain of it, ranges of one page": f"{(explained[0] - made_narrow[0]) / NARROW_SELECTS * 1e6:.1f} µs",
        "a row of a whole scan": f"{(scan[0] - put[0]) / (rows * SCANS) * 1e9:.1f} ns",
        "an insert by steps, of 64 sessions": "-",
    }
    if has_steps(runs):
        stepped = runs.run(whole, by_steps(rows))
        figures["an insert by steps, of 64 sessions"] = f"{stepped[0] / rows * 1e9:.0f} ns"
    return figures


def main():
    words = argparse.ArgumentParser(description=__doc__, formatter_class=argparse.RawDescriptionHelpFormatter)
    words.add_argument("--rows", type=int, default=1_000_000)
    words.add_argument("--rounds", type=int, default=5)
    words.add_argument("program", nargs="*", type=pathlib.Path, default=[HERE])
    given = words.parse_args()
    if not 1 <= given.rows <= 1_000_000:
        words.error("--rows takes 1 to 1000000: a run has room for 1048576 requests")
    with tempfile.TemporaryDirectory(prefix="row_costs.") as name:
        scratch = pathlib.Path(name)
        named = enumerate(path.resolve() for path in given.program)
        programs = [path if path.is_file() else built(path, scratch / str(at)) for at, path in named]
        columns = [costs(Runs(program, given.rounds, scratch), given.rows) for program in programs]
    print("| |", " | ".join(str(path) for path in given.program), "|")
    print("|---" * (len(columns) + 1) + "|")
    for figure in columns[0]:
        print("|", figure, "|", " | ".join(column[figure] for column in columns), "|")


if __name__ == "__main__":
    main()
