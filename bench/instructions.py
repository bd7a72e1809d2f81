#!/usr/bin/env python3
"""Counts instructions of lines of a script: instructions.py PROGRAM [--functions]. No part of the gate.

Callgrind counts two runs of different length, and the difference is told for each line, range or row:

- an `insert` of one int8 in a transaction, into a table with a minmax index without summaries;
- a range of one page in an `explain` of 221 ranges, all of them with summaries;
- a row that a `delete` marks; both runs read the same 1,200 rows.

With --functions it tells which functions have them. Needs valgrind.
"""
import argparse
import pathlib
import re
import subprocess
import tempfile

TABLE, WIDE, NARROW = "table t(a int8)", "index i on t(a minmax)", "index i on t(a minmax) pages_per_range 1"
SLOTS = 272


class Counts:
    """Runs of one program under callgrind, in a folder."""

    def __init__(self, program, folder):
        self.program, self.folder = program, folder

    def total(self, name, words, lines):
        """The instructions of a run."""
        store, out = self.folder / f"{name}.brin", self.folder / f"{name}.callgrind"
        command = ["valgrind", "--tool=callgrind", f"--callgrind-out-file={out}", self.program, store, "run", "--heap-blocks=300", *words]
        ran = subprocess.run(command, input="".join(lines), capture_output=True, text=True, check=True)
        return int(re.search(r"Collected : (\d+)", ran.stderr)[1])

    def by_function(self, name):
        out = subprocess.run(["callgrind_annotate", "--threshold=100", self.folder / f"{name}.callgrind"], capture_output=True, text=True, check=True).stdout
        found = re.findall(r"^\s*([\d,]+) \([ \d.]+%\)\s+(\S.*)$", out, re.MULTILINE)
        return {function: int(count.replace(",", "")) for count, function in found if function != "PROGRAM TOTALS"}

    def told(self, what, words, few, many, by, functions):
        totals = [self.total(name, words, lines) for name, lines in (("few", few), ("many", many))]
        print(f"{(totals[1] - totals[0]) / by:9.0f}  {what}", flush=True)
        if functions:
            before, after = self.by_function("few"), self.by_function("many")
            each = sorted(((after[it] - before.get(it, 0)) / by, it) for it in after)[::-1]
            for count, function in each:
                if count >= 10:
                    print(f"          {count:9.0f}  {function[:120]}")


def inserts(rows):
    return ["s begin\n", *(f"s insert t {n}\n" for n in range(rows)), "s commit\n"]


def main():
    words = argparse.ArgumentParser()
    words.add_argument("program", type=pathlib.Path)
    words.add_argument("--functions", action="store_true")
    said = words.parse_args()
    with tempfile.TemporaryDirectory() as name:
        counts = Counts(said.program.resolve(), pathlib.Path(name))
        counts.told("an insert line", [TABLE, WIDE], inserts(1000), inserts(3000), 2000, said.functions)
        summarised = [*inserts(60_000), "m summarize i\n", "s begin\n", "s insert t 1\n", "s commit\n", "s begin\n"]
        explain = "s explain t where a = 5\n"
        ranges = -(-60_000 // SLOTS)
        counts.told("a range of an explain", [TABLE, NARROW], [*summarised, explain], [*summarised, *[explain] * 3], 2 * ranges, said.functions)
        filled = [*inserts(1200), "s begin\n"]
        counts.told("a row that a delete marks", [TABLE, WIDE], [*filled, "s delete t where a < 100\n"], [*filled, "s delete t where a < 1100\n"], 1000, said.functions)


if __name__ == "__main__":
    main()
