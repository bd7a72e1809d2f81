#!/usr/bin/env python3
"""Tells what an insert's entry in the journal takes of memory: packed_requests.py [--rows N] [PROGRAM or CHECKOUT..]. No part of the gate.

A file is a built program. Of a checkout (this one, if nothing is named) the program is built from a copy of its crates by LLVM at -O2,
without proof. Prints a table with a column for each: the peak of memory of N inserts in one transaction, beyond that of a run without
lines, for each insert. The pool has 16 frames, so that pages take next to nothing. The rows are of one int8, of eight, and of eight
int8range with both bounds. At 1,000,000 rows the lists have just grown; at fewer the copies of a growth may count for more. Needs `rt` for
checkouts, and GNU time.
"""
import argparse
import pathlib
import subprocess
import tempfile

from unproved import HERE, built

EIGHT = "abcdefgh"
ROWS = {
    "one int8": ("table t(a int8)", lambda n: str(n)),
    "eight int8": (f"table t({','.join(f'{c} int8' for c in EIGHT)})", lambda n: " ".join(str(n + at) for at in range(8))),
    "eight int8range": (f"table t({','.join(f'{c} int8range' for c in EIGHT)})", lambda n: " ".join([f"[{n},{n + 9})"] * 8)),
}


def peak(program, folder, table, rows, text):
    """The most bytes that a run of so many inserts had in memory."""
    script, store = folder / "script", folder / "store.brin"
    with open(script, "w") as file:
        if rows:
            file.write("s begin\n")
            file.writelines(f"s insert t {text(n)}\n" for n in range(rows))
            file.write("s commit\n")
    store.unlink(missing_ok=True)
    words = [program, store, "run", "--frames=16", "--heap-blocks=131072", table]
    with open(script, "rb") as source:
        child = subprocess.run(["/usr/bin/time", "-f", "%M", *words], stdin=source, stdout=subprocess.DEVNULL, stderr=subprocess.PIPE, text=True)
    if child.returncode != 0:
        raise SystemExit(f"{program}: {child.stderr}")
    return int(child.stderr.split()[-1]) * 1024


def bytes_an_insert(program, folder, rows):
    """By the kind of row."""
    figures = {}
    for name, (table, text) in ROWS.items():
        most, least = (peak(program, folder, table, count, text) for count in (rows, 0))
        figures[name] = (most - least) / rows
    return figures


def main():
    words = argparse.ArgumentParser(description=__doc__, formatter_class=argparse.RawDescriptionHelpFormatter)
    words.add_argument("--rows", type=int, default=1_000_000)
    words.add_argument("program", nargs="*", type=pathlib.Path, default=[HERE])
    given = words.parse_args()
    if not 1 <= given.rows <= 1_000_000:
        words.error("--rows takes 1 to 1000000: a run has room for 1048576 requests")
    with tempfile.TemporaryDirectory(prefix="packed_requests.") as name:
        scratch = pathlib.Path(name)
        paths = [path.resolve() for path in given.program]
        programs = [path if path.is_file() else built(path, scratch / str(at)) for at, path in enumerate(paths)]
        columns = [bytes_an_insert(program, scratch, given.rows) for program in programs]
    print("| bytes an insert of |", " | ".join(str(path) for path in given.program), "|")
    print("|---" * (len(columns) + 1) + "|")
    for figure in ROWS:
        print("|", figure, "|", " | ".join(f"{column[figure]:.0f}" for column in columns), "|")


if __name__ == "__main__":
    main()
