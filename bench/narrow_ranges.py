#!/usr/bin/env python3
"""Times queries that judge many narrow ranges, beside a PostgreSQL server: narrow_ranges.py PROGRAM [--rounds N]. No part of the gate.

Two tables of one int8, each with an index of one minmax column and a range a page, all of them with summaries:

- a million rows on full pages, 3,677 here and 4,425 there: a query of one row;
- 131,072 pages of one row: an explain here, and there a whole query of one row, since an explain of the server judges nothing.

A figure of ours is the difference of two runs of the program over one store, of many queries and of few, so that no opening counts. The server
plans and runs the same queries in one block; no sequential scan is allowed. All run in turn, --rounds times (3); the best and the middle count.
Needs what commit_rows.py needs, and 3 GB of disk.
"""
import argparse
import os
import pathlib
import statistics
import tempfile

from commit_rows import Server
from demo import run, timed

INDEX = "index i on t(a minmax) pages_per_range 1"
MANY, FEW = 60, 10


class Case:
    """What is asked: its name, our table, blocks and rows, our verb, and the server's columns and rows."""

    def __init__(self, name, table, blocks, rows, verb, columns, values):
        self.name, self.table, self.blocks, self.rows, self.verb, self.columns, self.values = name, table, blocks, rows, verb, columns, values
        # A filling column isn't compressed.
        self.plain = "alter table t alter filling set storage plain;" if "filling" in columns else ""

    def keys(self, count):
        return [n * 7919 % self.rows for n in range(count)]


CASES = [
    Case("a query of one row, a million rows on full pages", "table t(a int8)", 3_677, 1_000_000, "select", "a int8", "i"),
    Case("an explain (here) and a query (there) of 131,072 pages of one row", "table t(a int8) rows_per_page 1", 131_072, 131_072, "explain",
         "a int8, filling char(7000)", "i, ''"),
]


def fill_ours(program, store, case):
    sizes = [f"--heap-blocks={case.blocks}", "--index-blocks=1024", "--status-blocks=1", "--log-pages=1024", "--frames=8192"]
    run(program, store, ["init", *sizes, case.table, INDEX])
    lines = "".join(["s begin\n", *(f"s insert t {i}\n" for i in range(case.rows)), "s commit\n"])
    _, answers = run(program, store, ["run"], lines.encode())
    assert answers.endswith("s committed\n")
    _, answers = run(program, store, ["run"], b"m summarize i\n")
    assert answers == f"m summarized {case.blocks}\n", answers


def asked(program, store, case, count):
    lines = "s begin\n" + "".join(f"s {case.verb} t where a = {key}\n" for key in case.keys(count))
    took, answers = run(program, store, ["run"], lines.encode())
    assert answers.count("\n") >= count
    return took


def ours(program, store, case):
    """Seconds a query."""
    return (asked(program, store, case, MANY) - asked(program, store, case, FEW)) / (MANY - FEW)


def fill_theirs(server, case):
    server.sql(f"""create unlogged table t({case.columns}) with (autovacuum_enabled = off);
{case.plain}
insert into t select {case.values} from generate_series(0, {case.rows - 1}) as i;
create index i on t using brin (a int8_minmax_ops) with (pages_per_range = 1);
vacuum t;""")


def theirs(server, case):
    """Seconds a query."""
    block = f"""set enable_seqscan = off;
do $$ declare found int8; begin for n in 0..{MANY - 1} loop
    execute format('select a from t where a = %s::int8', n::int8 * 7919 % {case.rows}) into found;
    if found <> n::int8 * 7919 % {case.rows} then raise exception 'wrong row'; end if;
end loop; end $$;
"""
    took, _ = timed(server, block)
    return took / MANY


def measure(program, folder, server, case, rounds):
    store = folder / "narrow.brin"
    store.unlink(missing_ok=True)
    fill_ours(program, store, case)
    fill_theirs(server, case)
    both = [(ours(program, store, case), theirs(server, case)) for _ in range(rounds)]
    server.sql("drop table t")
    print(case.name)
    for name, times in zip(("brin", "PostgreSQL"), zip(*both)):
        print(f"    {name:12} best {min(times) * 1e3:8.2f} ms, middle {statistics.median(times) * 1e3:8.2f} ms")


def main():
    words = argparse.ArgumentParser()
    words.add_argument("program", type=pathlib.Path)
    words.add_argument("--rounds", type=int, default=3)
    said = words.parse_args()
    with tempfile.TemporaryDirectory(dir=os.getcwd()) as name:
        folder = pathlib.Path(name)
        os.chmod(folder, 0o755)
        (folder / "server").mkdir()
        server = Server(folder / "server")
        try:
            print("load", *os.getloadavg())
            for case in CASES:
                measure(said.program.resolve(), folder, server, case, said.rounds)
            print("load", *os.getloadavg())
        finally:
            server.stop()


if __name__ == "__main__":
    main()
