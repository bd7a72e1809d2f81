#!/usr/bin/env python3
"""Times the demo over a file, beside a PostgreSQL server: demo.py PROGRAM [--rows N] [--rounds N]. No part of the gate.

The demo puts N rows (200000) of `d(k int8,v int8,r int8range,a inet)`, 16 on a page, while the index `di` of four classes is summarised,
400 rows a round; then it summarises, vacuums and selects. Prints a table:

- rows a second of the whole demo, which makes its store first. Its five lines are checked. Here a round has four transactions, and so four
  commits, each synced; the summarise goes on between the inserts. In the server, a procedure puts the same rows and commits once a round,
  and behind each commit it calls brin_summarize_new_values; then the same vacuum and selects follow, whose counts are checked;
- pages of 8192 bytes a second, and rows, of a summarise of N rows alone, where no range has a summary: here `m summarize di`, less the time
  of a run without a line, which is that of the opening; there brin_summarize_new_values;
- bytes of the file, and of the table's and the index's pages in use, behind the demo; and of the server's relations.

The server is started here with its own settings on the same disk, but the table's autovacuum is off. Its time is that of its statements, as
psql tells it, and ours that of the whole program. Its classes are minmax, minmax-multi of 16 values, inclusion, and bloom of 3 hashes. It runs
twice. Once its pages are full, with 107 rows: then 2 pages a range come nearest to our 256 rows, with 214, and the server grants bloom no more
than 2520 bits. Once they are filled as ours are, with 16 rows, 16 pages a range and 4096 bits. All run in turn, --rounds times (3), and the
best of each counts. Beside them stand the writes and syncs of a bare file for as many commits as ours. Needs what commit_rows.py needs.
"""
import argparse
import os
import pathlib
import shutil
import subprocess
import tempfile
import time

from commit_rows import Server, bare

PAGE = 8192
TABLE = "table d(k int8,v int8,r int8range,a inet) rows_per_page 16"
INDEX = "index di on d(k minmax,v multi 16,r inclusion,a bloom 4096 3) pages_per_range 16"
OURS = "brin"

# How full the server's pages are, in percent, and pages a range.
FILLED = {"PostgreSQL, full pages": (100, 2), "PostgreSQL, 16 rows a page": (16, 16)}
SETTINGS = "shared_buffers wal_level fsync synchronous_commit full_page_writes max_wal_size checkpoint_timeout jit".split()

TABLES = """create table d(k int8, v int8, r int8range, a inet) with (fillfactor = {}, autovacuum_enabled = off);
create index di on d using brin (k int8_minmax_ops, v int8_minmax_multi_ops(values_per_range = 16), r range_inclusion_ops,
    a inet_bloom_ops(n_distinct_per_range = 946, false_positive_rate = 0.125)) with (pages_per_range = {});
"""
ROW = "i, (1 + 37 * i) % 1000, int8range(i, i + 10), inet '10.0.0.0' + i"
DEMO = f"""create or replace procedure demo(rows int) language plpgsql as $$
    begin for j in 0..(rows - 1) / 400 loop
        if j > 0 then perform brin_summarize_new_values('di'); end if;
        for i in 400 * j..least(400 * j + 399, rows - 1) loop insert into d values ({ROW}); end loop;
        commit;
    end loop; end $$;
"""


def found(rows):
    """How many rows each select finds: ten keys, those of v = 7, ten ranges, and one address."""
    sevens = sum((1 + 37 * i) % 1000 == 7 for i in range(rows))
    return [min(10, rows - rows // 2), sevens, max(0, min(rows, 501) - 491), int(rows > 7)]


def summed_up(rows):
    """The demo's five lines. The last has the blocks of the ranges that the ten keys are in."""
    blocks, middle = -(-rows // 16), rows // 2
    read = sum(min(16, blocks - 16 * at) for at in {k // 256 for k in range(middle, min(rows, middle + 10))})
    return f"rows {rows}\nblocks {blocks}\nranges {-(-rows // 256)}\nfound {' '.join(map(str, found(rows)))}\nread {read}\n"


def run(program, store, words, lines=b""):
    """Seconds of a run of the program, and what it writes."""
    start = time.monotonic()
    ran = subprocess.run([program, store, *words], input=lines, stdout=subprocess.PIPE)
    took = time.monotonic() - start
    assert ran.returncode == 0, ran.returncode
    return took, ran.stdout.decode()


def our_demo(program, store, rows):
    """Seconds of the demo, and pages in use. A vacuum by steps sweeps each page of the index but its metapage and its page of the map."""
    store.unlink(missing_ok=True)
    took, lines = run(program, store, ["demo", "--seed", "1", "--rows", str(rows)])
    assert lines == summed_up(rows), lines
    blocks = -(-rows // 16)
    _, steps = run(program, store, ["run"], b"m start vacuum d\n" + b"m step\n" * (blocks + 256))
    return took, [blocks, steps.count("m moved sweep\n") + 2]


def insert_all(program, store, rows):
    """Makes a store of the demo's rows, which one transaction inserts, without a summary."""
    sizes = [f"--heap-blocks={-(-rows // 16)}", "--index-blocks=256", "--status-blocks=1", "--log-pages=128", "--frames=256"]
    run(program, store, ["init", *sizes, TABLE, INDEX])
    lines = [f"s insert d {i} {(1 + 37 * i) % 1000} [{i},{i + 10}) 10.{i >> 16}.{i >> 8 & 255}.{i & 255}\n" for i in range(rows)]
    _, answers = run(program, store, ["run"], "".join(["s begin\n", *lines, "s commit\n"]).encode())
    assert answers.count("s inserted ") == rows and answers.endswith("s committed\n")


def over_copy(program, store, lines):
    """Seconds of a run over a copy of the store that is synced, and what it writes."""
    copy = shutil.copyfile(store, store.with_name("copy.brin"))
    with open(copy, "rb") as file:
        os.fsync(file.fileno())
    return run(program, copy, ["run"], lines)


def timed(server, text):
    """Seconds of statements in the server, and what they answer."""
    lines = server.sql("\\timing on\n" + text).splitlines()
    took = [float(line.split()[1]) / 1e3 for line in lines if line.startswith("Time: ")]
    return sum(took), [int(line) for line in lines if line.isdigit()]


def relation_pages(server):
    return [int(server.sql(f"select pg_relation_size('{it}')")) // PAGE for it in ("d", "di")]


def their_demo(server, rows, filled):
    """Seconds of the demo in the server, and its pages."""
    server.sql(DEMO)
    wheres = [f"k >= {rows // 2} and k < {rows // 2 + 10}", "v = 7", "r @> int8range(500, 501)", "a = '10.0.0.7'"]
    selects = "".join(f"select count(*) from d where {where};\n" for where in wheres)
    calls = f"call demo({rows});\nselect brin_summarize_new_values('di');\nvacuum d;\n"
    took, answers = timed(server, TABLES.format(*filled) + calls + selects)
    assert answers[1:] == found(rows), answers
    pages = relation_pages(server)
    server.sql("drop table d")
    return took, pages


def their_summaries(server, rows, filled):
    """Seconds of the call. The server has made a summary of the first range with the empty table."""
    server.sql(TABLES.format(*filled) + f"insert into d select {ROW} from generate_series(0, {rows - 1}) as i; checkpoint")
    took, made = timed(server, "select brin_summarize_new_values('di')")
    assert made == [-(-relation_pages(server)[0] // filled[1]) - 1], made
    server.sql("drop table d")
    return took


def one_round(program, store, server, rows, keep):
    """Keeps each time once. Answers the pages of each."""
    took, pages = our_demo(program, store.with_name("demo.brin"), rows)
    keep(OURS, "demo", took)
    took, answer = over_copy(program, store, b"m summarize di\n")
    assert answer == f"m summarized {-(-rows // 256)}\n", answer
    keep(OURS, "summaries", took)
    keep(OURS, "opening", over_copy(program, store, b"")[0])
    keep(OURS, "bare", bare(store.parent, 4 * -(-rows // 400), 6400))
    found_pages = {OURS: pages}
    for name, filled in FILLED.items():
        took, found_pages[name] = their_demo(server, rows, filled)
        keep(name, "demo", took)
        keep(name, "summaries", their_summaries(server, rows, filled))
    return found_pages


def print_table(rows, best, pages):
    print("| what |", " | ".join(pages), "|")
    print("|---" * (1 + len(pages)) + "|")
    alone = {name: best[name, "summaries"] - best.get((name, "opening"), 0) for name in pages}
    for what, figures in (
        ("the demo, seconds", [f"{best[it, 'demo']:.2f}" for it in pages]),
        ("rows a second of the demo", [f"{rows / best[it, 'demo']:,.0f}" for it in pages]),
        ("a summarise of all ranges, seconds", [f"{alone[it]:.3f}" for it in pages]),
        ("pages a second of the summarise", [f"{pages[it][0] / alone[it]:,.0f}" for it in pages]),
        ("rows a second of the summarise", [f"{rows / alone[it]:,.0f}" for it in pages]),
        ("bytes of the table's pages", [f"{PAGE * pages[it][0]:,}" for it in pages]),
        ("bytes of the index's pages", [f"{PAGE * pages[it][1]:,}" for it in pages]),
    ):
        print("|", what, "|", " | ".join(figures), "|")
    print(f"\nSeconds of an opening of ours: {best[OURS, 'opening']:.3f}; of the writes and syncs of a bare file: {best[OURS, 'bare']:.2f}.")


def main():
    words = argparse.ArgumentParser(description=__doc__.splitlines()[0])
    words.add_argument("program")
    words.add_argument("--rows", type=int, default=200_000)
    words.add_argument("--rounds", type=int, default=3)
    said = words.parse_args()
    program = os.path.abspath(said.program)
    best = {}

    def keep(name, what, took):
        best[name, what] = min(took, best.get((name, what), took))

    with tempfile.TemporaryDirectory(dir=os.getcwd()) as at:
        folder = pathlib.Path(at)
        os.chmod(folder, 0o755)
        (folder / "server").mkdir()
        server = Server(folder / "server")
        try:
            print(server.sql("select version()") + ", ".join(f"{it} {server.sql(f'show {it}').strip()}" for it in SETTINGS), end="\n\n")
            store = folder / "rows.brin"
            insert_all(program, store, said.rows)
            print(f"The program's file has {store.stat().st_size:,} bytes.\n")
            for _ in range(said.rounds):
                pages = one_round(program, store, server, said.rows, keep)
        finally:
            server.stop()
    print_table(said.rows, best, pages)


if __name__ == "__main__":
    main()
