#!/usr/bin/env python3
"""Times commits over a file, beside a PostgreSQL server: commit_rows.py PROGRAM [--commits N] [--rows N] [--rounds N]. No part of the gate.

The program inserts 400 rows a commit into `t(a int8)` with a minmax index that is summarised between, by a script on standard input, into a
store in a file; each commit is synced. The server, started here with its own settings (fsync and synchronous_commit on) on the same disk,
does the same in a procedure that commits behind each 400 inserts, so that no client stands between; its time is that of the call. Both run
in turn, --rounds times (3), and the best of each counts. Beside them the two writes and two syncs of a bare file for as many commits, which
is what a commit of ours asks of the disk. Needs postgres, initdb, pg_ctl and psql, and a user `postgres` where it runs as root.
"""
import argparse
import os
import pathlib
import shutil
import subprocess
import tempfile
import time

TABLE = ["table t(a int8)", "index i on t(a minmax)"]


def script(commits, rows):
    """The lines of the program's run."""
    for j in range(commits):
        yield "s begin\n"
        yield from (f"s insert t {n}\n" for n in range(j * rows, (j + 1) * rows))
        yield "s commit\n"


def ours(program, folder, lines, commits):
    """Seconds of one run, and how many commits were answered."""
    store = folder / "store.brin"
    store.unlink(missing_ok=True)
    sizes = ["--heap-blocks=4096", "--index-blocks=64", "--log-pages=4096", "--frames=4096"]
    made = subprocess.run([program, store, "init", *sizes, *TABLE])
    assert made.returncode == 0, made.returncode
    with open(lines) as given, open(folder / "answers", "w") as answers:
        start = time.monotonic()
        ran = subprocess.run([program, store, "run"], stdin=given, stdout=answers)
        took = time.monotonic() - start
    assert ran.returncode == 0, ran.returncode
    with open(folder / "answers") as answers:
        assert sum(line == "s committed\n" for line in answers) == commits
    return took


def bare(folder, commits, size):
    """Seconds of two writes and two syncs a commit: a frame of the log, and the byte that opens it."""
    with open(folder / "bare", "w+b", buffering=0) as file:
        file.truncate(1 << 25)
        os.fsync(file.fileno())
        start = time.monotonic()
        for j in range(commits):
            at = 8192 + j * size % (1 << 24)
            os.pwrite(file.fileno(), b"x" * size, at + 1)
            os.fdatasync(file.fileno())
            os.pwrite(file.fileno(), b"1", at)
            os.fdatasync(file.fileno())
        return time.monotonic() - start


class Server:
    """A server of its own in a folder."""

    def __init__(self, folder):
        self.data, self.socket = folder / "data", folder
        if os.getuid() == 0:
            shutil.chown(folder, "postgres")
            os.chmod(folder, 0o755)
        self.run(["initdb", "-D", self.data, "-A", "trust"])
        self.run(["pg_ctl", "-D", self.data, "-w", "-l", folder / "log", "-o", f"-k {self.socket} -c listen_addresses=''", "start"])

    def run(self, words, **how):
        words = [str(it) for it in words]
        if os.getuid() == 0:
            words = ["runuser", "-u", "postgres", "--", *words]
        return subprocess.run(words, check=True, stdout=subprocess.PIPE, text=True, cwd="/", **how).stdout

    def sql(self, text):
        """What the statements answer, each of them in a transaction of its own."""
        return self.run(["psql", "-h", self.socket, "-U", "postgres", "-v", "ON_ERROR_STOP=1", "-qAtX", "-d", "postgres"], input=text)

    def stop(self):
        self.run(["pg_ctl", "-D", self.data, "-m", "fast", "-w", "stop"])


def theirs(server, commits, rows):
    """Seconds of one call in the server."""
    server.sql("drop table if exists t; create table t(a int8); create index i on t using brin (a)")
    server.sql("""create or replace procedure fill(commits int, rows_each int) language plpgsql as $$
        begin for j in 0..commits - 1 loop
            for n in j * rows_each..(j + 1) * rows_each - 1 loop insert into t values (n); end loop;
            commit;
        end loop; end $$""")
    start = time.monotonic()
    server.sql(f"call fill({commits}, {rows})")
    took = time.monotonic() - start
    assert server.sql("select count(*) from t").strip() == str(commits * rows)
    return took


def main():
    words = argparse.ArgumentParser(description=__doc__.splitlines()[0])
    words.add_argument("program")
    words.add_argument("--commits", type=int, default=500)
    words.add_argument("--rows", type=int, default=400)
    words.add_argument("--rounds", type=int, default=3)
    said = words.parse_args()
    program = os.path.abspath(said.program)
    with tempfile.TemporaryDirectory(dir=os.getcwd()) as at:
        folder = pathlib.Path(at)
        os.chmod(folder, 0o755)
        lines = folder / "script"
        lines.write_text("".join(script(said.commits, said.rows)))
        (folder / "server").mkdir()
        server = Server(folder / "server")
        try:
            best = {}
            for _ in range(said.rounds):
                for name, took in (
                    ("brin", ours(program, folder, lines, said.commits)),
                    ("PostgreSQL", theirs(server, said.commits, said.rows)),
                    ("two writes and syncs", bare(folder, said.commits, 20 * said.rows)),
                ):
                    best[name] = min(took, best.get(name, took))
        finally:
            server.stop()
    for name, took in best.items():
        print(f"{name}: {took:.2f} s, {1e3 * took / said.commits:.2f} ms a commit, {said.commits * said.rows / took:,.0f} rows a second")


if __name__ == "__main__":
    main()
