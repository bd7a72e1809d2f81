#!/usr/bin/env python3
"""Times rows that sessions put beside each other over a file: worker_rows.py PROGRAM [--sessions K ..] [--rows N] [--rounds N] [--no-server]. No part of the gate.

Each of K sessions makes one transaction, over `t(a int8)` with a minmax index without summaries: one begin, N inserts (1000), and one commit, which is synced. The lines of the
sessions alternate in one script. The program runs it by `threads`, one worker a session, and by `run`, line after line, each over a store that was made before and has room for
little more; its time is that of the whole program, less that of a run without a line, which opens the store. A PostgreSQL server, started here with its own settings on the same disk, has K clients, which
are connected before: each sends one block that puts its rows in a loop within the server, and then each sends a statement a row; its time is that from the first statement to
the last answer. All run in turn, --rounds times (5), and the best of each counts. Tells the load of the machine at both ends. Needs what commit_rows.py needs.
"""
import argparse
import os
import pathlib
import subprocess
import tempfile
import time

from commit_rows import TABLE, Server

ROWS_A_PAGE = 272
OPENING = "a run without a line"
WAYS = ["threads", "run", "PostgreSQL, blocks", "PostgreSQL, statements"]


def sizes(rows):
    """Room for so many rows, and for a log without a checkpoint."""
    return [f"--heap-blocks={rows // ROWS_A_PAGE + 2}", "--index-blocks=4", "--status-blocks=1", f"--log-pages={max(64, min(4096, rows // 40))}"]


def script(sessions, rows):
    """The lines of all sessions, by turns."""
    names = [f"s{number}" for number in range(sessions)]
    lines = [f"{name} begin\n" for name in names]
    for row in range(rows):
        lines += [f"{name} insert t {number * rows + row}\n" for number, name in enumerate(names)]
    return "".join(lines + [f"{name} commit\n" for name in names])


def timed_run(program, store, command, rows, lines):
    """Seconds of a run over a new store, and what it writes."""
    store.unlink(missing_ok=True)
    subprocess.run([program, store, "init", *sizes(rows), *TABLE], check=True)
    start = time.monotonic()
    ran = subprocess.run([program, store, command], input=lines.encode(), stdout=subprocess.PIPE, check=True)
    return time.monotonic() - start, ran.stdout.decode()


def ours(program, store, command, sessions, rows):
    """Seconds of the script."""
    took, output = timed_run(program, store, command, sessions * rows, script(sessions, rows))
    assert output.count(" inserted ") == sessions * rows and output.count(" committed\n") == sessions
    return took


class Client:
    """A client of the server, which is connected."""

    def __init__(self, server):
        words = ["psql", "-h", server.socket, "-U", "postgres", "-v", "ON_ERROR_STOP=1", "-qAtX", "-d", "postgres"]
        self.psql = subprocess.Popen(list(map(str, words)), stdin=subprocess.PIPE, stdout=subprocess.PIPE, text=True)
        self.send("")
        self.await_answer()

    def send(self, text):
        """Sends statements, and behind them one that is answered."""
        self.psql.stdin.write(text + "select 'done';\n")
        self.psql.stdin.flush()

    def await_answer(self):
        assert self.psql.stdout.readline() == "done\n"

    def close(self):
        self.psql.stdin.close()
        self.psql.wait()


def block(first, rows):
    return f"begin;\ndo $$ begin for n in {first}..{first + rows - 1} loop insert into t values (n); end loop; end $$;\ncommit;\n"


def statements(first, rows):
    return "".join(["begin;\n", *[f"insert into t values ({n});\n" for n in range(first, first + rows)], "commit;\n"])


def theirs(server, text, sessions, rows):
    """Seconds from the first client's first statement to the last one's answer."""
    server.sql("drop table if exists t; create table t(a int8); create index i on t using brin (a)")
    clients = [Client(server) for _ in range(sessions)]
    texts = [text(number * rows, rows) for number in range(sessions)]
    start = time.monotonic()
    for client, said in zip(clients, texts):
        client.send(said)
    for client in clients:
        client.await_answer()
    took = time.monotonic() - start
    for client in clients:
        client.close()
    assert server.sql("select count(*) from t").strip() == str(sessions * rows)
    return took


def round_of(program, store, server, sessions, rows):
    """Seconds of each way."""
    yield OPENING, timed_run(program, store, "run", sessions * rows, "")[0]
    yield "threads", ours(program, store, "threads", sessions, rows)
    yield "run", ours(program, store, "run", sessions, rows)
    if server:
        yield "PostgreSQL, blocks", theirs(server, block, sessions, rows)
        yield "PostgreSQL, statements", theirs(server, statements, sessions, rows)


def tell_load(when):
    print(f"load {when}: {os.getloadavg()[0]:.1f} on {os.cpu_count()} processors")


def measure(said, folder, server):
    print("sessions: rows a second, " + ", ".join(WAYS if server else WAYS[:2]))
    for sessions in said.sessions:
        best = {}
        for _ in range(said.rounds):
            for name, took in round_of(os.path.abspath(said.program), folder / "store.brin", server, sessions, said.rows):
                best[name] = min(took, best.get(name, took))
        opening = best.pop(OPENING)
        for name in ("threads", "run"):
            best[name] -= opening
        rates = [f"{sessions * said.rows / took:,.0f} ({1e3 * took:.1f} ms)" for took in best.values()]
        print(f"{sessions}: " + ", ".join(rates) + f"; opening {1e3 * opening:.1f} ms", flush=True)


def main():
    words = argparse.ArgumentParser(description=__doc__.splitlines()[0])
    words.add_argument("program")
    words.add_argument("--sessions", type=int, nargs="+", default=[1, 2, 4, 8, 16])
    words.add_argument("--rows", type=int, default=1000)
    words.add_argument("--rounds", type=int, default=5)
    words.add_argument("--no-server", action="store_true")
    said = words.parse_args()
    with tempfile.TemporaryDirectory(dir=os.getcwd()) as at:
        folder = pathlib.Path(at)
        os.chmod(folder, 0o755)
        (folder / "server").mkdir()
        server = None if said.no_server else Server(folder / "server")
        tell_load("before")
        try:
            measure(said, folder, server)
        finally:
            if server:
                server.stop()
        tell_load("behind")


if __name__ == "__main__":
    main()
