#!/usr/bin/env python3
"""Checks the output of `threads` over files: check_threads.py [PROGRAM] (crates/brin/out/brin, if none is named).

Makes scripts of 2 to 16 sessions by seeds, the same ones each time, and runs each by one worker a session. Each output is judged by transcripts.py, and so is what a further run
finds in the file: all rows, and those of each query of the script, before and behind maintenance. Some scripts are run again where the file may not grow past a limit, so that the
disk fails amid them. Prints how many scripts hold, or the first that doesn't, and then ends with 1.
"""
import itertools
import pathlib
import random
import resource
import signal
import subprocess
import sys
import tempfile
from collections import namedtuple

from script_lines import read_script, store_of
from transcripts import Database, Wrong, new_database, reopened, transcript_of, whole_transcript_of

TOP = pathlib.Path(__file__).resolve().parent.parent
SCRIPTS = 200
LIMITED = 40
SECONDS = 20
PAGE = 8192

# Blocks of each table and of each index: ample ones, and so few that tables and indexes are full.
AMPLE = (128, 16)
SCARCE = (3, 3)

CLASSES = {"int8": ["minmax", "multi 8", "bloom 64 2"], "int8range": ["inclusion"], "inet": ["inclusion", "bloom 64 1"]}
COMPARISONS = {
    "int8": ["<", "<=", "=", ">=", ">"],
    "int8range": ["=", "&&", "@>", "<@", "<<", ">>", "&<", "&>", "-|-"],
    "inet": ["=", "&&", "<<", ">>", "<<=", ">>="],
}
NAMES = "abcdefghjklmnopq"

# A script, the words of its store, the lines of a run before it, and whether its tables or indexes may be full.
Case = namedtuple("Case", "words store before script is_scarce")


# ---- scripts


class Maker:
    """Makes a script by a seed."""

    def __init__(self, seed):
        self.random = random.Random(seed)
        self.is_scarce = seed % 8 == 7
        self.tables = {}
        self.indexes = {}
        self.declarations = []
        for name in "tuv"[: self.random.randint(1, 3)]:
            self.declare_table(name)

    def some(self, *chances):
        """One of the values, each by its chance."""
        values, weights = zip(*chances)
        return self.random.choices(values, weights)[0]

    def declare_table(self, name):
        kinds = [self.some(("int8", 3), ("int8range", 1), ("inet", 1)) for _ in range(self.random.randint(1, 3))]
        columns = dict(zip("abc", kinds))
        self.tables[name] = columns
        listed = ",".join(f"{column} {kind}" for column, kind in columns.items())
        self.declarations.append(f"table {name}({listed}) rows_per_page {self.random.randint(1, 4)}")
        for suffix in "ij"[: self.random.randint(0, 2)]:
            self.declare_index(name + suffix, name)

    def declare_index(self, name, table):
        columns = self.tables[table]
        chosen = self.random.sample(sorted(columns), self.random.randint(1, len(columns)))
        listed = ",".join(f"{column} {self.random.choice(CLASSES[columns[column]])}" for column in chosen)
        asks = self.some(("", 2), (" autosummarize", 1))
        self.indexes[name] = table
        self.declarations.append(f"index {name} on {table}({listed}) pages_per_range {self.random.randint(1, 3)}{asks}")

    def case(self):
        heap, index = SCARCE if self.is_scarce else AMPLE
        sizes = [f"--heap-blocks={heap}", f"--index-blocks={index}", "--status-blocks=1", "--log-pages=16", "--frames=16"]
        before = self.lines_before() if self.random.random() < 0.7 else None
        script = self.merged([self.session_lines(name) for name in NAMES[: self.random.randint(2, 16)]])
        return Case([*sizes, *self.declarations], store_of(self.declarations, heap, index, 1), before, script, self.is_scarce)

    def lines_before(self):
        """Rows that are committed by a run before."""
        puts = [f"z {self.insert()}" for _ in range(self.random.randint(1, 12))]
        return "".join(f"{line}\n" for line in ["z begin", *puts, "z commit", *[f"z summarize {index}" for index in self.indexes]])

    def merged(self, sessions):
        """The lines of the sessions in some order, each session's in its own; and among them lines that say nothing."""
        lines = []
        while any(sessions):
            session = self.random.choice([session for session in sessions if session])
            lines.append(session.pop(0))
            if self.random.random() < 0.02:
                lines.append(self.random.choice(["", "  ", "# b begin"]))
        return "".join(f"{line}\n" for line in lines)

    def session_lines(self, name):
        """A session that keeps up its tables, or one with some transactions."""
        if self.random.random() < 0.2:
            lines = [self.upkeep() for _ in range(self.random.randint(3, 10))]
        else:
            lines = [line for _ in range(self.random.randint(1, 7)) for line in self.transaction()]
        return [f"{name} {line}" for line in lines]

    def transaction(self):
        """It may lack its begin or its end, which are errors of the session then."""
        begin = self.some((["begin"], 19), ([], 1))
        lines = [self.statement() for _ in range(self.random.randint(1, 6))]
        return [*begin, *lines, *self.some((["commit"], 15), (["rollback"], 3), ([], 1))]

    def statement(self):
        make = self.some((self.insert, 45), (self.select, 18), (self.delete, 20), (self.explain, 6), (self.upkeep, 6), (self.error, 5))
        return make()

    def insert(self):
        table = self.random.choice(sorted(self.tables))
        return f"insert {table} " + " ".join(self.value(kind) for kind in self.tables[table].values())

    def select(self):
        return f"select {self.query()}"

    def delete(self):
        return f"delete {self.query()}"

    def explain(self):
        return f"explain {self.query()}"

    def query(self):
        table = self.random.choice(sorted(self.tables))
        conds = [self.cond(self.tables[table]) for _ in range(self.some((0, 2), (1, 5), (2, 2), (3, 1)))]
        return f"{table} where {' and '.join(conds)}" if conds else table

    def cond(self, columns):
        column = self.random.choice(sorted(columns))
        kind = columns[column]
        return f"{column} " + self.some(("is null", 1), ("is not null", 1), (f"{self.random.choice(COMPARISONS[kind])} {self.value(kind)}", 8))

    def value(self, kind):
        number = self.random.randint
        texts = {
            "int8": [str(number(-2, 9)), str(number(-2, 9)), self.random.choice(["-9223372036854775808", "9223372036854775807", "-0", "007"])],
            "int8range": [f"[{number(0, 4)},{number(5, 9)})", f"({number(0, 4)},{number(4, 9)}]", self.random.choice(["empty", "(,)", "(,4]", "[5,)"])],
            "inet": [f"10.0.{number(0, 1)}.{number(0, 3)}", f"10.0.{number(0, 1)}.{number(0, 3)}/{number(24, 31)}", self.random.choice(["10.0.0.0/8", "0.0.0.0/0", "10.0.1.0/24"])],
        }[kind]
        return self.some(("null", 2), *zip(texts, (10, 6, 2)))

    def upkeep(self):
        makes = [lambda: f"vacuum {self.random.choice(sorted(self.tables))}", lambda: "work", self.explain]
        if self.indexes:
            index = self.random.choice(sorted(self.indexes))
            makes += [lambda: f"summarize {index}"] * 2
            makes += [lambda: f"summarize {index} {self.random.randint(0, 12)}", lambda: f"desummarize {index} {self.random.randint(0, 12)}"]
        return self.random.choice(makes)()

    def error(self):
        """An error of the session, or a line that isn't read, so that no worker has it."""
        table, columns = sorted(self.tables.items())[0]
        return self.random.choice(
            [
                "begin",
                "commit",
                "step",
                "finish",
                f"start {self.insert()}",
                "insert w 1",
                f"insert {table}",
                f"insert {table} " + " ".join("x" for _ in columns),
                f"{self.insert()} 1",
                f"select {table} where d = 1",
                f"select {table} where a ~ 1",
                f"delete {table} where a is",
                "summarize k",
                "desummarize ti",
                "vacuum",
            ]
        )


# ---- runs


class Bench:
    """A program, a folder for its files, and what came so far: entries, those that another session's follow, and refusals by their error."""

    def __init__(self, program, folder):
        self.program = program
        self.folder = folder
        self.files = 0
        self.entries = 0
        self.turns = 0
        self.conflicts = 0
        self.full = 0
        self.faults = 0

    def path(self):
        self.files += 1
        return self.folder / f"store{self.files}"

    def run(self, path, words, script, **more):
        """The status and the output of a run over the file."""
        ended = subprocess.run([self.program, path, *words], input=script.encode(), capture_output=True, timeout=SECONDS, **more)
        return ended.returncode, ended.stdout.decode("latin-1")

    def done(self, path, words, script):
        status, output = self.run(path, words, script)
        if status:
            raise Wrong(f"{words[0]} ended with status {status}")
        return output

    def count(self, entries):
        self.entries += len(entries)
        self.turns += sum(one.session != other.session for one, other in itertools.pairwise(entries))
        self.conflicts += sum(entry.lines[-1].startswith("error 7 ") for entry in entries)
        self.full += sum(entry.lines[-1].startswith("error 8 ") for entry in entries)


def stored_before(bench, case, path):
    """The database of the file before the script, and the words of its run: a new store, or one with rows that a run before has committed."""
    if case.before is None:
        return new_database(), ["threads", *case.words]
    output = bench.done(path, ["run", *case.words], case.before)
    return whole_transcript_of(case.store, new_database(), case.before, output).database, ["threads"]


def opening_of(case, database, output):
    return new_database() if case.before is None else reopened(database, output)


def looks(case):
    """A script that selects all rows of each table and those of each query of the case, twice: behind the first time all indexes and tables are kept up."""
    sessions, _ = read_script(case.script, case.store)
    asks = [line.split(maxsplit=2)[2] for line in case.script.splitlines() if line.split()[1:2] in (["select"], ["delete"]) and is_read(case, line)]
    selects = "".join(f"z select {query}\n" for query in [*case.store.tables, *asks])
    upkeep = "".join([f"m summarize {index}\n" for index in case.store.indexes] + [f"m vacuum {table}\n" for table in case.store.tables])
    return f"z begin\n{selects}{upkeep}{selects}z commit\n"


def is_read(case, line):
    return not read_script(line, case.store).unread


def check_looks(bench, case, path, databases):
    """What a further run finds in the file is one of these databases."""
    script = looks(case)
    output = bench.done(path, ["run"], script)
    faults = []
    for database in databases:
        try:
            whole_transcript_of(case.store, reopened(database, output), script, output)
            return
        except Wrong as wrong:
            faults.append(wrong)
    raise Wrong(f"a further run: {faults[0]}")


def check_case(bench, case):
    path = bench.path()
    database, words = stored_before(bench, case, path)
    output = bench.done(path, words, case.script)
    transcript = whole_transcript_of(case.store, opening_of(case, database, output), case.script, output)
    if " error 13" in output or (" error 8 " in output and not case.is_scarce):
        raise Wrong("memory is short, or a table or index is full, where there is room")
    check_looks(bench, case, path, [transcript.database])
    bench.count(transcript.entries)
    path.unlink()


def check_limited(bench, case, pages):
    """The file may be written in its first pages alone. Where that isn't enough the output is what was answered by then."""
    path = bench.path()
    bench.done(path, ["init", *case.words], "")
    status, output = bench.run(path, ["threads"], case.script, preexec_fn=lambda: limit(pages * PAGE))
    if status not in (0, 6):
        raise Wrong(f"threads over a limited file ended with status {status}")
    transcript = transcript_of(case.store, new_database(), case.script, output)
    if status == 0 and transcript.asked:
        raise Wrong("lines without an entry at status 0")
    check_looks(bench, case, path, [transcript.database, *with_a_commit(transcript)])
    bench.faults += status == 6
    path.unlink()


def limit(size):
    signal.signal(signal.SIGXFSZ, signal.SIG_IGN)
    resource.setrlimit(resource.RLIMIT_FSIZE, (size, size))


def with_a_commit(transcript):
    """The databases with the commit of a session that was in hand."""
    database = transcript.database
    for session, statement in transcript.asked.items():
        transaction = database.transactions.get(session)
        if statement.verb == "commit" and transaction and not transaction.failed:
            committed = Database(database.next, database.table)
            committed.commit(transaction)
            yield committed


def main():
    program = pathlib.Path(sys.argv[1]) if len(sys.argv) > 1 else TOP / "crates" / "brin" / "out" / "brin"
    with tempfile.TemporaryDirectory() as folder:
        bench = Bench(program, pathlib.Path(folder))
        for seed in range(SCRIPTS):
            case = Maker(seed).case()
            try:
                check_case(bench, case)
                if seed < LIMITED:
                    check_limited(bench, case, 2 + seed % 16)
            except Wrong as wrong:
                sys.exit(f"{program}: the script of seed {seed}: {wrong}\n{case.words}\n{case.script}")
    print(f"{SCRIPTS} scripts of workers hold: {bench.entries} answers, {bench.turns} of them before one of another session, {bench.conflicts} conflicts, {bench.full} refusals for want of room")
    print(f"{LIMITED} of them again in files that are limited: {bench.faults} ended by a fault")


if __name__ == "__main__":
    main()
