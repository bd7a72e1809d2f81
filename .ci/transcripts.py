"""Whether the output of `threads` is a right transcript of its script: written from the definition (docs/definitions.md, "Transcript, Told, InTurn") and from
docs/reference.md, and apart from the program.

An output begins with the texts of the lines that no worker has. Behind them stand the entries, in the order in which the answers were kept. An entry is the answer to its
session's next line, as a whole statement in the database of the entries before it. A database is what is committed, the number of the next transaction, and by session the
transaction under way with a copy of its own.

As in the definition, a full table or index and want of memory may be told at any insert; and of explain and maintenance only the form of the answer is judged.
"""
import re
from collections import namedtuple
from dataclasses import dataclass, field

from script_lines import matches, read_script, value_text

STATUS_ENTRIES = 32640

RowId = namedtuple("RowId", "t k")
Row = namedtuple("Row", "id table values")
Entry = namedtuple("Entry", "session lines")


class Wrong(Exception):
    """No right transcript has such an output."""


# ---- databases


@dataclass
class Transaction:
    """Its number, how many rows it put, its own copy of the tables, the ids of others' rows that it deleted there, and whether it has failed, so that it can only end."""

    t: int
    view: dict
    puts: int = 0
    marks: set = field(default_factory=set)
    failed: bool = False

    def finds(self, statement):
        """The rows of its copy that the query of the statement matches, in order."""
        return [row for _, row in sorted(self.view.items()) if row_matches(row, statement)]

    def owns(self, row):
        return row.id.t == self.t

    def mark(self, row):
        """The row leaves the copy; another transaction's is kept among the marks."""
        del self.view[row.id]
        if not self.owns(row):
            self.marks.add(row.id)


@dataclass
class Database:
    """The number of the next transaction, the rows that are committed, by their ids, by session the transaction under way, and the greatest number of one that has committed."""

    next: int
    table: dict
    transactions: dict = field(default_factory=dict)
    committed: int = 0

    def commit(self, transaction):
        """The table loses the rows of the marks and gains the transaction's own."""
        self.committed = max(self.committed, transaction.t)
        kept = {id: row for id, row in self.table.items() if id not in transaction.marks}
        own = {id: row for id, row in transaction.view.items() if transaction.owns(row)}
        self.table = {**kept, **own}

    def marked_elsewhere(self, session, row):
        return any(row.id in transaction.marks for other, transaction in self.transactions.items() if other != session)

    def must_conflict(self, session, transaction, row):
        """Another transaction's row can't be deleted if it is no longer committed, or another session has marked it."""
        return not transaction.owns(row) and (row.id not in self.table or self.marked_elsewhere(session, row))

    def may_conflict(self, session, transaction, row, asked):
        """So it is, too, of another transaction's row that a further session is about to delete: its next statement is a delete, and finds the row."""
        others = [other for other in asked if other != session and asked[other].verb == "delete"]
        return not transaction.owns(row) and any(self.would_delete(other, asked[other], row) for other in others)

    def would_delete(self, session, statement, row):
        transaction = self.transactions.get(session)
        return transaction is not None and not transaction.failed and row in transaction.finds(statement)


def row_matches(row, statement):
    return row.table == statement.table and all(matches(row.values[cond.column], cond.operator, cond.key) for cond in statement.conds)


def new_database():
    """Tables are empty at first, and transactions are numbered from 1."""
    return Database(1, {})


def reopened(database, output):
    """The store of the database is opened again, and the first begin of the output tells the next number. It is above that of each transaction that has committed; but begins
    that no sync followed are forgotten."""
    begun = re.search(r"^\w+ begun (\d+)$", output, re.M)
    told = int(begun.group(1)) if begun else database.next
    return Database(min(max(told, database.committed + 1), database.next), dict(database.table), committed=database.committed)


# ---- texts


def id_text(id):
    return f"{id.t}.{id.k}"


def row_text(row):
    return " ".join(["row", id_text(row.id), *map(value_text, row.values)])


def rows_texts(rows):
    """A line for each row, and one with their number."""
    return [*map(row_text, rows), f"rows {len(rows)}"]


def blocks_in(text):
    """The blocks of runs: of a single number, or of a first and a last one."""
    runs = [run.split("-") for run in re.findall(r"\d+(?:-\d+)?", text)]
    return {block for run in runs for block in range(int(run[0]), int(run[-1]) + 1)}


def blocks_text(blocks):
    """The runs of consecutive numbers."""
    runs = []
    for block in blocks:
        if runs and runs[-1][-1] == block - 1:
            runs[-1].append(block)
        else:
            runs.append([block])
    texts = [f"{run[0]}-{run[-1]}" if len(run) > 1 else f"{run[0]}" for run in runs]
    return " ".join(["blocks", *(texts or ["none"])])


MEMORY = "error 13"


# ---- statements


class Telling:
    """An entry that is told in a database: the session and its statement, what every session is to be answered next, and the answer without the session's name."""

    def __init__(self, store, database, asked, session, said):
        self.store = store
        self.database = database
        self.asked = asked
        self.session = session
        self.statement = asked[session]
        self.said = said

    def expect(self, *lines):
        if self.said != list(lines):
            raise Wrong(f"{self.session} {self.statement}\n  wanted: {list(lines)}\n  came:   {self.said}")

    @property
    def transaction(self):
        return self.database.transactions.get(self.session)

    def fails(self, *refusals):
        """Whether it is refused so; its transaction fails then."""
        if any(self.said == [refusal] for refusal in refusals):
            self.transaction.failed = True
            return True
        return False

    def tell(self):
        """The statement is refused, or told by what it does to the database."""
        refusal = self.refusal()
        if refusal:
            self.expect(refusal)
        else:
            getattr(self, self.statement.verb)()

    def refusal(self):
        """Why the statement isn't taken."""
        verb, block = self.statement.verb, self.statement.block
        if block is not None and block >= self.store.heap_blocks:
            return f"error 10 {self.store.heap_blocks}"
        if verb == "begin":
            return "error 5" if self.transaction else None
        if verb not in ("insert", "select", "delete", "commit", "rollback"):
            return None
        if not self.transaction:
            return "error 4"
        return "error 6" if self.transaction.failed and verb not in ("commit", "rollback") else None

    def begin(self):
        numbers = self.store.status_blocks * STATUS_ENTRIES
        if self.said == [MEMORY]:
            return
        if self.database.next == numbers:
            self.expect(f"error 8 status {numbers}")
            return
        self.expect(f"begun {self.database.next}")
        self.database.transactions[self.session] = Transaction(self.database.next, dict(self.database.table))
        self.database.next += 1

    def commit(self):
        transaction = self.database.transactions.pop(self.session)
        if transaction.failed:
            self.expect("rolled back")
        else:
            self.expect("committed")
            self.database.commit(transaction)

    def rollback(self):
        self.expect("rolled back")
        del self.database.transactions[self.session]

    def insert(self):
        """Requests that a full queue dropped may stand before the answer. Where an index has no room the row was put before."""
        self.pass_dropped()
        transaction, table = self.transaction, self.store.tables[self.statement.table]
        if self.fails(MEMORY, f"error 8 {table.name} {self.store.heap_blocks * table.rows_per_page}"):
            return
        id = RowId(transaction.t, transaction.puts)
        transaction.view[id] = Row(id, table.name, self.statement.values)
        transaction.puts += 1
        if not self.fails(*self.full_indexes(table.name)):
            self.expect(f"inserted {id_text(id)}")

    def pass_dropped(self):
        names = self.store.indexes_of(self.statement.table)
        while self.said and re.fullmatch(r"dropped \w+ \d+", self.said[0]) and self.said[0].split()[1] in names:
            del self.said[0]

    def full_indexes(self, table):
        """What is told where an index of the table has no room."""
        return [f"error 8 {name} {self.store.index_blocks}" for name in self.store.indexes_of(table)]

    def select(self):
        if not self.fails(MEMORY):
            self.expect(*rows_texts(self.transaction.finds(self.statement)))

    def delete(self):
        """It marks all that it finds, if none of that must conflict. Or it fails at the first row that must, or at an earlier one that may."""
        if self.fails(MEMORY):
            return
        database, transaction = self.database, self.transaction
        found = transaction.finds(self.statement)
        for row in found:
            conflict = f"error 7 {id_text(row.id)}"
            must = database.must_conflict(self.session, transaction, row)
            if must:
                self.expect(conflict)
            if (must or database.may_conflict(self.session, transaction, row, self.asked)) and self.fails(conflict):
                return
            transaction.mark(row)
        self.expect(f"deleted {len(found)}")

    def explain(self):
        """It is told blocks of a table, in order."""
        if self.said != [MEMORY]:
            self.expect_form(r"blocks none|blocks( \d+(-\d+)?)+")
            blocks = blocks_in(self.said[0])
            self.expect(blocks_text(sorted(block for block in blocks if block < self.store.heap_blocks)))

    def summarize(self):
        self.expect_form(r"summarized \d+", MEMORY, f"error 8 {self.statement.index} {self.store.index_blocks}")

    def desummarize(self):
        self.expect_form("desummarized [01]", MEMORY)

    def vacuum(self):
        self.expect_form(r"vacuumed rows \d+ orphans \d+ ranges \d+", MEMORY, *self.full_indexes(self.statement.table))

    def work(self):
        full = [refusal for table in self.store.tables for refusal in self.full_indexes(table)]
        done = [rf"worked {name} \d+ [01]" for name in self.store.indexes]
        self.expect_form("worked none", MEMORY, *done, *full)

    def expect_form(self, *forms):
        if len(self.said) != 1 or not any(re.fullmatch(form, self.said[0]) for form in forms):
            raise Wrong(f"{self.session} {self.statement} isn't answered {self.said}")


# ---- transcripts


def entries_of(lines):
    """The entries of which these are the lines: rows go with their number behind them, and requests that were dropped with the answer behind them."""
    entries = []
    begun = []
    for line in lines:
        session, _, said = line.partition(" ")
        begun.append((session, said))
        if not re.match(r"row |dropped ", said):
            entries.append(entry_of(begun))
            begun = []
    if begun:
        raise Wrong(f"the output ends within an entry: {begun}")
    return entries


def entry_of(parts):
    """An entry of these lines: all are of one session, but for requests that were dropped, which the program tells itself."""
    session = parts[-1][0]
    for name, said in parts:
        if name != ("-" if said.startswith("dropped ") else session):
            raise Wrong(f"lines of several sessions stand in one entry: {parts}")
    return Entry(session, [said for _, said in parts])


def lines_in(output):
    if output and not output.endswith("\n"):
        raise Wrong("the last line lacks its line feed")
    return output.split("\n")[:-1]


@dataclass
class Transcript:
    """What a right output leads to: the database behind it; the statement that each session would be answered next, if it has one; and the entries."""

    database: Database
    asked: dict
    entries: list


def transcript_of(store, database, script, output):
    """The transcript that the output is, or Wrong is raised. The database, from which it begins, becomes the one to which it leads."""
    sessions, unread = read_script(script, store)
    lines = lines_in(output)
    if lines[: len(unread)] != unread:
        raise Wrong(f"the lines that no worker has\n  wanted: {unread}\n  came:   {lines[: len(unread)]}")
    entries = entries_of(lines[len(unread) :])
    answered = dict.fromkeys(sessions, 0)
    for entry in entries:
        asked = next_statements(sessions, answered)
        if entry.session not in asked:
            raise Wrong(f"no line is left for {entry}")
        Telling(store, database, asked, entry.session, list(entry.lines)).tell()
        answered[entry.session] += 1
    return Transcript(database, next_statements(sessions, answered), entries)


def next_statements(sessions, answered):
    """By session its first statement that has no entry."""
    return {session: statements[answered[session]] for session, statements in sessions.items() if answered[session] < len(statements)}


def whole_transcript_of(store, database, script, output):
    """The same of an output in which every line of every session has its entry."""
    transcript = transcript_of(store, database, script, output)
    if transcript.asked:
        raise Wrong(f"lines without an entry: {transcript.asked}")
    return transcript
