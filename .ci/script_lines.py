"""What declarations and the plain lines of a script say: written from docs/reference.md, and apart from the program's own readers.

A text is held as latin-1, so that each of its characters is one byte. The value null is None, an int8 is an int, an int8range is a Span, and an inet a Net.
"""
import re
from collections import namedtuple

LONGEST_LINE = 65535
MOST_SESSIONS = 64
MOST_CONDITIONS = 16
PAST_BLOCKS = 1 << 32
LEAST, GREATEST = -(1 << 63), (1 << 63) - 1

Table = namedtuple("Table", "name columns rows_per_page")
Index = namedtuple("Index", "name table")
Column = namedtuple("Column", "place kind")

Word = namedtuple("Word", "text at")
Cond = namedtuple("Cond", "column operator key")
Statement = namedtuple("Statement", "verb table values conds index block", defaults=(None,) * 5)
Script = namedtuple("Script", "sessions unread")

Span = namedtuple("Span", "lower upper")
Net = namedtuple("Net", "address prefix")
EMPTY = Span(0, 0)

OPERATORS = {
    "int8": ["<", "<=", "=", ">=", ">"],
    "int8range": ["=", "&&", "@>", "<@", "<<", ">>", "&<", "&>", "-|-"],
    "inet": ["=", "&&", "<<", ">>", "<<=", ">>="],
}


class Store(namedtuple("Store", "tables indexes heap_blocks index_blocks status_blocks")):
    """What is declared, and the sizes."""

    def indexes_of(self, table):
        """The names of the table's indexes."""
        return [index.name for index in self.indexes.values() if index.table == table]


class Fault(Exception):
    """A line isn't read: the number of the error, and the byte at which the word at fault begins."""

    def __init__(self, number, at):
        super().__init__(number, at)
        self.text = f"- error {number} {at}"


# ---- declarations


def store_of(declarations, heap_blocks, index_blocks, status_blocks):
    """The tables and indexes that the declarations name, with these sizes; each table has its rows_per_page written out."""
    tables = {}
    indexes = {}
    for words in declarations:
        sort, name, rest = re.fullmatch(r"(table|index) (\w+)(.*)", words).groups()
        if sort == "table":
            tables[name] = table_of(name, rest)
        else:
            indexes[name] = Index(name, re.match(r" on (\w+)\(", rest).group(1))
    return Store(tables, indexes, heap_blocks, index_blocks, status_blocks)


def table_of(name, rest):
    columns, rows = re.fullmatch(r"\((.*)\) rows_per_page (\d+)", rest).groups()
    named = [column.split() for column in columns.split(",")]
    return Table(name, {column: Column(place, kind) for place, (column, kind) in enumerate(named)}, int(rows))


# ---- values


def value_in(text):
    """The kind and the value of the text; None where it is no text of a value. A null is of every kind."""
    if text == "null":
        return (None, None)
    for kind, read in (("int8", int8_in), ("int8range", span_in), ("inet", net_in)):
        value = read(text)
        if value is not None:
            return (kind, value)
    return None


def int8_in(text):
    if re.fullmatch("-?[0-9]+", text) and LEAST <= int(text) <= GREATEST:
        return int(text)
    return None


def span_in(text):
    """The canonical form: the lower bound belongs to the range, and the upper one doesn't; None is no bound."""
    if text == "empty":
        return EMPTY
    parts = re.fullmatch(r"([\[(])(-?[0-9]+)?,(-?[0-9]+)?([\])])", text)
    if not parts:
        return None
    opens, lower, upper, closes = parts.groups()
    bounds = [None if bound is None else int8_in(bound) for bound in (lower, upper)]
    if (lower is not None and bounds[0] is None) or (upper is not None and bounds[1] is None):
        return None
    return canonical_span(bounds[0], bounds[1], opens == "[", closes == "]")


def canonical_span(lower, upper, has_lower, has_upper):
    if lower is not None and upper is not None:
        if lower > upper:
            return None
        if lower == upper and not (has_lower and has_upper):
            return EMPTY
    if lower is not None and not has_lower:
        lower += 1
    if upper is not None and has_upper:
        upper += 1
    if GREATEST + 1 in (lower, upper):
        return None
    return EMPTY if lower is not None and lower == upper else Span(lower, upper)


def net_in(text):
    parts = re.fullmatch(r"(\d+)\.(\d+)\.(\d+)\.(\d+)(?:/(\d+))?", text, re.ASCII)
    if not parts or any(re.match("0[0-9]", part) for part in parts.groups() if part):
        return None
    *numbers, prefix = [32 if part is None else int(part) for part in parts.groups()]
    if max(numbers) > 255 or prefix > 32:
        return None
    return Net(int.from_bytes(bytes(numbers), "big"), prefix)


def value_text(value):
    if value is None:
        return "null"
    if isinstance(value, Span):
        return span_text(value)
    if isinstance(value, Net):
        return net_text(value)
    return str(value)


def span_text(span):
    if span == EMPTY:
        return "empty"
    lower = "(" if span.lower is None else f"[{span.lower}"
    upper = ")" if span.upper is None else f"{span.upper})"
    return f"{lower},{upper}"


def net_text(net):
    address = ".".join(str(byte) for byte in net.address.to_bytes(4, "big"))
    return address if net.prefix == 32 else f"{address}/{net.prefix}"


# ---- what matches


def matches(value, operator, key):
    """Whether a column's value meets the condition. Nothing but `is null` holds of a null, and nothing at all of a null key."""
    if operator == "is null":
        return value is None
    if operator == "is not null":
        return value is not None
    if value is None or key is None:
        return False
    if isinstance(value, Span):
        return span_matches(value, operator, key)
    if isinstance(value, Net):
        return net_matches(value, operator, key)
    return number_matches(value, operator, key)


def number_matches(value, operator, key):
    return {"<": value < key, "<=": value <= key, "=": value == key, ">=": value >= key, ">": value > key}[operator]


def span_matches(value, operator, key):
    if operator == "=":
        return value == key
    if operator == "@>":
        return contains(value, key)
    if operator == "<@":
        return contains(key, value)
    if EMPTY in (value, key):
        return False
    return {
        "&&": not is_before(value, key) and not is_before(key, value),
        "<<": is_before(value, key),
        ">>": is_before(key, value),
        "&<": ends_within(value, key),
        "&>": begins_within(value, key),
        "-|-": meets(value, key) or meets(key, value),
    }[operator]


def contains(outer, inner):
    """Each number of the inner range is in the outer one."""
    return inner == EMPTY or (outer != EMPTY and begins_within(inner, outer) and ends_within(inner, outer))


def is_before(one, other):
    return one.upper is not None and other.lower is not None and one.upper <= other.lower


def meets(one, other):
    return one.upper is not None and one.upper == other.lower


def ends_within(one, other):
    return other.upper is None or (one.upper is not None and one.upper <= other.upper)


def begins_within(one, other):
    return other.lower is None or (one.lower is not None and one.lower >= other.lower)


def net_matches(value, operator, key):
    return {
        "=": value == key,
        "<<=": is_in(value, key),
        "<<": is_in(value, key) and value.prefix > key.prefix,
        ">>=": is_in(key, value),
        ">>": is_in(key, value) and key.prefix > value.prefix,
        "&&": is_in(value, key) or is_in(key, value),
    }[operator]


def is_in(inner, outer):
    """The inner network lies in the outer one, or is that one."""
    apart = 32 - outer.prefix
    return inner.prefix >= outer.prefix and inner.address >> apart == outer.address >> apart


# ---- lines


class Words:
    """The words of a line, which are taken one after the other. A word that doesn't fit where it stands is at fault, and so is one that is missing."""

    def __init__(self, line):
        self.left = [Word(found.group(), found.start()) for found in re.finditer("[^ ]+", line)]
        self.length = len(line)

    def take(self, fits):
        if not self.left:
            raise Fault(1, self.length)
        word = self.left.pop(0)
        if not fits(word.text):
            raise Fault(1, word.at)
        return word

    def end(self):
        if self.left:
            raise Fault(1, self.left[0].at)


def is_name(text):
    return re.fullmatch("[a-z][a-z0-9_]{0,15}", text) is not None


def is_value(text):
    return value_in(text) is not None


def is_operator(text):
    return text == "is" or any(text in operators for operators in OPERATORS.values())


def is_block(text):
    return re.fullmatch("[0-9]+", text) is not None and int(text) < PAST_BLOCKS


def read_line(line, store):
    """The session and the statement of a line; None where it says nothing. The words of the whole line are judged first, and then what they name."""
    if len(line) > LONGEST_LINE:
        raise Fault(1, LONGEST_LINE)
    words = Words(line)
    if not words.left or words.left[0].text.startswith("#"):
        return None
    session = words.take(is_name).text
    verb = words.take(VERBS.__contains__).text
    read, name = VERBS[verb]
    parts = read(words)
    return session, Statement(verb, **name(store, words.length, *parts))


def nothing(words):
    words.end()
    return ()


def row_words(words):
    table = words.take(is_name)
    values = []
    while words.left:
        values.append(words.take(is_value))
    return table, values


def query_words(words):
    table = words.take(is_name)
    conds = []
    while words.left:
        announces = "and" if conds else "where"
        words.take(lambda text: text == announces and len(conds) < MOST_CONDITIONS)
        conds.append(cond_words(words))
    return table, conds


def cond_words(words):
    """The words for the column, the operator and the key; a test for null has no key."""
    column = words.take(is_name)
    operator = words.take(is_operator)
    if operator.text != "is":
        return column, operator, words.take(is_value)
    if words.take(("not", "null").__contains__).text == "null":
        return column, Word("is null", operator.at), None
    words.take(lambda text: text == "null")
    return column, Word("is not null", operator.at), None


def index_words(words):
    index = words.take(is_name)
    block = words.take(is_block) if words.left else None
    words.end()
    return index, block


def index_and_block_words(words):
    parts = words.take(is_name), words.take(is_block)
    words.end()
    return parts


def table_words(words):
    table = words.take(is_name)
    words.end()
    return (table,)


def no_parts(store, length):
    return {}


def row_parts(store, length, table, words):
    columns = named(store.tables, table, 2).columns
    values = [value_of_kind(word, column.kind) for word, column in zip(words, columns.values())]
    if len(words) < len(columns):
        raise Fault(3, length)
    if len(words) > len(columns):
        raise Fault(3, words[len(columns)].at)
    return {"table": table.text, "values": tuple(values)}


def query_parts(store, length, table, words):
    columns = named(store.tables, table, 2).columns
    return {"table": table.text, "conds": [cond_of(columns, *cond) for cond in words]}


def cond_of(columns, column, operator, key):
    place, kind = named(columns, column, 3)
    if key is None:
        return Cond(place, operator.text, None)
    if operator.text not in OPERATORS[kind]:
        raise Fault(3, operator.at)
    return Cond(place, operator.text, value_of_kind(key, kind))


def index_parts(store, length, index, block=None):
    named(store.indexes, index, 9)
    return {"index": index.text, "block": None if block is None else int(block.text)}


def table_parts(store, length, table):
    named(store.tables, table, 2)
    return {"table": table.text}


def named(things, word, number):
    if word.text not in things:
        raise Fault(number, word.at)
    return things[word.text]


def value_of_kind(word, kind):
    found, value = value_in(word.text)
    if found not in (None, kind):
        raise Fault(3, word.at)
    return value


# By verb: how the words behind it are read, and what they name.
VERBS = {
    "begin": (nothing, no_parts),
    "commit": (nothing, no_parts),
    "rollback": (nothing, no_parts),
    "insert": (row_words, row_parts),
    "select": (query_words, query_parts),
    "delete": (query_words, query_parts),
    "explain": (query_words, query_parts),
    "summarize": (index_words, index_parts),
    "desummarize": (index_and_block_words, index_parts),
    "vacuum": (table_words, table_parts),
    "work": (nothing, no_parts),
}


# ---- scripts


def read_script(script, store):
    """By the name of its session the statements of each worker, in order; and the texts of the lines that no worker has."""
    sessions = {}
    unread = []
    for line in script.split("\n"):
        try:
            said = read_line(line, store)
        except Fault as fault:
            unread.append(fault.text)
            continue
        if said is None:
            continue
        session, statement = said
        if session not in sessions and len(sessions) == MOST_SESSIONS:
            unread.append(f"{session} error 10 {MOST_SESSIONS}")
        else:
            sessions.setdefault(session, []).append(statement)
    return Script(sessions, unread)
