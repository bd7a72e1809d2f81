#!/usr/bin/env python3
"""Checks a built program over real files: check_file.py [PROGRAM] (crates/brin/out/brin, if none is named).

What the proofs say nothing of: closed standard streams, two runs at once, folders, pipes and devices in place of files, full disks, limits and
killed runs. Statuses and texts are those of docs/reference.md. Prints how many cases hold, or the first that doesn't, and then ends with 1. A case
that this machine can't make is named and left out.
"""
import fcntl
import os
import pathlib
import resource
import shutil
import signal
import subprocess
import sys
import tempfile

TOP = pathlib.Path(__file__).resolve().parent.parent
SECONDS = 10
NOBODY = 65534

TEXTS = {
    0: "",
    2: "brin: usage\n",
    4: "brin: read fault\n",
    5: "brin: write fault\n",
    6: "brin: disk fault\n",
    7: "brin: out of memory\n",
    8: "brin: spent\n",
    9: "brin: no store\n",
    11: "brin: damaged\n",
}

SIZES = ["--heap-blocks=8", "--index-blocks=4", "--status-blocks=1", "--log-pages=16"]
DECLARED = [*SIZES, "table t(a int8) rows_per_page 2", "index i on t(a minmax) pages_per_range 1"]
SIZE = 376832

COMMANDS = {
    "init": ["init", *DECLARED],
    "new run": ["run", *DECLARED],
    "run": ["run"],
    "demo": ["demo", "--seed", "1", "--rows", "16"],
    "new threads": ["threads", *DECLARED],
    "threads": ["threads"],
}

PUT = "s begin\ns insert t {}\ns commit\n"
LOOK = "s begin\ns select {}\n"

# Sessions that each put a row, and look for it in a further transaction: with the rows that they put.
WORKERS = {"s1": 1, "s2": 2, "s3": 3}
AT_WORK = ["begin", "insert t {}", "commit", "begin", "select t where a = {}", "commit"]

# Each command with closed streams: its status; the rows behind it of a store that had row 7, where the script puts row 8; and those of a file that
# was absent. A script can't be read from a closed input (4), and its first answer can't be written to a closed output (5); `init` does neither, and a
# demo only writes. The rows of a demo are counted; it has them all before it writes, and so has `threads`.
CLOSED = [
    ("init", [0], 0, [], []),
    ("init", [1], 0, [], []),
    ("init", [2], 0, [], []),
    ("init", [0, 1, 2], 0, [], []),
    ("new run", [0], 4, [], []),
    ("new run", [1], 5, [], []),
    ("new run", [2], 0, ["8"], ["8"]),
    ("new run", [0, 1, 2], 4, [], []),
    ("run", [0], 4, ["7"], None),
    ("run", [1], 5, ["7"], None),
    ("run", [2], 0, ["7", "8"], None),
    ("run", [0, 1, 2], 4, ["7"], None),
    ("new threads", [0], 4, [], []),
    ("new threads", [1], 5, ["8"], ["8"]),
    ("threads", [0], 4, ["7"], None),
    ("threads", [1], 5, ["7", "8"], None),
    ("threads", [2], 0, ["7", "8"], None),
    ("demo", [0], 0, None, 16),
    ("demo", [1], 5, None, 16),
    ("demo", [2], 0, None, 16),
    ("demo", [0, 1, 2], 5, None, 16),
]


class Difference(Exception):
    pass


class Check:
    """A program, a folder for its files, and how many cases held."""

    def __init__(self, program, folder):
        self.program = folder / "brin"
        shutil.copy(program, self.program)
        self.folder = folder
        self.held = 0
        self.files = 0
        self.stored = folder / "stored"
        self.same("a store is made", self.end(self.stored, "new run", PUT.format(7)), (0, "s begun 1\ns inserted 1.0\ns committed\n", ""))

    def same(self, name, came, wanted):
        if came != wanted:
            raise Difference(f"{name}\n  wanted: {wanted!r}\n  came:   {came!r}")
        self.held += 1

    def path(self):
        """The path of an absent file."""
        self.files += 1
        return self.folder / f"file{self.files}"

    def copy(self):
        """A store with the row 7."""
        return shutil.copy(self.stored, self.path())

    def words(self, path, command):
        given = command if isinstance(command, list) else COMMANDS.get(command, [command])
        return [self.program, *([] if path is None else [path, *given])]

    def end(self, path, command, script="", **more):
        """The status, output and text of a run that reads the script."""
        said = {"stdin": subprocess.PIPE, "stdout": subprocess.PIPE, "stderr": subprocess.PIPE, **more}
        run = subprocess.Popen(self.words(path, command), **said)
        try:
            output, text = run.communicate(script.encode() if said["stdin"] == subprocess.PIPE else None, SECONDS)
        except subprocess.TimeoutExpired:
            run.kill()
            run.communicate()
            return (f"no end in {SECONDS} seconds",)
        return run.returncode, (output or b"").decode(), (text or b"").decode()

    def holder(self, path, command):
        """A run that is open and has begun a transaction."""
        run = subprocess.Popen(self.words(path, command), stdin=subprocess.PIPE, stdout=subprocess.PIPE, stderr=subprocess.PIPE, text=True)
        print("s begin", file=run.stdin, flush=True)
        run.stdout.readline()
        return run

    def rows(self, path, table="t"):
        """The first values of the rows that a further run shows, or how it ended."""
        status, output, text = self.end(path, "run", LOOK.format(table))
        lines = [line.split() for line in output.splitlines()]
        values = [line[3] for line in lines if line[1] == "row"]
        return values if (status, text, lines[-1:]) == (0, "", [["s", "rows", str(len(values))]]) else (status, output, text)


def failed(status, output=""):
    return status, output, TEXTS[status]


def closed_streams(check):
    for command, closed, status, kept, made in CLOSED:
        for path, wanted in ((check.copy(), kept), (check.path(), made)):
            if wanted is None:
                continue
            name = f"{command} with closed descriptors {closed}, {'over a store' if wanted is kept else 'of a new file'}"
            came = check.end(path, command, PUT.format(8), preexec_fn=lambda: [os.close(number) for number in closed])
            text = "" if 2 in closed else TEXTS[status]
            check.same(f"{name}: status and text", (came[0], came[-1]), (status, text))
            rows = check.rows(path, "d" if command == "demo" else "t")
            check.same(f"{name}: rows behind it", len(rows) if command == "demo" else rows, wanted)


def two_runs(check):
    for first in ("run", "new run"):
        for second in COMMANDS:
            path = check.copy()
            held = check.holder(path, first)
            before = path.read_bytes()
            check.same(f"{second} beside {first}", check.end(path, second, PUT.format(8)), failed(6))
            check.same(f"{second} beside {first}: the file", path.read_bytes() == before, True)
            try:
                output = held.communicate("s insert t 9\ns commit\n", SECONDS)[0]
            except subprocess.TimeoutExpired:
                held.kill()
                output = "no end"
            check.same(f"{first} beside {second}: goes on", (held.returncode, output.split()[-2:]), (0, ["s", "committed"]))
            check.same(f"{first} beside {second}: rows", check.rows(path), ["7", "9"] if first == "run" else ["9"])


def locked_files(check):
    for command in COMMANDS:
        empty = check.path()
        with open(empty, "wb") as file:
            fcntl.flock(file, fcntl.LOCK_EX)
            check.same(f"{command} of a locked empty file", check.end(empty, command), failed(6))
        check.same(f"{command} of a locked empty file: its size", empty.stat().st_size, 0)
    path = check.copy()
    os.link(path, other := check.path())
    held = check.holder(path, "run")
    check.same("run of a held file by another name", check.end(other, "run"), failed(6))
    held.communicate()
    path = check.copy()
    held = check.holder(path, "run")
    held.send_signal(signal.SIGKILL)
    held.communicate()
    check.same("rows behind a killed run", check.rows(path), ["7"])


def odd_files(check):
    check.same("no word", check.end(None, ""), failed(2))
    absent = check.path()
    check.same("run of an absent file", (check.end(absent, "run"), absent.stat().st_size), (failed(9), 0))
    absent = check.path()
    check.same("a mistyped command", (check.end(absent, "runn"), absent.stat().st_size), (failed(2), 0))
    absent = check.path()
    check.same("a word that is no UTF-8", (check.end(absent, b"\xff"), absent.exists()), (failed(2), False))
    other = check.path()
    other.write_bytes(bytes(8192))
    check.same("init of a file of another size", (check.end(other, "init"), other.read_bytes()), (failed(9), bytes(8192)))
    check.same("a store in a missing folder", check.end(check.path() / "store", "init"), failed(6))
    check.same("a path behind a file", check.end(check.stored / "store", "init"), failed(6))
    pipe = check.path()
    os.mkfifo(pipe)
    for command in COMMANDS:
        check.same(f"{command} of a folder", check.end(check.folder, command), failed(6))
        check.same(f"{command} of a named pipe", check.end(pipe, command), failed(6))
    check.same("init of /dev/null", check.end("/dev/null", "init"), failed(6))
    os.symlink(check.stored, linked := check.path())
    check.same("a symbolic link to a store", check.rows(linked), ["7"])


def unprivileged(check):
    """What a user without rights is answered."""
    user = {"user": NOBODY, "group": NOBODY, "extra_groups": []} if os.geteuid() == 0 else {}
    try:
        check.same("no word of such a user", check.end(None, "", **user), failed(2))
    except OSError as error:
        print(f"left out: a user without rights, as {error}")
        return
    path = check.copy()
    path.chmod(0o444)
    for command in COMMANDS:
        check.same(f"{command} of a read-only file", check.end(path, command, PUT.format(8), **user), failed(6))
    check.same("rows of a read-only file", path.read_bytes(), check.stored.read_bytes())
    folder = check.path()
    folder.mkdir()
    if user:
        os.chown(folder, NOBODY, NOBODY)
    folder.chmod(0o300)
    check.same("a new store in a folder that can't be read, and so not be synced", check.end(folder / "store", "init", **user), failed(6))
    folder.chmod(0o700)
    check.same("its file", (folder / "store").stat().st_size, 0)
    check.same("a new store in a folder of one's own", check.end(folder / "store", "init", **user), failed(0))


def odd_streams(check):
    path = check.copy()
    with open("/dev/full", "wb") as full:
        check.same("answers to a full device", check.end(path, "run", PUT.format(8), stdout=full), failed(5))
    check.same("rows behind a full device", check.rows(path), ["7"])
    reader, writer = os.pipe()
    os.close(reader)
    check.same("answers to a pipe that nobody reads", check.end(path, "run", PUT.format(8), stdout=writer), failed(5))
    os.close(writer)
    check.same("rows behind a pipe that nobody reads", check.rows(path), ["7"])
    folder = os.open(check.folder, os.O_RDONLY)
    check.same("a folder as script", check.end(path, "run", stdin=folder), failed(4))
    os.close(folder)
    check.same("rows behind a folder as script", check.rows(path), ["7"])


def ends_of_its_own(check):
    """The ends that a run comes to by what it reads, by want of memory, and at a limit of its own."""
    path = check.copy()
    with open(path, "r+b") as file:
        file.seek(8193)
        file.write(bytes([255] * 4))
    check.same("a store whose first frame has another length", check.end(path, "run"), failed(11))
    narrow = lambda: resource.setrlimit(resource.RLIMIT_AS, (1 << 28, 1 << 28))
    wide = ["run", "--frames=65536", *DECLARED]
    check.same("frames of 512 MiB in 256 MiB of memory", check.end(check.path(), wide, preexec_fn=narrow), failed(7))
    # A begin and a rollback are a request each, and a run takes 1048576.
    many = ["run", "--heap-blocks=1", "--status-blocks=17", "--log-pages=16", "table t(a int8)"]
    came = check.end(check.path(), many, "s begin\ns rollback\n" * 524289)
    check.same("more requests than a run takes", (came[0], came[-1]), (8, TEXTS[8]))


def threads_keep_each_session_in_order(check):
    """Whatever the order in which the workers come on: each session has its answers in the order of its lines, and each row that was put is there."""
    sessions = {name: [line.format(value) for line in AT_WORK] for name, value in WORKERS.items()}
    script = "".join(f"{name} {lines[turn]}\n" for turn in range(len(AT_WORK)) for name, lines in sessions.items()) + "m summarize i\nm summarize i\n"
    for turn in range(20):
        path = check.path()
        status, output, text = check.end(path, "new threads", script)
        check.same(f"workers, turn {turn}: status and text", (status, text), (0, ""))
        told = [line.split() for line in output.splitlines()]
        for name, value in WORKERS.items():
            came = [words[1:] for words in told if words[0] == name]
            begun = [words[1] for words in came if words[0] == "begun"]
            put, looked = begun if len(begun) == 2 else ["0", "0"]
            wanted = [["begun", put], ["inserted", f"{put}.0"], ["committed"], ["begun", looked], ["row", f"{put}.0", str(value)], ["rows", "1"], ["committed"]]
            check.same(f"workers, turn {turn}: {name}", (came, int(put) < int(looked)), (wanted, True))
        check.same(f"workers, turn {turn}: m", [words[1] for words in told if words[0] == "m"], ["summarized", "summarized"])
        check.same(f"workers, turn {turn}: no other line", len(told), 7 * len(WORKERS) + 2)
        check.same(f"workers, turn {turn}: rows", sorted(check.rows(path)), ["1", "2", "3"])
        further = check.end(path, "threads", "s begin\ns step\ns commit\n")
        check.same(f"workers, turn {turn}: a further run", (further[0], [line.split()[:2] for line in further[1].splitlines()]), (0, [["-", "error"], ["s", "begun"], ["s", "committed"]]))


def limit(size, ignored):
    """Sets a limit to the size of files."""
    if ignored:
        signal.signal(signal.SIGXFSZ, signal.SIG_IGN)
    resource.setrlimit(resource.RLIMIT_CORE, (0, 0))
    resource.setrlimit(resource.RLIMIT_FSIZE, (size, size))


def limited_files(check):
    for ignored in (True, False):
        ends = failed(6) if ignored else (-signal.SIGXFSZ, "", "")
        name = f"a limit of file size, its signal {'ignored' if ignored else 'as it is'}"
        path = check.path()
        check.same(f"a new store under {name}", check.end(path, "init", preexec_fn=lambda: limit(100000, ignored)), ends)
        check.same(f"its file under {name}", path.stat().st_size, 0)
        path = check.copy()
        status, output, _ = check.end(path, "run", PUT.format(8), preexec_fn=lambda: limit(8192, ignored))
        check.same(f"a commit under {name}", (status, "committed" in output), (ends[0], False))
        check.same(f"rows under {name}", check.rows(path), ["7"])


def has_room(path):
    """Each byte of the file has its room."""
    return path.stat().st_blocks * 512 >= path.stat().st_size


def keeps_zeros(folder):
    """The file system takes room for zeros that are written."""
    path = folder / "zeros"
    with open(path, "wb") as file:
        file.write(bytes(1 << 20))
        os.fsync(file.fileno())
    return has_room(path)


def new_files(check):
    if not keeps_zeros(check.folder):
        print("left out: the room of a new store, as this file system takes none for zeros")
        return
    for command in ("init", "new run", "new threads", "demo"):
        path = check.path()
        check.end(path, command)
        check.same(f"the room of a new store of {command}", has_room(path), True)


def full_disks(check):
    disk = check.path()
    disk.mkdir()
    if os.geteuid() or subprocess.run(["mount", "-t", "tmpfs", "-o", "size=1m", "none", disk], capture_output=True).returncode:
        print("left out: a full disk, as no file system can be mounted")
        return
    try:
        store, filler = disk / "store", disk / "filler"
        # Less than the log's room is free, then less than the store's, and at last the store's alone.
        for free in (100000, 300000):
            fill(filler, free)
            check.same(f"a new store where {free} bytes are free", check.end(store, "init")[0], 6)
            check.same(f"a further run where {free} bytes were free", check.end(store, "run"), failed(9))
            store.unlink()
        fill(filler, 400000)
        check.same("a new store on a small disk", check.end(store, "init"), failed(0))
        fill(filler, 0)
        script = "".join(PUT.format(n % 7) + f"s begin\ns delete t where a = {n % 7}\ns commit\nm vacuum t\n" for n in range(60))
        status, output, text = check.end(store, "run", script)
        check.same("commits on a full disk", (status, output.count("s committed"), text), (0, 120, ""))
        check.same("rows on a full disk", check.rows(store), [])
    finally:
        subprocess.run(["umount", disk], check=True)


def fill(filler, free):
    """Fills the filler's disk but for so many bytes."""
    filler.unlink(missing_ok=True)
    disk = os.statvfs(filler.parent)
    filler.write_bytes(bytes(max(0, disk.f_bavail * disk.f_bsize - free)))


CASES = [closed_streams, two_runs, locked_files, odd_files, unprivileged, odd_streams, ends_of_its_own, threads_keep_each_session_in_order, limited_files, new_files, full_disks]


def main():
    program = pathlib.Path(sys.argv[1]) if len(sys.argv) > 1 else TOP / "crates" / "brin" / "out" / "brin"
    with tempfile.TemporaryDirectory() as folder:
        os.chmod(folder, 0o755)
        try:
            check = Check(program, pathlib.Path(folder))
            for cases in CASES:
                cases(check)
        except Difference as difference:
            sys.exit(f"{program}: {difference}")
    print(f"{check.held} cases hold")


main()
