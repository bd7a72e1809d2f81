#!/usr/bin/env python3
"""Refuses memory to the built program: refused_memory.py PROGRAM. No part of the gate.

Runs three scripts over files, each once for each of its allocations: that one is refused, and no other. Such a run ends with 7, or answers a statement
with error 13. A further run finds the rows of the commits that were answered, or those with the commit in hand; where nothing was answered, there may
be no store. Tells how many runs there were, or the first that does otherwise. Needs `rt`, whose clang it takes, and glibc.
"""
import os
import pathlib
import shutil
import subprocess
import sys
import tempfile

KIT = pathlib.Path(os.path.realpath(shutil.which("rt") or sys.exit("there is no rt on the path"))).parent.parent

# Refuses the allocation of the number REFUSED, and ends with NEVER where there are fewer.
REFUSES = """
extern void *__libc_malloc(unsigned long), *__libc_realloc(void *, unsigned long);
extern char *getenv(const char *);
extern long atol(const char *);
extern void _exit(int);
static long left;
static int refused(void) { return left > 0 && --left == 0; }
void *malloc(unsigned long size) { return refused() ? 0 : __libc_malloc(size); }
void *realloc(void *old, unsigned long size) { return refused() ? 0 : __libc_realloc(old, size); }
__attribute__((constructor)) static void begin(void) { left = atol(getenv("REFUSED")); }
__attribute__((destructor)) static void end(void) { if (left > 0) _exit(NEVER); }
"""
NEVER = 99

SMALL = ["--heap-blocks=8", "--index-blocks=4", "table t(a int8) rows_per_page 2", "index i on t(a minmax) pages_per_range 1"]
WIDE = ["--heap-blocks=2100", "--index-blocks=16", "table t(a int8) rows_per_page 1", "index i on t(a minmax) pages_per_range 2"]
SIZES = ["--status-blocks=1", "--log-pages=16"]

COMMIT = ["s1 begin", "s1 insert t 5", "s1 select t where a = 5", "s1 commit"]
PASS = ["s1 begin", "s1 insert t 5", "s1 commit", "m start summarize i", *["m step"] * 6, "s1 begin", "s1 insert t 99", "m finish", "s1 commit"]
PASS += ["s2 begin", "s2 select t where a = 99", "s2 explain t where a = 7", "s2 explain t where a = 100"]
GROWTH = ["s1 begin", *(f"s1 insert t {n}" for n in range(2040)), "s1 commit", "m summarize i", "s1 begin", "s1 insert t 2040"]
GROWTH += ["s1 delete t where a = 0", "s1 commit", "m vacuum t", "m start summarize i 2040", *["m step"] * 4, "s1 begin", "s1 start insert t -7"]
GROWTH += [*["s1 step"] * 4, "m finish", "s1 step", "s1 finish", "s1 commit", "s1 explain t where a = -7"]

# The words and the script.
CASES = {
    "an insert, a select and a commit": (SMALL, COMMIT),
    "an insert during a pass": (SMALL, PASS),
    "a growth of the map": (WIDE, GROWTH),
}


def end(words, script, **more):
    """The status and the output of a run of the script."""
    run = subprocess.run(words, input="\n".join(script) + "\n", capture_output=True, text=True, timeout=60, **more)
    return run.returncode, run.stdout


def tables(script, output):
    """The rows of the commits that were answered, and those with the one in hand, where the first line that isn't answered is a commit; s1 alone writes."""
    replies = (line for line in output.splitlines() if " row " not in line)
    rows, mine, value = {}, {}, None
    for line in script:
        session, *said = line.split()
        value = said[-1] if "insert" in said else value
        told = next(replies, None)
        if told is None:
            return [rows, mine] if said == ["commit"] else [rows]
        kind, *rest = told.split()[1:] if session == "s1" else [None]
        if kind == "begun":
            mine = dict(rows)
        elif kind == "inserted":
            mine[rest[0]] = value
        elif kind == "deleted" and rest == ["1"]:
            del mine["1.0"]
        elif kind == "committed":
            rows = mine
    return [rows]


def fault(program, refuses, store, case, number):
    """What the run does otherwise whose allocation of that number is refused, if anything; NEVER where it makes fewer."""
    words, script = case
    store.unlink(missing_ok=True)
    refused = {"LD_PRELOAD": str(refuses), "REFUSED": str(number)}
    status, output = end([program, store, "run", *SIZES, *words], script, env=refused)
    if status == NEVER:
        return NEVER
    if status != 7 and (status != 0 or " error 13\n" not in output):
        return f"status {status}, without error 13"
    status, seen = end([program, store, "run"], ["z begin", "z select t"])
    if status == 9 and not output:
        return None
    rows = dict(line.split()[2:] for line in seen.splitlines() if line.startswith("z row "))
    return None if status == 0 and rows in tables(script, output) else f"behind it status {status} and {len(rows)} rows"


def main():
    if len(sys.argv) != 2:
        sys.exit(__doc__)
    with tempfile.TemporaryDirectory() as folder:
        source, refuses = pathlib.Path(folder, "refuses.c"), pathlib.Path(folder, "refuses.so")
        source.write_text(REFUSES.replace("NEVER", str(NEVER)))
        clang = KIT / "toolchain" / "bin" / "clang"
        subprocess.run([clang, "-shared", "-fPIC", "-O2", "-nostdlib", "-fuse-ld=lld", "-o", refuses, source], check=True)
        for name, case in CASES.items():
            number = 1
            while (found := fault(sys.argv[1], refuses, pathlib.Path(folder, "store"), case, number)) is None:
                number += 1
            if found != NEVER:
                sys.exit(f"{name}: allocation {number}: {found}")
            print(f"{name}: {number - 1} runs hold")


main()
