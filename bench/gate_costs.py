#!/usr/bin/env python3
"""What the gate costs: processor minutes of each crate's proofs, tests and must-fail edits, as the page docs/gate.md.

    python3 bench/gate_costs.py [COMMAND ..] > docs/gate.md
    python3 bench/gate_costs.py --beside PROCESS

The first form runs the command at the top of the repository (by default `rt ci`, which proves all from nothing); what that prints goes to standard
error. The second form watches the checks below a process until it gets a SIGTERM: `.ci/run` has one beside it. Both look once a second. A check that
begins and ends between two looks isn't counted.
"""
import datetime
import os
import signal
import subprocess
import sys
import threading
import time

TICKS = os.sysconf("SC_CLK_TCK")
PAGE = os.sysconf("SC_PAGE_SIZE")
KINDS = ("proofs", "tests", "edits")


def processes():
    """Parent, processor seconds, bytes of memory and words of each process."""
    found = {}
    for entry in os.listdir("/proc"):
        if not entry.isdigit():
            continue
        try:
            with open(f"/proc/{entry}/stat") as file:
                fields = file.read().rsplit(")", 1)[1].split()
            with open(f"/proc/{entry}/cmdline") as file:
                words = file.read().split("\0")
        except OSError:
            continue
        found[int(entry)] = (int(fields[1]), (int(fields[11]) + int(fields[12])) / TICKS, int(fields[21]) * PAGE, words)
    return found


def descends(number, root, found):
    while number in found and number != root:
        number = found[number][0]
    return number == root


def check_of(number, words):
    """The crate and the kind of a check, or None."""
    if not words[0].endswith("/rattle") or "--crate-name" not in words:
        return None
    crate = words[words.index("--crate-name") + 1]
    try:
        folder = os.readlink(f"/proc/{number}/cwd")
    except OSError:
        return None
    if "/rt-edit-" in folder:
        return crate, "edits"
    return crate, "tests" if "--test" in words else "proofs"


def watch(root, ended):
    """Processor seconds of each check below the root, up to its end, and the most memory that one held."""
    seconds, most = {}, 0
    while not ended():
        found = processes()
        for number, (_, used, memory, words) in found.items():
            if descends(number, root, found):
                check = check_of(number, words)
                if check:
                    seconds[number, check] = used
                    most = max(most, memory)
        time.sleep(1)
    return seconds, most


def page(watched, minutes):
    """The page: what the run took in all, and each crate's row, dearest first."""
    seconds, most = watched
    costs = {}
    for (_, (crate, kind)), used in seconds.items():
        costs.setdefault(crate, dict.fromkeys(KINDS, 0.0))[kind] += used / 60
    sums = [sum(row[kind] for row in costs.values()) for kind in KINDS]
    rows = [("all", sums)] + [(crate, [row[kind] for kind in KINDS]) for crate, row in sorted(costs.items(), key=lambda it: -sum(it[1].values()))]
    print("# What the gate costs\n")
    print(f"Processor minutes, from nothing, on {len(os.sched_getaffinity(0))} processors, by `bench/gate_costs.py` on {datetime.date.today():%-d %B %Y}.")
    print(f"The run took {minutes:.0f} minutes, and its largest process {most / 1e9:.1f} GB of memory.")
    print("`rt run` in crates/brin takes nearly all of the column of proofs, and none of the others.\n")
    print("| crate | proofs | tests | edits | all |\n|---|---|---|---|---|")
    for crate, row in rows:
        print(f"| {crate} | " + " | ".join(f"{it:.1f}" if it else "" for it in row) + f" | {sum(row):.1f} |")


def main():
    began, words = time.time(), sys.argv[1:]
    if words[:1] == ["--beside"]:
        stopped = threading.Event()
        signal.signal(signal.SIGTERM, lambda *_: stopped.set())
        page(watch(int(words[1]), stopped.is_set), (time.time() - began) / 60)
        return 0
    child = subprocess.Popen(words or ["rt", "ci"], stdout=sys.stderr)
    page(watch(child.pid, lambda: child.poll() is not None), (time.time() - began) / 60)
    return child.returncode


sys.exit(main())
