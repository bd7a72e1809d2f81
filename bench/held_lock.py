#!/usr/bin/env python3
"""Times how long a worker of `threads` holds the lock: held_lock.py PROGRAM [--rows N] [--rounds N]. No part of the gate.

The lock is held for one call of the Stepper (session_stepper): a line is submitted, a job is taken, or one step is made. Builds a small program by LLVM at -O2 that makes these
calls itself, one after the other in one thread, over a store in a file, and times each: so nobody waits, and taking and giving back the lock isn't in it. The program isn't proved,
so it has the checks of `rt try` in it, and a proved one is somewhat faster. PROGRAM makes the store. The script puts N rows (2000) of `t(a int8)`, whose minmax index is summarised between; then it selects
one row and all, explains, deletes a tenth, vacuums and rolls back. Tells of each statement and kind of call how many there were, and the middle, the 99th of a hundred and the
longest time, of all rounds (3); and how much of all held time it takes. A step that flushes or writes a checkpoint has two syncs or more: these are the longest.
"""
import argparse
import collections
import os
import pathlib
import shutil
import statistics
import subprocess
import tempfile

from unproved import HERE, build

NEEDED = "held_bench: block_model disk_trait io_traits plain_script session_core session_stepper\n"
DECLARED = ["table t(a int8)", "index i on t(a minmax) pages_per_range 1"]
CALLS = ["submit", "take", "step"]

MAIN = """//! Times the calls that workers make under the lock.
#![tactic(auto)]

use block_model::NoMemory;
use disk_trait::FileDisk;
use io_traits::{ReaderSource, Stepper, Turn};
use plain_script::{ScriptLines, read_script};
use session_core::Store;
use session_stepper::{LockedStore, Stranger};
use std::alloc::Global;
use std::fs::OpenOptions;
use std::marker::Brand;
use std::sync::ledger::{Blank, Ledger, Share};
use std::time::Instant;
use std::{env, io};

/// The number of the line, the kind of the call, and its nanoseconds.
type Call = (u32, u8, u64);

/// By number the session of each line.
fn sessions_of(alloc: Global, script: &ScriptLines) -> Result<Vec<u32>, NoMemory> {
    let mut sessions = vec![in alloc; 0u32; script.lines()]?;
    for session in 0..script.sessions() as u32 {
        for number in script.lines_of_session(alloc, session)?.as_slice() {
            sessions[*number as usize] = session;
        }
    }
    Ok(sessions)
}

/// Has a line answered, and notes its calls.
fn answer<L: Ledger, E: Ledger>(
    rt: &HostRuntime,
    stepper: &mut LockedStore<Stranger, FileDisk, L, E>,
    session: u32,
    line: u32,
    share: &mut Share<L>,
    end: &mut Share<E>,
    calls: &mut Vec<Call>,
) -> io::Result<()> {
    let start = Instant::now(rt)?;
    let mut turn = stepper.take_line(session, line, share, end);
    let took = start.elapsed(rt)?.as_nanos() as u64;
    let _ = calls.push((line, 0, took));
    while turn == Turn::Moved {
        let start = Instant::now(rt)?;
        let taken = stepper.take(session, end);
        let took = start.elapsed(rt)?.as_nanos() as u64;
        let _ = calls.push((line, 1, took));
        let Some(mut job) = taken else {
            return Ok(());
        };
        LockedStore::<Stranger, FileDisk, L, E>::work(&mut job);
        let start = Instant::now(rt)?;
        turn = stepper.turn(session, job, share, end);
        let took = start.elapsed(rt)?.as_nanos() as u64;
        let _ = calls.push((line, 2, took));
    }
    Ok(())
}

fn timed<L: Ledger, E: Ledger>(
    rt: &HostRuntime,
    alloc: Global,
    store: Store<FileDisk>,
    script: ScriptLines,
    answers: Blank,
    ends: Blank,
) -> io::Result<()> {
    let (answers, mut share) = answers.open::<L>();
    let (ends, mut end) = ends.open::<E>();
    let Ok(sessions) = sessions_of(alloc, &script) else {
        return Ok(());
    };
    let Ok(mut stepper) = LockedStore::<Stranger, FileDisk, L, E>::new(alloc, store, script, answers, ends) else {
        return Ok(());
    };
    let mut calls = Vec::new(alloc);
    for (line, session) in sessions.iter().enumerate() {
        answer(rt, &mut stepper, *session, line as u32, &mut share, &mut end, &mut calls)?;
    }
    for (line, kind, took) in calls.iter() {
        println!(rt; "{line} {kind} {took}")?;
    }
    let (_, _, said, ended) = stepper.into_parts();
    println!(rt; "said {} {}", said.len(), ended.is_none())
}

fn main(rt: HostRuntime) -> io::Result<()> {
    let alloc = rt.alloc();
    let Some(path) = env::args(&rt)?.nth(1) else {
        return Ok(());
    };
    let file = OpenOptions::new().read(true).write(true).open(&rt, path.as_str())?;
    let size = file.metadata()?.len();
    let Ok(store) = Store::start(alloc, FileDisk::on(file, size)) else {
        return Ok(());
    };
    let mut source = ReaderSource::on(rt.reader());
    let Ok(script) = read_script(alloc, 1 << 30, store.layout(), &mut source) else {
        return Ok(());
    };
    timed::<Brand, Brand>(&rt, alloc, store, script, Blank::new(1), Blank::new(1))
}
"""


def put_files(folder):
    """A copy of the crates, and the program over them."""
    shutil.copytree(HERE / "crates", folder / "crates", ignore=shutil.ignore_patterns("out"))
    shutil.copy(HERE / "HANDLES", folder)
    (folder / "crates.txt").write_text((HERE / "crates.txt").read_text() + NEEDED)
    source = folder / "crates" / "held_bench" / "src"
    source.mkdir(parents=True)
    (source / "main.rt").write_text(MAIN)
    return source.parent


def lines_of(rows):
    """The lines of the script: each is answered without an error."""
    half = rows // 2
    puts = [f"s insert t {n}" for n in range(rows)]
    before = ["s begin", *puts[:half], "s commit", "m summarize i"]
    behind = ["s begin", *puts[half:], f"s select t where a = {half}", "s select t", f"s explain t where a = {half}", f"s delete t where a < {rows // 10}", "s commit"]
    return [*before, *behind, "m vacuum t", "m summarize i", "s begin", "s insert t 1", "s rollback"]


def timed_calls(program, brin, folder, lines):
    """By verb and kind of call the nanoseconds of each call."""
    store = folder / "store.brin"
    store.unlink(missing_ok=True)
    subprocess.run([brin, store, "init", "--heap-blocks=64", "--index-blocks=8", "--status-blocks=1", *DECLARED], check=True)
    ran = subprocess.run([program, store], input="".join(f"{line}\n" for line in lines).encode(), stdout=subprocess.PIPE, check=True)
    *calls, said = ran.stdout.decode().splitlines()
    assert said == f"said {len(lines)} true", said
    times = collections.defaultdict(list)
    for line, kind, took in (map(int, call.split()) for call in calls):
        times[lines[line].split()[1], CALLS[kind]].append(took)
    return times


def main():
    words = argparse.ArgumentParser(description=__doc__.splitlines()[0])
    words.add_argument("brin", help="the program, which makes the store")
    words.add_argument("--rows", type=int, default=2000)
    words.add_argument("--rounds", type=int, default=3)
    said = words.parse_args()
    with tempfile.TemporaryDirectory(dir=os.getcwd()) as at:
        folder = pathlib.Path(at)
        program = folder / "held"
        build(put_files(folder), folder, program)
        print(f"load: {os.getloadavg()[0]:.1f} on {os.cpu_count()} processors")
        times = collections.defaultdict(list)
        for _ in range(said.rounds):
            for call, took in timed_calls(program, os.path.abspath(said.brin), folder, lines_of(said.rows)).items():
                times[call] += took
    whole = sum(map(sum, times.values()))
    print("statement and call: how many, middle, 99 of 100, longest (microseconds); share of all")
    for (verb, call), took in times.items():
        ordered = sorted(took)
        figures = [statistics.median(ordered), ordered[len(ordered) * 99 // 100], ordered[-1]]
        print(f"{verb} {call}: {len(took)}, " + ", ".join(f"{nanoseconds / 1e3:.2f}" for nanoseconds in figures) + f"; {100 * sum(took) / whole:.1f} %")


if __name__ == "__main__":
    main()
