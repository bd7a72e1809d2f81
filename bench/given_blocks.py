#!/usr/bin/env python3
"""Times what a published directory answers, and an explain over the same tables: given_blocks.py [--proved]. No part of the gate.

Builds a small program over summary_directory and bitmap_scan in a copy of the crates by LLVM at -O2. A table has 1,000 blocks, and then
131,072, with a range for each in an index of one minmax column; a query finds one of them, or all. Tells the best and the middle time of
`given`: of a reader alone, and of one beside a writer that posts a tuple and publishes it, over and over; how often that writer published
meanwhile; and the best time of an explain in the store itself, whose disk in memory has up to 1.1 GB. That program isn't proved, so it has the
checks of `rt try` in it.

With --proved it proves a smaller program by `rt run`, and what it stands on where no check has kept that. It times a reader alone, which takes
a fifth to a half of the time that it takes with those checks.
"""
import pathlib
import shutil
import statistics
import subprocess
import sys
import tempfile

from unproved import HERE, KIT, TRY, toolchain

ROUNDS = 50
NEEDED = "given_bench: block_model store_layout summary_directory"
NEEDED_TOO = " disk_trait page_locks store_format page_store brin_insert summarise_core bitmap_scan"

SHARED = """/// The final tuple of a range whose rows have its number alone.
fn tuple(alloc: Global, range: u32) -> Option<TupleBytes> {
    let mut bytes = Vec::new(alloc);
    let number = range.to_be_bytes();
    bytes.extend_from_slice(&number).ok()?;
    bytes.extend_from_slice(&[0, 2, 0, 16, 0, 0, 0, 0]).ok()?;
    bytes.extend_from_slice(&number).ok()?;
    bytes.extend_from_slice(&[0, 0, 0, 0]).ok()?;
    bytes.extend_from_slice(&number).ok()?;
    Some(TupleBytes::of(bytes))
}

fn post_range(alloc: Global, directory: &mut Directory, range: u32) -> Option<()> {
    let bytes = tuple(alloc, range)?;
    let index = 0;
    directory.post(Post::Set { index, range, bytes }).ok()
}

/// The query that finds block 7 alone, or all of them.
fn query(alloc: Global, op: Op) -> Option<Query> {
    let mut conds = Conds::new(alloc);
    let number = if op == Op::Eq { 7 } else { 0 };
    conds
        .push(Cond {
            column: 0,
            op,
            key: Value::Int(number),
        })
        .ok()?;
    Some(Query { table: 0, conds })
}

fn fill<R: Wait>(rt: &R, alloc: Global, directory: &mut Directory, blocks: u32) -> Option<()> {
    let table = 0;
    directory.post(Post::Extent { table, blocks }).ok()?;
    'ranges: for range in 0..blocks {
        post_range(alloc, directory, range)?;
    }
    directory.publish(rt).ok()
}

/// Prints how long the answer took, and how many blocks it has.
fn ask(clock: &HostRuntime, alloc: Global, told: &mut Told, query: &Query, blocks: u32, case: &str) -> io::Result<()> {
    let start = Instant::now(clock)?;
    let given = told.given(alloc, query);
    let took = start.elapsed(clock)?.as_nanos();
    let count = given.map(|blocks| blocks.len()).unwrap_or(0);
    println!(clock; "took {} {} {} {}", blocks, case, took, count)
}
"""

MAIN = (
    """//! Times what a published directory answers.
#![tactic(auto)]

use bitmap_scan::Explain;
use block_model::{
    Class, Column, Cond, Conds, Index, Kind, Name, Op, Part, Query, Row, RowId, Schema, Sequence, Sizes, Table, Value, Values,
};
use brin_insert::{Insert, Queue};
use disk_trait::SteadyDisk;
use page_locks::{Did, Locks, Rights};
use page_store::PageStore;
use std::alloc::Global;
use std::io;
use std::sync::Wait;
use std::sync::atomic::{AtomicU64, Ordering};
use std::thread::{Threads, join};
use std::time::Instant;
use store_format::format;
use store_layout::{LEAST, Layout, indexed_layout};
use summarise_core::{Summarise, Wish};
use summary_directory::{Directory, Post, Told, TupleBytes};

const ROUNDS: u64 = 50;

"""
    + SHARED
    + """
/// Publishes until it is told to stop, and tells how often.
fn publish_on<R: Wait>(rt: &R, alloc: Global, directory: &mut Directory, stop: &AtomicU64) -> u64 {
    let mut count = 0;
    'publishings: for _ in 0..u64::MAX {
        if stop.load(Ordering::SeqCst) == 1 {
            break;
        }
        if post_range(alloc, directory, 9).is_some() && directory.publish(rt).is_ok() {
            count += 1;
        }
    }
    count
}

/// Times a reader of that directory, alone and beside its writer.
fn measure<R: Wait + Threads>(
    rt: &R,
    clock: &HostRuntime,
    alloc: Global,
    layout: &Layout,
    directory: &mut Directory,
    blocks: u32,
) -> io::Result<()> {
    let filled = fill(rt, alloc, directory, blocks).is_some();
    let told = directory.tell(alloc, layout, 0);
    let (Ok(mut told), Some(one), Some(all)) = (told, query(alloc, Op::Eq), query(alloc, Op::Ge)) else {
        return Ok(());
    };
    'alone: for round in 0..2 * ROUNDS {
        let (case, asked) = if round % 2 == 0 { ("one", &one) } else { ("all", &all) };
        ask(clock, alloc, &mut told, asked, blocks, case)?;
    }
    let stop = AtomicU64::new(0);
    let (times, published) = join(
        rt,
        || {
            let mut times = [0u128; 50];
            'beside: for round in 0..50 {
                let start = Instant::now(clock);
                let given = told.given(alloc, &one);
                if let (Ok(start), Ok(_)) = (start, given) {
                    if let Ok(took) = start.elapsed(clock) {
                        times[round] = took.as_nanos();
                    }
                }
            }
            stop.store(1, Ordering::SeqCst);
            times
        },
        || publish_on(rt, alloc, directory, &stop),
    );
    'beside: for round in 0..50 {
        println!(clock; "took {} beside {} 1", blocks, times[round])?;
    }
    println!(clock; "published {} {} {}", blocks, published, filled)
}

/// A store of the table `t(a int8)` with a row on each of so many blocks, and a range for each in its index.
fn store(alloc: Global, blocks: u32) -> Option<PageStore<SteadyDisk>> {
    let mut columns = Sequence::new(alloc);
    columns.push(Column { name: Name::new(b"a")?, kind: Kind::Int }).ok()?;
    let mut tables = Sequence::new(alloc);
    tables.push(Table { name: Name::new(b"t")?, rows_per_page: 1, columns }).ok()?;
    let mut parts = Sequence::new(alloc);
    parts.push(Part { column: 0, class: Class::MinMax }).ok()?;
    let mut indexes = Sequence::new(alloc);
    indexes.push(Index { name: Name::new(b"i")?, table: 0, pages_per_range: 1, auto: false, parts }).ok()?;
    let sizes = Sizes { heap_blocks: blocks, index_blocks: 1024, status_blocks: 1, log_pages: 4096, frames: 4096 };
    let layout = Layout::new(Schema { tables, indexes }, sizes).ok()?;
    let mut disk = SteadyDisk::new(alloc, layout.disk_size()).ok()?;
    format(&mut disk, &layout).ok()?;
    PageStore::start(alloc, disk).ok()
}

/// The row of that number, which has it as its value.
fn row(number: u32) -> Row {
    let mut values = Values::new();
    values.push(Value::Int(i64::from(number)));
    Row { table: 0, id: RowId { t: 1, k: number }, values }
}

fn put(work: &mut Insert, pages: &mut PageStore<SteadyDisk>, locks: &mut Locks, queue: &mut Queue) -> Option<()> {
    'steps: for _ in 0..u64::MAX {
        match work.step(pages, locks, queue, 0) {
            Ok(Did::Finished(_)) => return Some(()),
            Ok(Did::Moved(_)) => {}
            _ => return None,
        }
    }
    None
}

/// Puts the rows, and summarises their ranges.
fn fill_store(alloc: Global, pages: &mut PageStore<SteadyDisk>, blocks: u32) -> Option<()> {
    let mut locks = Locks::new(alloc, 320).ok()?;
    let mut rights = Rights::new(alloc, 1).ok()?;
    let mut queue = Queue::new(alloc).ok()?;
    let mut work = Insert::new(alloc, row(0), pages.layout()).ok()?;
    'rows: for number in 0..blocks {
        work.begin(row(number), pages.layout());
        put(&mut work, pages, &mut locks, &mut queue)?;
    }
    let mut work = Summarise::new(alloc, 0, Wish::New, pages.layout()).ok()?;
    'steps: for _ in 0..u64::MAX {
        match work.step(pages, &mut locks, &mut rights, 0) {
            Ok(Did::Finished(_)) => return Some(()),
            Ok(Did::Moved(_)) => {}
            _ => return None,
        }
    }
    None
}

/// How many blocks an explain of the query tells.
fn explain(alloc: Global, pages: &mut PageStore<SteadyDisk>, op: Op) -> Option<usize> {
    let mut work = Explain::new(alloc, query(alloc, op)?, pages.layout()).ok()?;
    'steps: for _ in 0..u64::MAX {
        match work.step(pages) {
            Ok(Did::Finished(_)) => return Some(work.blocks().len()),
            Ok(Did::Moved(_)) => {}
            _ => return None,
        }
    }
    None
}

/// Times explains in a store with those tuples on its pages.
fn explain_all(clock: &HostRuntime, alloc: Global, blocks: u32) -> io::Result<()> {
    let Some(mut pages) = store(alloc, blocks) else {
        return Ok(());
    };
    if fill_store(alloc, &mut pages, blocks).is_none() {
        return Ok(());
    }
    'rounds: for _ in 0..5 {
        let start = Instant::now(clock)?;
        let count = explain(alloc, &mut pages, Op::Eq).unwrap_or(0);
        let took = start.elapsed(clock)?.as_nanos();
        println!(clock; "explained {} {} {}", blocks, took, count)?;
    }
    Ok(())
}

fn main(rt: HostRuntime) -> io::Result<()> {
    let alloc = rt.alloc();
    'sizes: for blocks in [1000u32, 131072] {
        let mut sizes = LEAST;
        sizes.heap_blocks = blocks;
        let Some(layout) = indexed_layout(alloc, 1, sizes) else {
            return Ok(());
        };
        let Ok(mut directory) = Directory::new(alloc, 2) else {
            return Ok(());
        };
        let measured = measure(&rt, &rt, alloc, &layout, &mut directory, blocks);
        directory.close(&rt);
        measured?;
        explain_all(&rt, alloc, blocks)?;
    }
    Ok(())
}
"""
)

# The program that is proved: a reader alone.
PROVED = (
    """//! Times what a published directory answers.
#![tactic(auto)]

use block_model::{Cond, Conds, Op, Query, Value};
use std::alloc::Global;
use std::io;
use std::sync::Wait;
use std::time::Instant;
use store_layout::{LEAST, Layout, indexed_layout};
use summary_directory::{Directory, Post, Told, TupleBytes};

const ROUNDS: u64 = 50;

"""
    + SHARED
    + """
fn measure<R: Wait>(
    rt: &R,
    clock: &HostRuntime,
    alloc: Global,
    layout: &Layout,
    directory: &mut Directory,
    blocks: u32,
) -> io::Result<()> {
    let filled = fill(rt, alloc, directory, blocks);
    let told = directory.tell(alloc, layout, 0);
    let (Some(()), Ok(mut told), Some(one), Some(all)) = (filled, told, query(alloc, Op::Eq), query(alloc, Op::Ge)) else {
        return Ok(());
    };
    'rounds: for _ in 0..ROUNDS {
        ask(clock, alloc, &mut told, &one, blocks, "one")?;
        ask(clock, alloc, &mut told, &all, blocks, "all")?;
    }
    Ok(())
}

fn bench<R: Wait>(rt: &R, clock: &HostRuntime, alloc: Global, blocks: u32) -> io::Result<()> {
    let mut sizes = LEAST;
    sizes.heap_blocks = blocks;
    let Some(layout) = indexed_layout(alloc, 1, sizes) else {
        return Ok(());
    };
    let Ok(mut directory) = Directory::new(alloc, 2) else {
        return Ok(());
    };
    let measured = measure(rt, clock, alloc, &layout, &mut directory, blocks);
    directory.close(rt);
    measured
}

fn main(rt: HostRuntime) -> io::Result<()> {
    let alloc = rt.alloc();
    bench(&rt, &rt, alloc, 1000)?;
    bench(&rt, &rt, alloc, 131072)
}
"""
)


def put_files(folder, needed, text):
    """A copy of the crates, and the program of that text over them, with its line of crates.txt."""
    shutil.copytree(HERE / "crates", folder / "crates", ignore=shutil.ignore_patterns("out"))
    shutil.copy(HERE / "HANDLES", folder)
    (folder / "crates.txt").write_text((HERE / "crates.txt").read_text() + needed + "\n")
    crate = folder / "crates" / "given_bench"
    (crate / "src").mkdir(parents=True)
    (crate / "src" / "main.rt").write_text(text)
    return crate


def run(crate, tools):
    """The words of each line of the program: nanoseconds by blocks and case, how often the writer published, and those of explains."""
    words = [sys.executable, "-c", TRY, str(tools), str(KIT / "bin")]
    ran = subprocess.run(words, cwd=crate, capture_output=True, text=True)
    lines = [line.split() for line in ran.stdout.splitlines()]
    took = [line[1:] for line in lines if line[:1] == ["took"]]
    published = {line[1]: line[2] for line in lines if line[:1] == ["published"] and line[3:] == ["true"]}
    explained = [line[1:] for line in lines if line[:1] == ["explained"]]
    right = all(count == (blocks if case == "all" else "1") for blocks, case, _, count in took)
    if len(took) != 6 * ROUNDS or not right or len(published) != 2 or [count for _, _, count in explained] != ["1"] * 10:
        sys.exit(ran.stdout + ran.stderr)
    return took, published, explained


def tell(took, size, case, told):
    times = [int(time) / 1000 for blocks, at, time, _ in took if (blocks, at) == (size, case)]
    print(f"{size} ranges, {told}: best {min(times):.0f} µs, middle {statistics.median(times):.0f}")


def main_proved():
    """Proves the smaller program, and tells its times."""
    with tempfile.TemporaryDirectory() as name:
        crate = put_files(pathlib.Path(name), NEEDED, PROVED)
        ran = subprocess.run(["rt", "run"], cwd=crate, capture_output=True, text=True)
    took = [line.split()[1:] for line in ran.stdout.splitlines() if line.startswith("took")]
    if len(took) != 4 * ROUNDS:
        sys.exit(ran.stdout + ran.stderr)
    for size in ("1000", "131072"):
        tell(took, size, "one", "one kept")
        tell(took, size, "all", "all kept")


def main():
    if sys.argv[1:] == ["--proved"]:
        return main_proved()
    with tempfile.TemporaryDirectory() as name:
        folder = pathlib.Path(name)
        took, published, explained = run(put_files(folder, NEEDED + NEEDED_TOO, MAIN), toolchain(folder / "toolchain"))
    for blocks in published:
        for case, told in (("one", "one kept"), ("all", "all kept"), ("beside", "one kept, beside a writer")):
            tell(took, blocks, case, told)
        print(f"{blocks} ranges: the writer published {published[blocks]} times")
        times = [int(time) / 1000 for size, time, _ in explained if size == blocks]
        print(f"{blocks} ranges, an explain in the store: best {min(times):.0f} µs")


if __name__ == "__main__":
    main()
