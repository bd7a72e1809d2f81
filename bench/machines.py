#!/usr/bin/env python3
"""Times inserts, a summarise and an explain by their steps, on a store over a disk in memory: machines.py. No part of the gate.

Builds a small program over brin_insert, summarise_core and bitmap_scan in a copy of the crates by LLVM at -O2, and runs it five times. The
program isn't proved, so it has the checks of `rt try` in it, and a proved one is somewhat faster. The table has two int8 columns, and
its one index a minmax of the first. Tells the best time of an insert into a range without a summary, of one into a summarised range
whose summary has the value already, and of one that widens it; of each page and each row that a summarise goes over; and of an explain
for each block. Selects have a bench of their own.
"""
import os
import pathlib
import shutil
import subprocess
import sys
import tempfile

from unproved import KIT, TRY, toolchain

TOP = os.path.dirname(os.path.dirname(os.path.abspath(__file__)))
BLOCKS = 4000
ROWS_A_PAGE = 100
ROWS = BLOCKS * ROWS_A_PAGE
NEEDED = (
    "machine_bench: block_model store_layout disk_trait page_locks store_format page_store"
    " brin_insert summarise_core bitmap_scan\n"
)
PARTS = {
    "an insert into a range without a summary": ROWS,
    "an insert whose value the summary has": ROWS,
    "an insert that widens the summary": ROWS,
    "a page that is summarised": BLOCKS,
    "a row that is summarised": ROWS,
    "a block of an explain": BLOCKS,
}

MAIN = """//! Times the machines of an index.
#![tactic(auto)]

use block_model::{
    Class, Column, Cond, Conds, Index, Kind, Name, Op, Part, Query, Row, RowId, Schema, Sequence, Sizes, Table, Value, Values,
};
use brin_insert::Insert;
use bitmap_scan::Explain;
use summarise_core::{Summarise, Wish};
use disk_trait::SteadyDisk;
use page_store::PageStore;
use page_locks::{Did, Locks, Rights};
use std::alloc::Global;
use std::io;
use std::time::Instant;
use store_format::format;
use store_layout::Layout;
use brin_insert::Queue;

const BLOCKS: u64 = 4000;

const ROWS: u64 = 400_000;

/// A store of the table `t(a int8,b int8)` with an index on its first column; its one range has all blocks.
fn store(alloc: Global) -> Option<PageStore<SteadyDisk>> {
    let mut columns = Sequence::new(alloc);
    columns.push(Column { name: Name::new(b"a")?, kind: Kind::Int }).ok()?;
    columns.push(Column { name: Name::new(b"b")?, kind: Kind::Int }).ok()?;
    let mut tables = Sequence::new(alloc);
    tables.push(Table { name: Name::new(b"t")?, rows_per_page: 100, columns }).ok()?;
    let mut parts = Sequence::new(alloc);
    parts.push(Part { column: 0, class: Class::MinMax }).ok()?;
    let mut indexes = Sequence::new(alloc);
    indexes.push(Index { name: Name::new(b"i")?, table: 0, pages_per_range: 4096, auto: false, parts }).ok()?;
    let schema = Schema { tables, indexes };
    let sizes = Sizes { heap_blocks: 4000, index_blocks: 64, status_blocks: 1, log_pages: 4096, frames: 8192 };
    let layout = Layout::new(schema, sizes).ok()?;
    let mut disk = SteadyDisk::new(alloc, layout.disk_size()).ok()?;
    format(&mut disk, &layout).ok()?;
    PageStore::start(alloc, disk).ok()
}

fn row(t: u64, k: u64, a: i64) -> Row {
    let mut values = Values::new();
    values.push(Value::Int(a));
    values.push(Value::Int(7));
    Row { table: 0, id: RowId { t, k: k as u32 }, values }
}

/// Inserts the rows from `from` to `to`, of a value that is the row's number or the same for all.
fn insert(
    insert: &mut Insert,
    pages: &mut PageStore<SteadyDisk>,
    locks: &mut Locks,
    queue: &mut Queue,
    from: u64,
    to: u64,
    widens: bool,
) -> bool {
    let mut i = from;
    while i < to {
        let a = if widens { i as i64 } else { 5 };
        insert.begin(row(1, i, a), pages.layout());
        let mut done = false;
        while !done {
            match insert.step(pages, locks, queue, 0) {
                Ok(Did::Finished(_)) => done = true,
                Ok(Did::Moved(_)) => {}
                _ => return false,
            }
        }
        i = i.wrapping_add(1);
    }
    true
}

/// Summarises the index, and answers how many ranges got a summary.
fn summarise(alloc: Global, pages: &mut PageStore<SteadyDisk>, locks: &mut Locks, rights: &mut Rights) -> u64 {
    let Ok(mut work) = Summarise::new(alloc, 0, Wish::New, pages.layout()) else {
        return 99;
    };
    let mut done = false;
    while !done {
        match work.step(pages, locks, rights, 0) {
            Ok(Did::Finished(_)) => done = true,
            Ok(Did::Moved(_)) => {}
            _ => return 98,
        }
    }
    rights.give(0, 0);
    work.count()
}

fn query(alloc: Global, a: i64) -> Query {
    let mut conds = Conds::new(alloc);
    let _ = conds.push(Cond { column: 0, op: Op::Ge, key: Value::Int(a) });
    Query { table: 0, conds }
}

fn explain(alloc: Global, pages: &mut PageStore<SteadyDisk>) -> u64 {
    let Ok(mut work) = Explain::new(alloc, query(alloc, 0), pages.layout()) else {
        return 0;
    };
    let mut done = false;
    while !done {
        match work.step(pages) {
            Ok(Did::Finished(_)) => done = true,
            Ok(Did::Moved(_)) => {}
            _ => return 0,
        }
    }
    work.blocks().len() as u64
}

fn main(rt: HostRuntime) -> io::Result<()> {
    let alloc = rt.alloc();
    let Some(mut pages) = store(alloc) else {
        return Ok(());
    };
    let Ok(mut locks) = Locks::new(alloc, 320) else {
        return Ok(());
    };
    let Ok(mut rights) = Rights::new(alloc, 1) else {
        return Ok(());
    };
    let Ok(mut queue) = Queue::new(alloc) else {
        return Ok(());
    };
    let Ok(mut work) = Insert::new(alloc, row(1, 0, 5), pages.layout()) else {
        return Ok(());
    };
    let start = Instant::now(&rt)?;
    let bare = insert(&mut work, &mut pages, &mut locks, &mut queue, 0, ROWS, true);
    println!(rt; "took {}", start.elapsed(&rt)?.as_nanos())?;
    // One into a summarised range: another store, of which one row is summarised first.
    let Some(mut other) = store(alloc) else {
        return Ok(());
    };
    let one = insert(&mut work, &mut other, &mut locks, &mut queue, 0, 1, false);
    let first = summarise(alloc, &mut other, &mut locks, &mut rights);
    let start = Instant::now(&rt)?;
    let had = insert(&mut work, &mut other, &mut locks, &mut queue, 1, ROWS, false);
    println!(rt; "took {}", start.elapsed(&rt)?.as_nanos())?;
    let Some(mut third) = store(alloc) else {
        return Ok(());
    };
    let two = insert(&mut work, &mut third, &mut locks, &mut queue, 0, 1, true);
    let second = summarise(alloc, &mut third, &mut locks, &mut rights);
    let start = Instant::now(&rt)?;
    let widened = insert(&mut work, &mut third, &mut locks, &mut queue, 1, ROWS, true);
    println!(rt; "took {}", start.elapsed(&rt)?.as_nanos())?;
    let start = Instant::now(&rt)?;
    let ranges = summarise(alloc, &mut pages, &mut locks, &mut rights);
    println!(rt; "took {}", start.elapsed(&rt)?.as_nanos())?;
    println!(rt; "took {}", start.elapsed(&rt)?.as_nanos())?;
    let start = Instant::now(&rt)?;
    let blocks = explain(alloc, &mut pages);
    println!(rt; "took {}", start.elapsed(&rt)?.as_nanos())?;
    println!(rt; "done {} {} {} {} {} {} {} {} {}", bare, one, had, two, widened, first, second, ranges, blocks)
}
"""


def put_files(folder):
    """A copy of the crates, and the program over them."""
    shutil.copytree(os.path.join(TOP, "crates"), os.path.join(folder, "crates"), ignore=shutil.ignore_patterns("out"))
    shutil.copy(os.path.join(TOP, "HANDLES"), folder)
    with open(os.path.join(TOP, "crates.txt")) as lines, open(os.path.join(folder, "crates.txt"), "w") as out:
        out.write(lines.read() + NEEDED)
    crate = os.path.join(folder, "crates", "machine_bench")
    os.makedirs(os.path.join(crate, "src"))
    with open(os.path.join(crate, "src", "main.rt"), "w") as file:
        file.write(MAIN)
    return crate


def run(crate, tools):
    """Nanoseconds of each part; the program tells whether each went well."""
    words = [sys.executable, "-c", TRY, str(tools), str(KIT / "bin")]
    ran = subprocess.run(words, cwd=crate, capture_output=True, text=True)
    lines = [line.split() for line in ran.stdout.splitlines()]
    took = [int(line[1]) for line in lines if line[:1] == ["took"]]
    done = [line[1:] for line in lines if line[:1] == ["done"]]
    wanted = ["true"] * 5 + ["1"] * 3 + [str(BLOCKS)]
    if len(took) != len(PARTS) or done != [wanted]:
        sys.exit(ran.stdout + ran.stderr)
    return took


def main():
    with tempfile.TemporaryDirectory() as folder:
        tools = toolchain(pathlib.Path(folder) / "toolchain")
        crate = put_files(folder)
        runs = [run(crate, tools) for _ in range(5)]
    for (name, count), times in zip(PARTS.items(), zip(*runs)):
        print(f"{name}: {min(times) / count:.1f} ns")


if __name__ == "__main__":
    main()
