#!/usr/bin/env python3
"""Times transactions on a store over a disk in memory: tx_table.py. No part of the gate.

Builds a small program over tx_table in a copy of the crates by LLVM at -O2, and runs it five times. The program isn't proved, so it
has the checks of `rt try` in it, and a proved one is somewhat faster. Tells the best time of an opening over 64 started pages of
statuses, for each number that they may have, of a begin, of a commit, of one of 64 that commit at once, of a rollback, and of a status
that is read from a page.
"""
import os
import pathlib
import shutil
import subprocess
import sys
import tempfile

from unproved import KIT, TRY, toolchain

TOP = os.path.dirname(os.path.dirname(os.path.abspath(__file__)))
NUMBERS = 2_088_960
BEGUN = 1_920_000
NEEDED = "tx_bench: block_model store_layout snapshot_core disk_trait store_format page_store tx_table\n"
CALLS = {
    "a number at the opening": NUMBERS,
    "a begin": BEGUN,
    "a commit": BEGUN // 3,
    "one of 64 that commit at once": BEGUN // 3,
    "a rollback": BEGUN // 3,
    "a status that is read": NUMBERS,
}

MAIN = """//! Times an opening and the reads of statuses.
#![tactic(auto)]

use block_model::{Column, Kind, Name, Schema, Sequence, Sizes, Table};
use disk_trait::SteadyDisk;
use page_store::PageStore;
use snapshot_core::Status;
use std::alloc::Global;
use std::io;
use std::time::Instant;
use store_format::format;
use store_layout::Layout;
use tx_table::TxTable;

/// How many numbers 64 pages of statuses may have.
const NUMBERS: u64 = 2_088_960;

/// How many transactions begin.
const BEGUN: u64 = 1_920_000;

/// A store of the table `t(a int8)` with 64 pages of statuses.
fn store(alloc: Global) -> Option<PageStore<SteadyDisk>> {
    let mut columns = Sequence::new(alloc);
    columns
        .push(Column {
            name: Name::new(b"a")?,
            kind: Kind::Int,
        })
        .ok()?;
    let mut tables = Sequence::new(alloc);
    tables
        .push(Table {
            name: Name::new(b"t")?,
            rows_per_page: 1,
            columns,
        })
        .ok()?;
    let schema = Schema {
        tables,
        indexes: Sequence::new(alloc),
    };
    let sizes = Sizes {
        heap_blocks: 1,
        index_blocks: 3,
        status_blocks: 64,
        log_pages: 4096,
        frames: 256,
    };
    let layout = Layout::new(schema, sizes).ok()?;
    let mut disk = SteadyDisk::new(alloc, layout.disk_size()).ok()?;
    format(&mut disk, &layout).ok()?;
    PageStore::start(alloc, disk).ok()
}

/// Begins the transactions 1 to BEGUN.
fn begin_all(table: &mut TxTable, store: &mut PageStore<SteadyDisk>) -> bool {
    'begins: for _ in 0..BEGUN {
        if table.begin(store).is_err() {
            return false;
        }
    }
    true
}

/// Commits the first third, one after the other.
fn commit_each(table: &mut TxTable, store: &mut PageStore<SteadyDisk>) -> bool {
    'commits: for t in 1..=BEGUN / 3 {
        if table.commit(store, t).is_err() {
            return false;
        }
    }
    true
}

/// Commits the second third, 64 at once.
fn commit_many(table: &mut TxTable, store: &mut PageStore<SteadyDisk>) -> bool {
    'groups: for group in 0..BEGUN / 192 {
        let mut list = [0; 64];
        'list: for i in 0..64 {
            list[i] = BEGUN / 3 + 1 + group * 64 + i as u64;
        }
        // A group of two pages is left out: there are 20 at most.
        if list[0] / 32640 == list[63] / 32640 {
            if table.commit_all(store, &list).is_err() {
                return false;
            }
        }
    }
    true
}

/// Rolls the last third back.
fn roll_back(table: &mut TxTable, store: &mut PageStore<SteadyDisk>) -> bool {
    'ends: for t in BEGUN / 3 * 2 + 1..=BEGUN {
        if table.rollback(store, t).is_err() {
            return false;
        }
    }
    true
}

/// How many of the transactions are committed.
fn read_all(table: &TxTable, store: &mut PageStore<SteadyDisk>) -> u64 {
    let mut count: u64 = 0;
    'reads: for t in 0..NUMBERS {
        match table.status(store, t) {
            Ok(Status::Committed) => count = count.wrapping_add(1),
            _ => {}
        }
    }
    count
}

fn main(rt: HostRuntime) -> io::Result<()> {
    let Some(mut store) = store(rt.alloc()) else {
        return Ok(());
    };
    let start = Instant::now(&rt)?;
    let Ok(mut table) = TxTable::start(&mut store) else {
        return Ok(());
    };
    println!(rt; "took {}", start.elapsed(&rt)?.as_nanos())?;
    let start = Instant::now(&rt)?;
    let begun = begin_all(&mut table, &mut store);
    println!(rt; "took {}", start.elapsed(&rt)?.as_nanos())?;
    let start = Instant::now(&rt)?;
    let each = commit_each(&mut table, &mut store);
    println!(rt; "took {}", start.elapsed(&rt)?.as_nanos())?;
    let start = Instant::now(&rt)?;
    let many = commit_many(&mut table, &mut store);
    println!(rt; "took {}", start.elapsed(&rt)?.as_nanos())?;
    let start = Instant::now(&rt)?;
    let rolled = roll_back(&mut table, &mut store);
    println!(rt; "took {}", start.elapsed(&rt)?.as_nanos())?;
    let start = Instant::now(&rt)?;
    let count = read_all(&table, &mut store);
    println!(rt; "took {}", start.elapsed(&rt)?.as_nanos())?;
    println!(rt; "done {} {} {} {} {} {}", begun, each, many, rolled, table.next(), count)
}
"""


def put_files(folder):
    """A copy of the crates, and the program over them."""
    shutil.copytree(os.path.join(TOP, "crates"), os.path.join(folder, "crates"), ignore=shutil.ignore_patterns("out"))
    shutil.copy(os.path.join(TOP, "HANDLES"), folder)
    with open(os.path.join(TOP, "crates.txt")) as lines, open(os.path.join(folder, "crates.txt"), "w") as out:
        out.write(lines.read() + NEEDED)
    crate = os.path.join(folder, "crates", "tx_bench")
    os.makedirs(os.path.join(crate, "src"))
    with open(os.path.join(crate, "src", "main.rt"), "w") as file:
        file.write(MAIN)
    return crate


def run(crate, tools):
    """Nanoseconds of each part; the program tells whether each call was answered by Ok."""
    words = [sys.executable, "-c", TRY, str(tools), str(KIT / "bin")]
    ran = subprocess.run(words, cwd=crate, capture_output=True, text=True)
    lines = [line.split() for line in ran.stdout.splitlines()]
    took = [int(line[1]) for line in lines if line[:1] == ["took"]]
    done = [line[1:] for line in lines if line[:1] == ["done"]]
    if len(took) != len(CALLS) or done[0][:5] != ["true"] * 4 + [str(BEGUN + 1)]:
        sys.exit(ran.stdout + ran.stderr)
    return took


def main():
    with tempfile.TemporaryDirectory() as folder:
        tools = toolchain(pathlib.Path(folder) / "toolchain")
        crate = put_files(folder)
        runs = [run(crate, tools) for _ in range(5)]
    for (name, count), times in zip(CALLS.items(), zip(*runs)):
        print(f"{name}: {min(times) / count:.1f} ns")


if __name__ == "__main__":
    main()
