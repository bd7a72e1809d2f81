#!/usr/bin/env python3
"""Times puts and reads of rows on a store over a disk in memory, all of whose pages have frames: heap_rows.py. No part of the gate.

Builds a small program over heap_rows in a copy of the crates by LLVM at -O2, and runs it five times. The program isn't proved, so it
has the checks of `rt try` in it, and a proved one is somewhat faster. Tells the best time of a put into a table of one int8 with 272
rows a page, of 400,000 that the log takes without a checkpoint, and of a row that is read, where all are.
"""
import os
import pathlib
import shutil
import subprocess
import sys
import tempfile

from unproved import KIT, TRY, toolchain

TOP = os.path.dirname(os.path.dirname(os.path.abspath(__file__)))
ROWS = 400_000
NEEDED = "heap_bench: block_model store_layout disk_trait store_format heap_rows page_store\n"
CALLS = ["a put", "a row that is read"]

MAIN = """//! Times puts and the reads of their rows.
#![tactic(auto)]

use block_model::{Column, Kind, Name, RowId, Schema, Sequence, Sizes, Table, Value};
use disk_trait::SteadyDisk;
use heap_rows::{PageRows, put, rows_of};
use page_store::PageStore;
use std::alloc::Global;
use std::io;
use std::time::Instant;
use store_format::format;
use store_layout::Layout;

/// How many rows are put, and how many blocks they fill.
const ROWS: u32 = 400_000;

const BLOCKS: u32 = 1471;

/// A store of the table `t(a int8)`.
fn store(alloc: Global) -> Option<PageStore<SteadyDisk>> {
    let mut columns = Sequence::new(alloc);
    columns
        .push(Column {
            name: Name::new(b"a")?,
            kind: Kind::Int,
        })
        .ok()?;
    let mut tables = Sequence::new(alloc);
    tables
        .push(Table {
            name: Name::new(b"t")?,
            rows_per_page: 272,
            columns,
        })
        .ok()?;
    let schema = Schema {
        tables,
        indexes: Sequence::new(alloc),
    };
    let sizes = Sizes {
        heap_blocks: BLOCKS,
        index_blocks: 3,
        status_blocks: 1,
        log_pages: 4096,
        frames: 2048,
    };
    let layout = Layout::new(schema, sizes).ok()?;
    let mut disk = SteadyDisk::new(alloc, layout.disk_size()).ok()?;
    format(&mut disk, &layout).ok()?;
    PageStore::start(alloc, disk).ok()
}

/// Puts all rows, and says whether each was put.
fn put_all(store: &mut PageStore<SteadyDisk>) -> bool {
    'puts: for k in 0..ROWS {
        let id = RowId { t: 1, k };
        if put(store, 0, id, &[Value::Int(i64::from(k))]).is_err() {
            return false;
        }
    }
    true
}

/// Reads all rows, and answers how many.
fn read_all(store: &mut PageStore<SteadyDisk>, rows: &mut PageRows) -> usize {
    let mut count: usize = 0;
    'reads: for block in 0..BLOCKS {
        if rows_of(store, 0, block, rows).is_ok() {
            count = count.wrapping_add(rows.as_slice().len());
        }
    }
    count
}

fn main(rt: HostRuntime) -> io::Result<()> {
    let alloc = rt.alloc();
    let Some(mut store) = store(alloc) else {
        return Ok(());
    };
    let Ok(mut rows) = PageRows::new(alloc, &store.layout().schema().tables.as_slice()[0]) else {
        return Ok(());
    };
    let start = Instant::now(&rt)?;
    let all = put_all(&mut store);
    println!(rt; "took {}", start.elapsed(&rt)?.as_nanos())?;
    let start = Instant::now(&rt)?;
    let count = read_all(&mut store, &mut rows);
    println!(rt; "took {}", start.elapsed(&rt)?.as_nanos())?;
    println!(rt; "done {} {}", all, count)
}
"""


def put_files(folder):
    """A copy of the crates, and the program over them."""
    shutil.copytree(os.path.join(TOP, "crates"), os.path.join(folder, "crates"), ignore=shutil.ignore_patterns("out"))
    shutil.copy(os.path.join(TOP, "HANDLES"), folder)
    with open(os.path.join(TOP, "crates.txt")) as lines, open(os.path.join(folder, "crates.txt"), "w") as out:
        out.write(lines.read() + NEEDED)
    crate = os.path.join(folder, "crates", "heap_bench")
    os.makedirs(os.path.join(crate, "src"))
    with open(os.path.join(crate, "src", "main.rt"), "w") as file:
        file.write(MAIN)
    return crate


def run(crate, tools):
    """Nanoseconds of the puts and of the reads; the program tells whether every row was put and read."""
    words = [sys.executable, "-c", TRY, str(tools), str(KIT / "bin")]
    ran = subprocess.run(words, cwd=crate, capture_output=True, text=True)
    lines = [line.split() for line in ran.stdout.splitlines()]
    took = [int(line[1]) for line in lines if line[:1] == ["took"]]
    done = [line[1:] for line in lines if line[:1] == ["done"]]
    if len(took) != len(CALLS) or done != [["true", str(ROWS)]]:
        sys.exit(ran.stdout + ran.stderr)
    return took


def main():
    with tempfile.TemporaryDirectory() as folder:
        tools = toolchain(pathlib.Path(folder) / "toolchain")
        crate = put_files(folder)
        runs = [run(crate, tools) for _ in range(5)]
    for name, times in zip(CALLS, zip(*runs)):
        print(f"{name}: {min(times) / ROWS:.1f} ns")


if __name__ == "__main__":
    main()
