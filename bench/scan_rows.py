#!/usr/bin/env python3
"""Times selects on a store over a disk in memory, all of whose pages have frames: scan_rows.py. No part of the gate.

Builds a small program over bitmap_scan in a copy of the crates by LLVM at -O2, which takes each select fifty times. The program isn't
proved, so it has the checks of `rt try` in it, and a proved one is somewhat faster. Tells the best time for a row of a select that finds
all rows, where one transaction put them, so that a status is read once, and where two put them by turns, so that one is read for each row;
and of a select that finds none.
"""
import os
import pathlib
import shutil
import subprocess
import sys
import tempfile

from unproved import KIT, TRY, toolchain

TOP = os.path.dirname(os.path.dirname(os.path.abspath(__file__)))
ROWS = 5_440
NEEDED = "scan_bench: block_model store_layout snapshot_core disk_trait page_locks store_format page_store heap_rows tx_table bitmap_scan\n"
CALLS = ["a row of one transaction", "a row of two by turns", "a row that isn't found"]

MAIN = """//! Times selects.
#![tactic(auto)]

use block_model::{
    Column, Cond, Conds, Kind, Name, Op, Query, RowId, Schema, Sequence, Sizes, Table, Value,
};
use bitmap_scan::Scan;
use disk_trait::SteadyDisk;
use heap_rows::put;
use page_store::PageStore;
use page_locks::Did;
use snapshot_core::Snapshot;
use std::alloc::Global;
use std::io;
use std::time::Instant;
use store_format::format;
use store_layout::Layout;
use tx_table::TxTable;

/// How many rows each table has: 20 pages of 272.
const ROWS: u32 = 5_440;

/// Adds a table of one int8.
fn add_table(alloc: Global, tables: &mut Sequence<Table>, name: &[u8]) -> Option<()> {
    let mut columns = Sequence::new(alloc);
    columns
        .push(Column {
            name: Name::new(b"a")?,
            kind: Kind::Int,
        })
        .ok()?;
    tables
        .push(Table {
            name: Name::new(name)?,
            rows_per_page: 272,
            columns,
        })
        .ok()
}

/// A store of the tables `one(a int8)` and `two(a int8)`.
fn store(alloc: Global) -> Option<PageStore<SteadyDisk>> {
    let mut tables = Sequence::new(alloc);
    add_table(alloc, &mut tables, b"one")?;
    add_table(alloc, &mut tables, b"two")?;
    let schema = Schema {
        tables,
        indexes: Sequence::new(alloc),
    };
    let sizes = Sizes {
        heap_blocks: 20,
        index_blocks: 3,
        status_blocks: 1,
        log_pages: 4096,
        frames: 512,
    };
    let layout = Layout::new(schema, sizes).ok()?;
    let mut disk = SteadyDisk::new(alloc, layout.disk_size()).ok()?;
    format(&mut disk, &layout).ok()?;
    PageStore::start(alloc, disk).ok()
}

/// Puts the rows of the table, by the two transactions in turn.
fn put_all(store: &mut PageStore<SteadyDisk>, table: u8, even: u64, odd: u64) -> bool {
    'rows: for k in 0..ROWS {
        let t = if k % 2 == 0 { even } else { odd };
        let id = RowId { t, k };
        if put(store, table, id, &[Value::Int(i64::from(k))]).is_err() {
            return false;
        }
    }
    true
}

/// A query of the table: of all rows, or of those with this number.
fn query(alloc: Global, table: u8, only: Option<i64>) -> Option<Query> {
    let mut conds = Conds::new(alloc);
    if let Some(number) = only {
        conds
            .push(Cond {
                column: 0,
                op: Op::Eq,
                key: Value::Int(number),
            })
            .ok()?;
    }
    Some(Query { table, conds })
}

/// How many rows a select of the query finds.
fn select(
    alloc: Global,
    store: &mut PageStore<SteadyDisk>,
    tx: &TxTable,
    own: u64,
    query: Query,
) -> Option<usize> {
    let snapshot = Snapshot {
        next: own,
        active: Sequence::new(alloc),
    };
    let mut scan = Scan::new(alloc, query, store.layout()).ok()?;
    'steps: for _ in 0..u64::MAX {
        match scan.step(store, tx, &snapshot, own) {
            Ok(Did::Moved(_)) => {}
            Ok(Did::Finished(_)) => return Some(scan.found().len()),
            _ => return None,
        }
    }
    None
}

fn main(rt: HostRuntime) -> io::Result<()> {
    let alloc = rt.alloc();
    let Some(mut store) = store(alloc) else {
        return Ok(());
    };
    let Ok(mut tx) = TxTable::start(&mut store) else {
        return Ok(());
    };
    let Ok(one) = tx.begin(&mut store) else {
        return Ok(());
    };
    let Ok(two) = tx.begin(&mut store) else {
        return Ok(());
    };
    let put = put_all(&mut store, 0, one, one) && put_all(&mut store, 1, one, two);
    let ended = tx.commit(&mut store, one).is_ok() && tx.commit(&mut store, two).is_ok();
    let Ok(own) = tx.begin(&mut store) else {
        return Ok(());
    };
    let cases = [(0u8, None), (1, None), (0, Some(-1))];
    'rounds: for round in 0..150 {
        let (table, only) = cases[round % 3];
        let Some(query) = query(alloc, table, only) else {
            return Ok(());
        };
        let start = Instant::now(&rt)?;
        let count = select(alloc, &mut store, &tx, own, query);
        println!(rt; "took {} {}", start.elapsed(&rt)?.as_nanos(), count.unwrap_or(1))?;
    }
    println!(rt; "done {} {}", put, ended)
}
"""


def put_files(folder):
    """A copy of the crates, and the program over them."""
    shutil.copytree(os.path.join(TOP, "crates"), os.path.join(folder, "crates"), ignore=shutil.ignore_patterns("out"))
    shutil.copy(os.path.join(TOP, "HANDLES"), folder)
    with open(os.path.join(TOP, "crates.txt")) as lines, open(os.path.join(folder, "crates.txt"), "w") as out:
        out.write(lines.read() + NEEDED)
    crate = os.path.join(folder, "crates", "scan_bench")
    os.makedirs(os.path.join(crate, "src"))
    with open(os.path.join(crate, "src", "main.rt"), "w") as file:
        file.write(MAIN)
    return crate


def run(crate, tools):
    """Nanoseconds of each select, in fifty rounds; the program tells how many rows each found."""
    words = [sys.executable, "-c", TRY, str(tools), str(KIT / "bin")]
    ran = subprocess.run(words, cwd=crate, capture_output=True, text=True)
    lines = [line.split() for line in ran.stdout.splitlines()]
    took = [(int(line[1]), int(line[2])) for line in lines if line[:1] == ["took"]]
    done = [line[1:] for line in lines if line[:1] == ["done"]]
    if [count for _, count in took] != [ROWS, ROWS, 0] * 50 or done != [["true", "true"]]:
        sys.exit(ran.stdout + ran.stderr)
    return [time for time, _ in took]


def main():
    with tempfile.TemporaryDirectory() as folder:
        tools = toolchain(pathlib.Path(folder) / "toolchain")
        crate = put_files(folder)
        times = run(crate, tools)
    for at, name in enumerate(CALLS):
        print(f"{name}: {min(times[at::3]) / ROWS:.1f} ns")


if __name__ == "__main__":
    main()
