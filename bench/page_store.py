#!/usr/bin/env python3
"""Times the store of pages over log and pool: page_store.py [FOLDER]. No part of the gate.

Builds a small program over page_store in a copy of the crates by LLVM at -O2, and runs it five times. The program isn't proved, so
it has the checks of `rt try` in it, and a proved one is somewhat faster. Tells the best time of a change of one of 64 pages of
statuses over a disk in memory, with its flushes and checkpoints; of one change and its flush over a file in the folder (a folder for
temporary files, if none is named), beside the same four calls on the file alone: two writes and two syncs; of a checkpoint of 64 dirty
pages over the file; and of an opening of the store on the file.
"""
import os
import pathlib
import shutil
import subprocess
import sys
import tempfile

from unproved import KIT, TRY, toolchain

TOP = os.path.dirname(os.path.dirname(os.path.abspath(__file__)))
CHANGES = 2_088_960
FLUSHES = 1_000
NEEDED = "store_bench: block_model store_layout disk_trait wal_record store_format page_store\n"
CALLS = {
    "a change over log and pool": CHANGES,
    "two writes and two syncs of a file": FLUSHES,
    "a change and its flush over a file": FLUSHES,
    "a checkpoint of 64 dirty pages over a file": 1,
    "an opening of that store of 4,162 pages": 1,
}

MAIN = """//! Times changes, flushes, a checkpoint and an opening.
#![tactic(auto)]

use block_model::{Column, Kind, Name, Place, Schema, Sequence, Sizes, Table};
use disk_trait::{Disk, FileDisk, SteadyDisk};
use page_store::PageStore;
use std::alloc::Global;
use std::fs::OpenOptions;
use std::io;
use std::time::Instant;
use store_format::format;
use store_layout::Layout;
use wal_record::Change;

/// How many statuses 64 pages have.
const CHANGES: u64 = 2_088_960;

/// How many flushes are made.
const FLUSHES: u64 = 1000;

/// A frame of one change behind its gate, with the next gate.
const FRAME: [u8; 27] = [7; 27];

/// The table `t(a int8)` with 64 pages of statuses, and 4,096 blocks of the table.
fn layout(alloc: Global) -> Option<Layout> {
    let mut columns = Sequence::new(alloc);
    columns
        .push(Column {
            name: Name::new(b"a")?,
            kind: Kind::Int,
        })
        .ok()?;
    let mut tables = Sequence::new(alloc);
    tables
        .push(Table {
            name: Name::new(b"t")?,
            rows_per_page: 1,
            columns,
        })
        .ok()?;
    let schema = Schema {
        tables,
        indexes: Sequence::new(alloc),
    };
    let sizes = Sizes {
        heap_blocks: 4096,
        index_blocks: 3,
        status_blocks: 64,
        log_pages: 4096,
        frames: 256,
    };
    Layout::new(schema, sizes).ok()
}

/// The change of a status; each change is on another page than the one before.
fn change(i: u64) -> (Place, u16) {
    let place = Place {
        relation: 0,
        block: (i % 64) as u32,
    };
    (place, (i / 64 % 32640) as u16)
}

fn all_logged(store: &mut PageStore<SteadyDisk>) -> bool {
    'changes: for i in 0..CHANGES {
        let (place, entry) = change(i);
        if store.change(place, &Change::StatusSet { place, entry, status: 1 }).is_err() {
            return false;
        }
    }
    store.flush().is_ok()
}

fn flushes(store: &mut PageStore<FileDisk>) -> bool {
    'flushes: for i in 0..FLUSHES {
        let (place, entry) = change(i);
        if store.change(place, &Change::StatusSet { place, entry, status: 1 }).is_err() {
            return false;
        }
        if store.flush().is_err() {
            return false;
        }
    }
    true
}

/// The calls of as many flushes on the file alone.
fn calls(disk: &mut FileDisk) -> Option<()> {
    let mut at: u64 = 8192;
    'calls: for _ in 0..FLUSHES {
        disk.write(at.wrapping_add(1), &FRAME).ok()?;
        disk.sync().ok()?;
        disk.write(at, &[1]).ok()?;
        disk.sync().ok()?;
        at = at.wrapping_add(27);
    }
    Some(())
}

fn main(rt: HostRuntime) -> io::Result<()> {
    let alloc = rt.alloc();
    let Some(layout) = layout(alloc) else {
        return Ok(());
    };
    let Ok(mut disk) = SteadyDisk::new(alloc, layout.disk_size()) else {
        return Ok(());
    };
    if format(&mut disk, &layout).is_err() {
        return Ok(());
    }
    let Ok(mut logged) = PageStore::start(alloc, disk) else {
        return Ok(());
    };
    let start = Instant::now(&rt)?;
    let kept = all_logged(&mut logged);
    println!(rt; "took {}", start.elapsed(&rt)?.as_nanos())?;
    let file = OpenOptions::new().read(true).write(true).open(&rt, "DISK")?;
    let mut disk = FileDisk::on(file, layout.disk_size());
    let start = Instant::now(&rt)?;
    let Some(()) = calls(&mut disk) else {
        return Ok(());
    };
    println!(rt; "took {}", start.elapsed(&rt)?.as_nanos())?;
    if format(&mut disk, &layout).is_err() {
        return Ok(());
    }
    let Ok(mut store) = PageStore::start(alloc, disk) else {
        return Ok(());
    };
    let start = Instant::now(&rt)?;
    let flushed = flushes(&mut store);
    println!(rt; "took {}", start.elapsed(&rt)?.as_nanos())?;
    let start = Instant::now(&rt)?;
    let checked = store.checkpoint().is_ok();
    println!(rt; "took {}", start.elapsed(&rt)?.as_nanos())?;
    let disk = store.into_disk();
    let start = Instant::now(&rt)?;
    let opened = PageStore::start(alloc, disk).is_ok();
    println!(rt; "took {}", start.elapsed(&rt)?.as_nanos())?;
    println!(rt; "done {} {} {} {}", kept, flushed, checked, opened)
}
"""


def put_files(folder):
    """A copy of the crates, and the program over them."""
    shutil.copytree(os.path.join(TOP, "crates"), os.path.join(folder, "crates"), ignore=shutil.ignore_patterns("out"))
    shutil.copy(os.path.join(TOP, "HANDLES"), folder)
    with open(os.path.join(TOP, "crates.txt")) as lines, open(os.path.join(folder, "crates.txt"), "w") as out:
        out.write(lines.read() + NEEDED)
    crate = os.path.join(folder, "crates", "store_bench")
    os.makedirs(os.path.join(crate, "src"))
    with open(os.path.join(crate, "src", "main.rt"), "w") as file:
        file.write(MAIN.replace("DISK", os.path.join(crate, "disk")))
    return crate


def run(crate, tools):
    """Nanoseconds of each part; the program tells whether each call was answered by Ok."""
    with open(os.path.join(crate, "disk"), "wb") as file:
        file.truncate(2**27)
    words = [sys.executable, "-c", TRY, str(tools), str(KIT / "bin")]
    ran = subprocess.run(words, cwd=crate, capture_output=True, text=True)
    lines = [line.split() for line in ran.stdout.splitlines()]
    took = [int(line[1]) for line in lines if line[:1] == ["took"]]
    done = [line[1:] for line in lines if line[:1] == ["done"]]
    if len(took) != len(CALLS) or done != [["true"] * 4]:
        sys.exit(ran.stdout + ran.stderr)
    return took


def main():
    where = sys.argv[1] if len(sys.argv) > 1 else None
    with tempfile.TemporaryDirectory(dir=where) as folder:
        tools = toolchain(pathlib.Path(folder) / "toolchain")
        crate = put_files(folder)
        runs = [run(crate, tools) for _ in range(5)]
    for (name, count), times in zip(CALLS.items(), zip(*runs)):
        print(f"{name}: {min(times) / count:,.1f} ns")


if __name__ == "__main__":
    main()
