#!/usr/bin/env python3
"""Times calls on the pages of an index, on a store over a disk in memory: index_calls.py. No part of the gate.

Builds a small program over revmap and range_store in a copy of the crates by LLVM at -O2, and runs it five times. The program isn't
proved, so it has the checks of `rt try` in it, and a proved one is somewhat faster, most where bytes move. All pages have frames, and
the log takes all changes that are timed without a checkpoint. The index has 16384 blocks: a metapage, 16 pages of the map, 1024 full
pages with 226 tuples of 32 bytes each, and a large tuple on all others. Tells the best time of each call; the search for room where the
first page has it, where the last one alone has it, and where none has.
"""
import os
import pathlib
import shutil
import subprocess
import sys
import tempfile

from unproved import KIT, TRY, toolchain

TOP = os.path.dirname(os.path.dirname(os.path.abspath(__file__)))
CALLS = {
    "an entry that is set": 261_120,
    "an entry that is read": 261_120,
    "a tuple that is put where there is room": 231_424,
    "a tuple that is read": 231_424,
    "a tuple that is read, of another page each time": 231_424,
    "a tuple that gives way to one as long": 231_424,
    "a tuple that is dropped amid a full page": 10_240,
    "a tuple that gives way to a longer one there": 10_240,
    "room on the first page": 100_000,
    "room on the last page alone": 100_000,
    "room on no page": 100_000,
}
NEEDED = "index_bench: block_model store_layout disk_trait wal_record page_layout store_format page_store revmap range_store\n"

MAIN = """//! Times calls on the pages of an index.
#![tactic(auto)]

use block_model::{
    Class, Column, Index, Kind, Name, PAGE_SIZE, Part, Place, Schema, Sequence, Sizes, Spot, Table,
};
use disk_trait::SteadyDisk;
use page_store::PageStore;
use page_layout::{MAP, META, REGULAR};
use range_store::{Scratch, drop_at, put, replace, room_for, tuple_at};
use revmap::{entry, set};
use std::alloc::Global;
use std::io;
use std::time::Instant;
use store_format::format;
use store_layout::Layout;
use wal_record::Change;

type Store = PageStore<SteadyDisk>;

/// The relation of the index, its blocks, and the first one behind those of the map.
const RELATION: u8 = 2;
const BLOCKS: u32 = 16384;
const TUPLES: u32 = 17;

/// How many ranges 16 pages of the map have, and how often each entry is set and read.
const RANGES: u32 = 16320;
const ROUNDS: u32 = 16;

/// How many tuples fill a page, and how many pages they fill.
const ON_A_PAGE: u32 = 226;
const FULL: u32 = 1024;

/// The layout of the table `t(a int8)` with an index.
fn layout(alloc: Global) -> Option<Layout> {
    let mut columns = Sequence::new(alloc);
    columns
        .push(Column {
            name: Name::new(b"a")?,
            kind: Kind::Int,
        })
        .ok()?;
    let mut tables = Sequence::new(alloc);
    tables
        .push(Table {
            name: Name::new(b"t")?,
            rows_per_page: 1,
            columns,
        })
        .ok()?;
    let mut parts = Sequence::new(alloc);
    parts
        .push(Part {
            column: 0,
            class: Class::MinMax,
        })
        .ok()?;
    let mut indexes = Sequence::new(alloc);
    indexes
        .push(Index {
            name: Name::new(b"i")?,
            table: 0,
            pages_per_range: 1,
            auto: false,
            parts,
        })
        .ok()?;
    let sizes = Sizes {
        heap_blocks: 1,
        index_blocks: BLOCKS,
        status_blocks: 1,
        log_pages: 4096,
        frames: 16400,
    };
    Layout::new(Schema { tables, indexes }, sizes).ok()
}

/// A store whose index has a map of 16 pages.
fn store(alloc: Global) -> Option<Store> {
    let layout = layout(alloc)?;
    let mut disk = SteadyDisk::new(alloc, layout.disk_size()).ok()?;
    format(&mut disk, &layout).ok()?;
    let mut pages = PageStore::start(alloc, disk).ok()?;
    let mut bytes = [0; PAGE_SIZE];
    bytes[0] = META;
    bytes[35] = 16;
    let place = Place { relation: RELATION, block: 0 };
    pages.change(place, &Change::FullPage { place, bytes: &bytes }).ok()?;
    'maps: for block in 1..TUPLES {
        let place = Place { relation: RELATION, block };
        pages.change(place, &Change::PageStart { place, kind: MAP }).ok()?;
    }
    Some(pages)
}

/// The tuple of that range in a round: the number of the range first, and in all 32 bytes.
fn tuple(range: u32, round: u8) -> [u8; 32] {
    let mut bytes = [round; 32];
    bytes[..4].copy_from_slice(&range.to_be_bytes());
    bytes
}

/// Where the tuples stand, in order.
fn spot(n: u32) -> Spot {
    Spot {
        block: TUPLES + n / ON_A_PAGE,
        slot: (n % ON_A_PAGE) as u16,
    }
}

/// How many tuples there are.
fn tuples() -> u32 {
    FULL * ON_A_PAGE
}

/// Names another spot for each range, in every round.
fn set_all(pages: &mut Store) -> bool {
    'rounds: for round in 0..ROUNDS {
        let now = if round == 0 { None } else { Some(spot(round)) };
        'ranges: for range in 0..RANGES {
            if set(pages, 0, range, now, Some(spot(round + 1))).is_err() {
                return false;
            }
        }
    }
    true
}

fn read_all(pages: &mut Store) -> bool {
    'rounds: for _ in 0..ROUNDS {
        'ranges: for range in 0..RANGES {
            if entry(pages, 0, range) != Ok(Some(spot(ROUNDS))) {
                return false;
            }
        }
    }
    true
}

/// Puts the tuples, each on the page that is found for it.
fn put_all(pages: &mut Store) -> bool {
    'puts: for n in 0..tuples() {
        if room_for(pages, 0, 32) != Some(spot(n).block) {
            return false;
        }
        if put(pages, 0, spot(n).block, &tuple(n, 0)) != Ok(spot(n)) {
            return false;
        }
    }
    true
}

/// Reads each tuple, so many further on from one to the next.
fn look_all(pages: &mut Store, scratch: &mut Scratch, step: u64) -> bool {
    'looks: for i in 0..tuples() {
        let n = (u64::from(i) * step % u64::from(tuples())) as u32;
        if tuple_at(pages, 0, spot(n), n, scratch) != Ok(true) {
            return false;
        }
    }
    true
}

fn replace_all(pages: &mut Store) -> bool {
    'swaps: for n in 0..tuples() {
        if replace(pages, 0, spot(n), &tuple(n, 0), &tuple(n, 1)).is_err() {
            return false;
        }
    }
    true
}

/// Ten tuples of each page, from that slot on: the tuple of that number.
fn amid(i: u32, slot: u32) -> u32 {
    i / 10 * ON_A_PAGE + slot + i % 10
}

fn drop_some(pages: &mut Store) -> bool {
    'drops: for i in 0..FULL * 10 {
        if drop_at(pages, 0, spot(amid(i, 100))).is_err() {
            return false;
        }
    }
    true
}

/// The tuples behind the longer one move.
fn lengthen(pages: &mut Store) -> bool {
    'swaps: for i in 0..FULL * 10 {
        let n = amid(i, 110);
        let mut bytes = [2; 40];
        bytes[..4].copy_from_slice(&n.to_be_bytes());
        if replace(pages, 0, spot(n), &tuple(n, 1), &bytes).is_err() {
            return false;
        }
    }
    true
}

/// Puts a large tuple on each page behind the full ones.
fn fill_rest(pages: &mut Store) -> bool {
    'puts: for block in TUPLES + FULL..BLOCKS {
        if put(pages, 0, block, &[1; 4000]).is_err() {
            return false;
        }
    }
    true
}

/// Whether every search finds that block.
fn search(pages: &Store, need: u16, block: Option<u32>) -> bool {
    'searches: for _ in 0..100000 {
        if room_for(pages, 0, need) != block {
            return false;
        }
    }
    true
}

/// Each page but the last one has no room for 7000 bytes; that one is anew.
fn empty_last(pages: &mut Store) -> bool {
    let place = Place { relation: RELATION, block: BLOCKS - 1 };
    pages.change(place, &Change::PageStart { place, kind: REGULAR }).is_ok()
}

fn main(rt: HostRuntime) -> io::Result<()> {
    let Some(mut pages) = store(rt.alloc()) else {
        return Ok(());
    };
    let Ok(mut scratch) = Scratch::new(rt.alloc()) else {
        return Ok(());
    };
    let start = Instant::now(&rt)?;
    let sets = set_all(&mut pages);
    println!(rt; "took {}", start.elapsed(&rt)?.as_nanos())?;
    let start = Instant::now(&rt)?;
    let reads = read_all(&mut pages);
    println!(rt; "took {}", start.elapsed(&rt)?.as_nanos())?;
    let start = Instant::now(&rt)?;
    let puts = put_all(&mut pages);
    println!(rt; "took {}", start.elapsed(&rt)?.as_nanos())?;
    let start = Instant::now(&rt)?;
    let looks = look_all(&mut pages, &mut scratch, 1);
    println!(rt; "took {}", start.elapsed(&rt)?.as_nanos())?;
    let start = Instant::now(&rt)?;
    let others = look_all(&mut pages, &mut scratch, 22607);
    println!(rt; "took {}", start.elapsed(&rt)?.as_nanos())?;
    let start = Instant::now(&rt)?;
    let swaps = replace_all(&mut pages);
    println!(rt; "took {}", start.elapsed(&rt)?.as_nanos())?;
    let start = Instant::now(&rt)?;
    let drops = drop_some(&mut pages);
    println!(rt; "took {}", start.elapsed(&rt)?.as_nanos())?;
    let start = Instant::now(&rt)?;
    let longer = lengthen(&mut pages);
    println!(rt; "took {}", start.elapsed(&rt)?.as_nanos())?;
    let filled = fill_rest(&mut pages);
    let start = Instant::now(&rt)?;
    let first = search(&pages, 32, Some(TUPLES));
    println!(rt; "took {}", start.elapsed(&rt)?.as_nanos())?;
    let emptied = empty_last(&mut pages);
    let start = Instant::now(&rt)?;
    let last = search(&pages, 7000, Some(BLOCKS - 1));
    println!(rt; "took {}", start.elapsed(&rt)?.as_nanos())?;
    let start = Instant::now(&rt)?;
    let none = search(&pages, 8157, None);
    println!(rt; "took {}", start.elapsed(&rt)?.as_nanos())?;
    println!(rt; "done {} {} {} {} {}", sets, reads, puts, looks, others)?;
    println!(rt; "done {} {} {} {} {}", swaps, drops, longer, filled && first, emptied && last && none)
}
"""


def put_files(folder):
    """A copy of the crates, and the program over them."""
    shutil.copytree(os.path.join(TOP, "crates"), os.path.join(folder, "crates"), ignore=shutil.ignore_patterns("out"))
    shutil.copy(os.path.join(TOP, "HANDLES"), folder)
    with open(os.path.join(TOP, "crates.txt")) as lines, open(os.path.join(folder, "crates.txt"), "w") as out:
        out.write(lines.read() + NEEDED)
    crate = os.path.join(folder, "crates", "index_bench")
    os.makedirs(os.path.join(crate, "src"))
    with open(os.path.join(crate, "src", "main.rt"), "w") as file:
        file.write(MAIN)
    return crate


def run(crate, tools):
    """Nanoseconds of each part; the program tells whether each call was answered as it should be."""
    words = [sys.executable, "-c", TRY, str(tools), str(KIT / "bin")]
    ran = subprocess.run(words, cwd=crate, capture_output=True, text=True)
    lines = [line.split() for line in ran.stdout.splitlines()]
    took = [int(line[1]) for line in lines if line[:1] == ["took"]]
    done = [word for line in lines if line[:1] == ["done"] for word in line[1:]]
    if len(took) != len(CALLS) or done != ["true"] * 10:
        sys.exit(ran.stdout + ran.stderr)
    return took


def main():
    with tempfile.TemporaryDirectory() as folder:
        tools = toolchain(pathlib.Path(folder) / "toolchain")
        crate = put_files(folder)
        runs = [run(crate, tools) for _ in range(5)]
    for (name, count), times in zip(CALLS.items(), zip(*runs)):
        print(f"{name}: {min(times) / count:.1f} ns")


if __name__ == "__main__":
    main()
