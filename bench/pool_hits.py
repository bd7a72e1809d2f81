#!/usr/bin/env python3
"""Times calls of the pool of pages at 256 and 65536 frames: pool_hits.py. No part of the gate.

Builds a small program over buffer_pool in a copy of the crates by LLVM at -O2, and runs it five times. The program isn't proved, so
it has the checks of `rt try` in it, and a proved one is somewhat faster. Tells the best time of a hit at a page chosen at random, without a look at the page and with a look at its first byte; of a page that is set in
place of a clean one, where all frames hold clean pages and where all but one hold dirty ones; and of a walk over the dirty
pages in order, where every frame holds one, for each page. The larger pool takes 512 MiB.
"""
import os
import pathlib
import re
import shutil
import subprocess
import sys
import tempfile

from unproved import KIT, TRY, toolchain

TOP = os.path.dirname(os.path.dirname(os.path.abspath(__file__)))
HITS = 5_000_000
CROWDED = 2_000
NEEDED = "pool_bench: block_model page_layout buffer_pool\n"

MAIN = """//! Times hits of a pool.
#![tactic(auto)]

use buffer_pool::Pool;
use page_layout::Page;
use std::alloc::Global;
use std::io;
use std::time::Instant;

/// How many hits are made.
const HITS: u32 = 5_000_000;

/// How many pages are set in place of the only clean one.
const CROWDED: u32 = 2_000;

/// The next number of a series that looks random.
fn next(state: u64) -> u64 {
    state.wrapping_mul(6364136223846793005).wrapping_add(1442695040888963407)
}

/// A pool whose frames hold the pages from 0 on, all of them clean.
fn filled(alloc: Global, frames: u32) -> Option<Pool> {
    let mut pool = Pool::new(alloc, frames).ok()?;
    let content = Page::zeroed();
    'pages: for page in 0..frames {
        if pool.set(u64::from(page), &content, None).is_err() {
            return None;
        }
    }
    Some(pool)
}

/// How many of the pages were held.
fn hits(pool: &mut Pool, mask: u64) -> u32 {
    let mut state: u64 = 1;
    let mut held: u32 = 0;
    'hits: for _ in 0..HITS {
        state = next(state);
        if pool.get((state >> 33) & mask).is_some() {
            held = held.wrapping_add(1);
        }
    }
    held
}

/// Reads the first byte of each, and tells how many were 0.
fn looks(pool: &mut Pool, mask: u64) -> u32 {
    let mut state: u64 = 1;
    let mut zeros: u32 = 0;
    'looks: for _ in 0..HITS {
        state = next(state);
        if first_byte(pool, (state >> 33) & mask) == 0 {
            zeros = zeros.wrapping_add(1);
        }
    }
    zeros
}

fn first_byte(pool: &mut Pool, page: u64) -> u8 {
    match pool.get(page) {
        Some(found) => found.as_bytes()[0],
        None => 1,
    }
}

/// Sets as many other pages as there are frames, and tells how many were set.
fn misses(pool: &mut Pool, frames: u32) -> u32 {
    let content = Page::zeroed();
    let mut count: u32 = 0;
    'misses: for page in 0..frames {
        if pool.set(u64::from(frames) + u64::from(page), &content, None).is_ok() {
            count = count.wrapping_add(1);
        }
    }
    count
}

/// Makes every page but the last one dirty, of those that were set last.
fn crowd(pool: &mut Pool, frames: u32) -> bool {
    let content = Page::zeroed();
    'pages: for page in 1..frames {
        if pool.set(u64::from(frames) + u64::from(page) - 1, &content, Some(1)).is_err() {
            return false;
        }
    }
    true
}

/// Sets other pages in place of the only clean one, and tells how many were set.
fn crowded_misses(pool: &mut Pool, frames: u32) -> u32 {
    let content = Page::zeroed();
    let mut count: u32 = 0;
    'misses: for page in 0..CROWDED {
        if pool.set(2 * u64::from(frames) + u64::from(page), &content, None).is_ok() {
            count = count.wrapping_add(1);
        }
    }
    count
}

/// Goes through the dirty pages in order, and tells how many there are.
fn walk(pool: &mut Pool, frames: u32) -> u32 {
    let mut count: u32 = 0;
    let mut from: u64 = 0;
    'pages: for _ in 0..frames {
        let Some(page) = pool.next_dirty(from) else {
            return count;
        };
        count = count.wrapping_add(1);
        from = page.wrapping_add(1);
    }
    count
}

fn measure(rt: &HostRuntime, alloc: Global, frames: u32, mask: u64) -> io::Result<()> {
    let Some(mut pool) = filled(alloc, frames) else {
        return Ok(());
    };
    let start = Instant::now(rt)?;
    let held = hits(&mut pool, mask);
    let hit = start.elapsed(rt)?;
    let start = Instant::now(rt)?;
    let zeros = looks(&mut pool, mask);
    let look = start.elapsed(rt)?;
    let start = Instant::now(rt)?;
    let count = misses(&mut pool, frames);
    let miss = start.elapsed(rt)?;
    let is_crowded = crowd(&mut pool, frames);
    let start = Instant::now(rt)?;
    let crowded = crowded_misses(&mut pool, frames);
    let crowded_miss = start.elapsed(rt)?;
    let content = Page::zeroed();
    let is_set = pool.set(2 * u64::from(frames) + u64::from(CROWDED) - 1, &content, Some(1)).is_ok();
    let start = Instant::now(rt)?;
    let dirty = walk(&mut pool, frames);
    let walked = start.elapsed(rt)?;
    println!(*rt; "{} {} {} {} {} {}", frames, held, zeros, count, is_crowded, is_set)?;
    println!(*rt; "{} {}", crowded, dirty)?;
    println!(*rt; "{} {} {}", hit.as_nanos(), look.as_nanos(), miss.as_nanos())?;
    println!(*rt; "{} {}", crowded_miss.as_nanos(), walked.as_nanos())
}

fn main(rt: HostRuntime) -> io::Result<()> {
    measure(&rt, rt.alloc(), 256, 255)?;
    measure(&rt, rt.alloc(), 65536, 65535)
}
"""


def put_files(folder):
    """A copy of the crates, and the program over them."""
    shutil.copytree(os.path.join(TOP, "crates"), os.path.join(folder, "crates"), ignore=shutil.ignore_patterns("out"))
    shutil.copy(os.path.join(TOP, "HANDLES"), folder)
    with open(os.path.join(TOP, "crates.txt")) as lines, open(os.path.join(folder, "crates.txt"), "w") as out:
        out.write(lines.read() + NEEDED)
    crate = os.path.join(folder, "crates", "pool_bench")
    for name, text in {"src/main.rt": MAIN, "proofs/Lib.antt": ""}.items():
        path = os.path.join(crate, name)
        os.makedirs(os.path.dirname(path), exist_ok=True)
        with open(path, "w") as file:
            file.write(text)
    return crate


def run(crate, tools):
    """For each number of frames, nanoseconds of a hit, a look, a miss, a miss where one frame is clean, and a page of a walk."""
    words = [sys.executable, "-c", TRY, str(tools), str(KIT / "bin")]
    ran = subprocess.run(words, cwd=crate, capture_output=True, text=True)
    lines = [line for line in ran.stdout.splitlines() if re.fullmatch(r"[0-9]+( ([0-9]+|true|false))*", line)]
    if len(lines) != 8:
        sys.exit(ran.stdout + ran.stderr)
    times = {}
    for counts, states, plain, crowded in zip(*[iter(lines)] * 4):
        frames = int(counts.split()[0])
        if counts.split()[1:] != [str(HITS), str(HITS), str(frames), "true", "true"] or states.split() != [str(CROWDED), str(frames)]:
            sys.exit(f"not every page was held and set: {counts} {states}")
        parts = (HITS, HITS, frames, CROWDED, frames)
        times[frames] = [int(time) / part for time, part in zip(plain.split() + crowded.split(), parts)]
    return times


def main():
    with tempfile.TemporaryDirectory() as folder:
        tools = toolchain(pathlib.Path(folder) / "toolchain")
        crate = put_files(folder)
        runs = [run(crate, tools) for _ in range(5)]
    for frames in runs[0]:
        hit, look, miss, crowded, page = (min(times[frames][k] for times in runs) for k in range(5))
        print(f"{frames} frames: a hit {hit:.1f} ns, with its first byte {look:.1f} ns, a page set in place of another {miss:.1f} ns,")
        print(f"  of the only clean one {crowded:.1f} ns, a page of a walk over dirty ones {page:.1f} ns")


if __name__ == "__main__":
    main()
