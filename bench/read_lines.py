#!/usr/bin/env python3
"""Times the reading of lines: read_lines.py [CHECKOUT..]. No part of the gate.

Builds a small program over query_words in a copy of the crates of each checkout (this one, if none is named), by LLVM at -O2, and runs
the programs in turn, so that all meet the same machine. The programs aren't proved, so they have the checks of `rt try` in them, and a
proved one is faster. It reads a thousand `insert` lines of one int8 and of eight, many times over, and sums their numbers. Tells for each
checkout and each kind of line the best time of a line and of a byte in nanoseconds, the lines a second, and the instructions of a line
where valgrind is there. Needs `rt`.
"""
import os
import pathlib
import re
import shutil
import subprocess
import sys
import tempfile

import unproved

HERE = os.path.dirname(os.path.dirname(os.path.abspath(__file__)))
NEEDED = "line_bench: block_model statements store_layout query_words\n"
LINES = 1_000
ROUNDS = 5
RUNS = 150

MAIN = """//! Times the reading of lines.
#![tactic(auto)]

use block_model::{Column, Kind, Name, Schema, Sequence, Sizes, Table, Value};
use query_words::{Line, Order, read_line};
use statements::Statement;
use std::alloc::Global;
use std::env;
use std::io::{self, Read};
use std::time::Instant;
use store_layout::Layout;

/// A table of int8 columns named from `a` on.
fn table(alloc: Global, name: u8, columns: u8) -> Option<Table> {
    let mut kept = Sequence::new(alloc);
    for n in 0..columns {
        let name = Name::new(&[b'a'.wrapping_add(n)])?;
        let kind = Kind::Int;
        kept.push(Column { name, kind }).ok()?;
    }
    Some(Table {
        name: Name::new(&[name])?,
        rows_per_page: 16,
        columns: kept,
    })
}

/// The tables `t` of one column and `u` of eight.
fn layout(alloc: Global) -> Option<Layout> {
    let mut tables = Sequence::new(alloc);
    tables.push(table(alloc, b't', 1)?).ok()?;
    tables.push(table(alloc, b'u', 8)?).ok()?;
    let indexes = Sequence::new(alloc);
    let sizes = Sizes {
        heap_blocks: 8,
        index_blocks: 4,
        status_blocks: 1,
        log_pages: 16,
        frames: 16,
    };
    Layout::new(Schema { tables, indexes }, sizes).ok()
}

/// The sum of the numbers that a line inserts; none where it isn't an insert that is read.
#[inline(never)]
fn sum(alloc: Global, line: &[u8], layout: &Layout) -> Option<i64> {
    match read_line(alloc, line, layout) {
        Ok(Line::Say { order, .. }) => sum_of(&order),
        _ => None,
    }
}

fn sum_of(order: &Order) -> Option<i64> {
    let Order::Whole(statement) = order else {
        return None;
    };
    let Statement::Insert { values, .. } = statement else {
        return None;
    };
    let mut sum: i64 = 0;
    for value in values.as_slice() {
        if let Value::Int(number) = value {
            sum = sum.wrapping_add(*number);
        }
    }
    Some(sum)
}

/// Reads each line, and answers the sum of all numbers, and how many lines were read.
fn read_all(alloc: Global, layout: &Layout, lines: &[&[u8]]) -> (i64, u64) {
    let mut total: i64 = 0;
    let mut count: u64 = 0;
    for line in lines {
        if let Some(sum) = sum(alloc, line, layout) {
            total = total.wrapping_add(sum);
            count = count.wrapping_add(1);
        }
    }
    (total, count)
}

fn main(rt: HostRuntime) -> io::Result<()> {
    let mut args = env::args(&rt)?;
    args.next();
    let rounds: u64 = match args.next() {
        Some(rounds) => rounds.parse().unwrap_or(1),
        None => 1,
    };
    let mut script = Vec::new(rt.alloc());
    rt.stdin().read_to_end(&mut script)?;
    let mut lines = Vec::new(rt.alloc());
    for line in script.split(|b| *b == b'\\n') {
        lines.push(line)?;
    }
    let Some(layout) = layout(rt.alloc()) else {
        return Ok(());
    };
    let start = Instant::now(&rt)?;
    let mut count: u64 = 0;
    let mut total: i64 = 0;
    for _ in 0..rounds {
        let read = read_all(rt.alloc(), &layout, &lines);
        total = total.wrapping_add(read.0);
        count = count.wrapping_add(read.1);
    }
    let took = start.elapsed(&rt)?;
    println!(rt; "{} {} {}", count, took.as_nanos(), total)
}
"""


def inserts(columns):
    """Lines that insert a row of so many numbers below a million."""
    table = "tu"[columns > 1]
    rows = ([(n * 997 + c * 123_457) % 1_000_000 for c in range(columns)] for n in range(LINES))
    return "\n".join(f"s1 insert {table} {' '.join(map(str, row))}" for row in rows)


def put_files(checkout, folder):
    """A copy of the crates, and the program over them."""
    shutil.copytree(os.path.join(checkout, "crates"), os.path.join(folder, "crates"), ignore=shutil.ignore_patterns("out"))
    shutil.copy(os.path.join(checkout, "HANDLES"), folder)
    with open(os.path.join(checkout, "crates.txt")) as lines, open(os.path.join(folder, "crates.txt"), "w") as out:
        out.write(lines.read() + NEEDED)
    crate = os.path.join(folder, "crates", "line_bench")
    for name, text in {"src/main.rt": MAIN, "proofs/Lib.antt": ""}.items():
        path = os.path.join(crate, name)
        os.makedirs(os.path.dirname(path), exist_ok=True)
        with open(path, "w") as file:
            file.write(text)
    return crate


def build(checkout, program):
    """The program over the crates of the checkout, which nothing proves."""
    with tempfile.TemporaryDirectory() as folder:
        unproved.build(pathlib.Path(put_files(checkout, folder)), pathlib.Path(folder), pathlib.Path(program))


def run(program, script, rounds):
    """Nanoseconds of all lines in all rounds; the program tells how many it read."""
    words = subprocess.run([program, str(rounds)], input=script, capture_output=True, text=True, check=True).stdout.split()
    if int(words[0]) != LINES * rounds:
        sys.exit(f"not all lines were read: {words}")
    return int(words[1])


def collected(program, script, rounds):
    """The instructions of a run."""
    words = ["valgrind", "--tool=callgrind", "--callgrind-out-file=/dev/null", program, str(rounds)]
    told = subprocess.run(words, input=script, capture_output=True, text=True, check=True).stderr
    return int(re.search(r"Collected : (\d+)", told).group(1))


def instructions(program, script):
    """The instructions of a line, without those of the start; none where there is no valgrind."""
    if shutil.which("valgrind") is None:
        return "-"
    return (collected(program, script, 3) - collected(program, script, 1)) // (2 * LINES)


def main():
    checkouts = [os.path.abspath(checkout) for checkout in sys.argv[1:]] or [HERE]
    with tempfile.TemporaryDirectory() as folder:
        programs = {checkout: os.path.join(folder, f"program_{n}") for n, checkout in enumerate(checkouts)}
        for checkout, program in programs.items():
            build(checkout, program)
        print("| checkout | columns | ns a line | ns a byte | lines a second | instructions a line |")
        print("|---" * 6 + "|")
        for columns in (1, 8):
            script = inserts(columns)
            turns = [{checkout: run(program, script, ROUNDS) for checkout, program in programs.items()} for _ in range(RUNS)]
            best = {checkout: min(turn[checkout] for turn in turns) for checkout in programs}
            for checkout, program in programs.items():
                line = best[checkout] / (LINES * ROUNDS)
                size = (len(script) + 1) / LINES
                print(f"| {checkout} | {columns} | {line:.0f} | {line / size:.1f} | {1e9 / line:,.0f} | {instructions(program, script)} |")


if __name__ == "__main__":
    main()
