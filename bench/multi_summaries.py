#!/usr/bin/env python3
"""Times the calls of multi-minmax summaries: multi_summaries.py [CHECKOUT]. No part of the gate.

Builds a small program over opclass_multi in a copy of the crates of the checkout (this one, if none is named), with `rt run`, and runs it
five times. Tells for each limit and each kind of numbers the best time of a call, in nanoseconds, of many batches. Needs `rt`.
"""
import os
import shutil
import subprocess
import sys
import tempfile

HERE = os.path.dirname(os.path.dirname(os.path.abspath(__file__)))
NEEDED = "multi_bench: block_model opclass_api opclass_multi\n"
LIMITS = [8, 32, 256]
KINDS = {"spread": [], "even": ["even"]}
ROUNDS = 20
CALLS = ["encode", "decode", "add", "add what is held", "decode and add", "decode and union", "union of what is held"]

MAIN = """//! Times the calls of multi-minmax summaries.
#![tactic(auto)]

use block_model::Value;
use opclass_api::OpClass;
use opclass_multi::{Multi, Summary};
use std::alloc::Global;
use std::env;
use std::io;
use std::marker::Model;
use std::time::Instant;

/// How often each call is timed, and how often it is made each time.
const TIMES: u64 = 1_000;

const ROUNDS: u64 = 20;

/// A number of numbers that fills any summary.
const NUMBERS: u64 = 600;

/// The bytes of the greatest summary.
const ROOM: usize = 2306;

/// Summaries of one class, and the bytes of the first.
#[derive(Drop)]
struct Trial {
    class: Multi,
    first: Summary,
    second: Summary,
    work: Summary,
    bytes: [u8; ROOM],
    out: [u8; ROOM],
    even: bool,
}

impl Model for Trial {
    ghost use Rattle.std.specs.Prelude.{ℕ, ◌≤◌, length};
    ghost use Rattle.opclass_multi.specs.Kept.{IsSummary};

    ghost Value = { ℕ };

    ghost view = { λ a. a.class };

    ghost invariant = { λ a. (a.class ≤ 256) × IsSummary a.class a.first × IsSummary a.class a.second × IsSummary a.class a.work };
}

impl Trial {
    fn new(alloc: Global, limit: u16, even: bool) -> Option<Trial> {
        let class = Multi::new(limit)?;
        let first = class.empty(alloc).ok()?;
        let second = class.empty(alloc).ok()?;
        let work = class.empty(alloc).ok()?;
        Some(Trial {
            class,
            first,
            second,
            work,
            bytes: [0; ROOM],
            out: [0; ROOM],
            even,
        })
    }

    /// The n-th number: spread over ten million, or ten after the one before it.
    fn number(&self, n: u64) -> i64 {
        let number = if self.even {
            n.wrapping_mul(10)
        } else {
            n.wrapping_mul(0x9E37_79B9_7F4A_7C15) >> 20 & 0xFF_FFFF
        };
        number.cast_signed()
    }

    fn fill(&mut self, n: u64) {
        let number = self.number(n);
        self.class.add(&mut self.first, &Value::Int(number));
        let number = self.number(n.wrapping_add(NUMBERS));
        self.class.add(&mut self.second, &Value::Int(number));
    }

    fn keep(&mut self) {
        self.class.encode(&self.first, &mut self.bytes);
    }

    fn encode(&mut self) -> u64 {
        self.class.encode(&self.first, &mut self.out) as u64
    }

    fn decode(&mut self, size: usize) -> u64 {
        match self.bytes.get(..size) {
            Some(bytes) => u64::from(self.class.decode(bytes, &mut self.work).is_ok()),
            None => 0,
        }
    }

    fn add(&mut self, n: u64) -> u64 {
        let number = self.number(n);
        u64::from(self.class.add(&mut self.work, &Value::Int(number)))
    }

    fn unite(&mut self) -> u64 {
        u64::from(self.class.union(&mut self.work, &self.second))
    }

    fn unite_again(&mut self) -> u64 {
        u64::from(self.class.union(&mut self.work, &self.first))
    }

    /// Makes a call, and answers a number that depends on it.
    fn call(&mut self, call: u64, n: u64, size: usize) -> u64 {
        match call {
            0 => self.encode(),
            1 => self.decode(size),
            2 => self.add(n.wrapping_mul(7919).wrapping_add(100_000)),
            3 => self.add(100_000),
            4 => self.decode(size).wrapping_add(self.add(n.wrapping_mul(7919).wrapping_add(100_000))),
            5 => self.decode(size).wrapping_add(self.unite()),
            _ => self.unite_again(),
        }
    }
}

fn main(rt: HostRuntime) -> io::Result<()> {
    let mut args = env::args(&rt)?;
    args.next();
    let limit: u16 = match args.next() {
        Some(limit) => limit.parse().unwrap_or(8),
        None => 8,
    };
    let even = args.next().is_some();
    let Some(mut trial) = Trial::new(rt.alloc(), limit, even) else {
        return Ok(());
    };
    for n in 0..NUMBERS {
        trial.fill(n);
    }
    trial.keep();
    let size = trial.encode() as usize;
    for call in 0..7u64 {
        let mut told: u64 = 0;
        let mut least = u128::MAX;
        for time in 0..TIMES {
            trial.decode(size);
            let start = Instant::now(&rt)?;
            for n in 0..ROUNDS {
                told = told.wrapping_add(trial.call(call, n.wrapping_add(time.wrapping_mul(ROUNDS)), size));
            }
            least = least.min(start.elapsed(&rt)?.as_nanos());
        }
        println!(rt; "{} {} {}", call, least, told)?;
    }
    println!(rt; "{}", size)
}
"""


def put_files(checkout, folder):
    """A copy of the crates, and the program over them."""
    shutil.copytree(os.path.join(checkout, "crates"), os.path.join(folder, "crates"), ignore=shutil.ignore_patterns("out"))
    shutil.copy(os.path.join(checkout, "HANDLES"), folder)
    with open(os.path.join(checkout, "crates.txt")) as lines, open(os.path.join(folder, "crates.txt"), "w") as out:
        out.write(lines.read() + NEEDED)
    crate = os.path.join(folder, "crates", "multi_bench")
    for name, text in {"src/main.rt": MAIN, "proofs/Lib.antt": ""}.items():
        path = os.path.join(crate, name)
        os.makedirs(os.path.dirname(path), exist_ok=True)
        with open(path, "w") as file:
            file.write(text)
    return crate


def run(program, words):
    """Nanoseconds of each call in all its rounds, and the bytes of the summary."""
    lines = subprocess.run([program] + words, capture_output=True, text=True, check=True).stdout.splitlines()
    return [int(line.split()[1]) for line in lines[:-1]], lines[-1]


def main():
    checkout = os.path.abspath(sys.argv[1]) if len(sys.argv) > 1 else HERE
    with tempfile.TemporaryDirectory() as folder:
        crate = put_files(checkout, folder)
        subprocess.run(["rt", "run"], cwd=crate, check=True, stdout=subprocess.DEVNULL)
        program = os.path.join(crate, "out", "multi_bench")
        print("| limit | numbers | bytes |", " | ".join(CALLS), "|")
        print("|---" * (len(CALLS) + 3) + "|")
        for limit in LIMITS:
            for kind, words in KINDS.items():
                runs = [run(program, [str(limit)] + words) for _ in range(5)]
                times = [min(times) / ROUNDS for times in zip(*(run[0] for run in runs))]
                print("|", limit, "|", kind, "|", runs[0][1], "|", " | ".join(f"{time:.0f}" for time in times), "|")


if __name__ == "__main__":
    main()
