#!/usr/bin/env python3
"""Times appends to the log of a file: log_appends.py [FOLDER]. No part of the gate.

Builds a small program over log_area and disk_trait in a copy of the crates, with `rt run`, and runs it five times on a file in the
folder (a folder for temporary files, if none is named). Tells the best time of an append of 64 bytes of changes, and of the same four
calls on the file alone: a write of the frame, a sync, a write of the gate, a sync.
"""
import os
import shutil
import subprocess
import sys
import tempfile

TOP = os.path.dirname(os.path.dirname(os.path.abspath(__file__)))
APPENDS = 1_000
NEEDED = "log_bench: store_layout disk_trait log_area store_layout\n"

MAIN = """//! Times appends to the log of a file.
#![tactic(auto)]

ghost use Rattle.std.specs.Prelude.{◌≤◌, IfSome};
ghost use Rattle.log_area.specs.Log.{areas_end};

use disk_trait::{Disk, FileDisk};
use log_area::{AppendFault, Frames, LogArea};
use store_layout::{LEAST, table_layout};
use std::alloc::Global;
use std::fs::OpenOptions;
use std::io;
use std::time::Instant;
use store_layout::Layout;

/// Starts the log of a disk that is large enough.
fn start(alloc: Global, disk: &mut FileDisk, layout: &Layout) -> Option<(LogArea, Frames)>
    ensures { IfSome result (λ r. areas_end r.0.room ≤ (⟦<FileDisk as Disk>⟧.told disk.new).size) }
{
    if disk.size() < layout.disk_size() {
        return None;
    }
    LogArea::start(alloc, disk, layout).ok()
}

/// Appends a frame.
fn append(
    log: &mut LogArea,
    disk: &mut FileDisk,
    changes: &[u8],
    count: u16,
) -> Result<(), AppendFault>
    requires { areas_end log.old.room ≤ (⟦<FileDisk as Disk>⟧.told disk.old).size }
    ensures { areas_end log.new.room ≤ (⟦<FileDisk as Disk>⟧.told disk.new).size }
{
    log.append(disk, changes, count)
}

/// The changes of a frame.
const CHANGES: [u8; 64] = [7; 64];

/// A frame behind its gate, with the next gate.
const FRAME: [u8; 71] = [7; 71];

/// How many frames are appended.
const APPENDS: u32 = 1000;

fn ten(log: &mut LogArea, disk: &mut FileDisk) -> Result<(), AppendFault>
    requires { areas_end log.old.room ≤ (⟦<FileDisk as Disk>⟧.told disk.old).size }
    ensures { areas_end log.new.room ≤ (⟦<FileDisk as Disk>⟧.told disk.new).size }
{
    append(log, disk, &CHANGES, 1)?;
    append(log, disk, &CHANGES, 1)?;
    append(log, disk, &CHANGES, 1)?;
    append(log, disk, &CHANGES, 1)?;
    append(log, disk, &CHANGES, 1)?;
    append(log, disk, &CHANGES, 1)?;
    append(log, disk, &CHANGES, 1)?;
    append(log, disk, &CHANGES, 1)?;
    append(log, disk, &CHANGES, 1)?;
    append(log, disk, &CHANGES, 1)?;
    Ok(())
}

fn hundred(log: &mut LogArea, disk: &mut FileDisk) -> Result<(), AppendFault>
    requires { areas_end log.old.room ≤ (⟦<FileDisk as Disk>⟧.told disk.old).size }
    ensures { areas_end log.new.room ≤ (⟦<FileDisk as Disk>⟧.told disk.new).size }
{
    ten(log, disk)?;
    ten(log, disk)?;
    ten(log, disk)?;
    ten(log, disk)?;
    ten(log, disk)?;
    ten(log, disk)?;
    ten(log, disk)?;
    ten(log, disk)?;
    ten(log, disk)?;
    ten(log, disk)?;
    Ok(())
}

fn thousand(log: &mut LogArea, disk: &mut FileDisk) -> Result<(), AppendFault>
    requires { areas_end log.old.room ≤ (⟦<FileDisk as Disk>⟧.told disk.old).size }
    ensures { areas_end log.new.room ≤ (⟦<FileDisk as Disk>⟧.told disk.new).size }
{
    hundred(log, disk)?;
    hundred(log, disk)?;
    hundred(log, disk)?;
    hundred(log, disk)?;
    hundred(log, disk)?;
    hundred(log, disk)?;
    hundred(log, disk)?;
    hundred(log, disk)?;
    hundred(log, disk)?;
    hundred(log, disk)?;
    Ok(())
}

/// Writes a piece that the disk has.
fn put(disk: &mut FileDisk, at: u64, bytes: &[u8]) -> Option<()> {
    let size = disk.size();
    if at > size || bytes.len() as u64 > size - at {
        return None;
    }
    disk.write(at, bytes).ok()
}

/// The calls of as many appends on the file alone.
fn calls(disk: &mut FileDisk) -> Option<()> {
    let mut at: u64 = 8192;
    'calls: for _ in 0..APPENDS {
        put(disk, at.wrapping_add(1), &FRAME)?;
        disk.sync().ok()?;
        put(disk, at, &[1])?;
        disk.sync().ok()?;
        at = at.wrapping_add(71);
    }
    Some(())
}

fn main(rt: HostRuntime) -> io::Result<()> {
    let alloc = rt.alloc();
    let file = OpenOptions::new().read(true).write(true).open(&rt, "disk")?;
    let Some(layout) = table_layout(alloc, 1, LEAST) else {
        return Ok(());
    };
    let mut disk = FileDisk::on(file, layout.disk_size());
    let began = Instant::now(&rt)?;
    let Some(()) = calls(&mut disk) else {
        return Ok(());
    };
    let alone = began.elapsed(&rt)?;
    let Some(()) = put(&mut disk, 8192, &[0]) else {
        return Ok(());
    };
    let Some((mut log, _)) = start(alloc, &mut disk, &layout) else {
        return Ok(());
    };
    let began = Instant::now(&rt)?;
    let Ok(()) = thousand(&mut log, &mut disk) else {
        return Ok(());
    };
    let appended = began.elapsed(&rt)?;
    println!(rt; "{} {}", alone.as_nanos(), appended.as_nanos())
}
"""


def put_files(folder):
    """A copy of the crates, and the program over them."""
    shutil.copytree(os.path.join(TOP, "crates"), os.path.join(folder, "crates"), ignore=shutil.ignore_patterns("out"))
    shutil.copy(os.path.join(TOP, "HANDLES"), folder)
    with open(os.path.join(TOP, "crates.txt")) as lines, open(os.path.join(folder, "crates.txt"), "w") as out:
        out.write(lines.read() + NEEDED)
    crate = os.path.join(folder, "crates", "log_bench")
    os.makedirs(os.path.join(crate, "src"))
    os.makedirs(os.path.join(crate, "proofs"))
    with open(os.path.join(crate, "src", "main.rt"), "w") as file:
        file.write(MAIN)
    with open(os.path.join(crate, "proofs", "Lib.antt"), "w"):
        pass
    return crate


def run(program, folder):
    """Nanoseconds of the calls alone and of the appends, on a new file."""
    with open(os.path.join(folder, "disk"), "wb") as file:
        file.write(bytes(8192 * (1 + 2 * 16 + 1 + 1)))
    printed = subprocess.run([program], cwd=folder, capture_output=True, text=True, check=True).stdout
    if not printed:
        sys.exit("a call failed")
    return [int(part) for part in printed.split()]


def main():
    with tempfile.TemporaryDirectory() as folder, tempfile.TemporaryDirectory(dir=sys.argv[1] if sys.argv[1:] else None) as disks:
        crate = put_files(folder)
        subprocess.run(["rt", "run"], cwd=crate, stdout=subprocess.DEVNULL)
        program = os.path.join(crate, "out", "log_bench")
        runs = [run(program, disks) for _ in range(5)]
    alone, appended = (min(times) / APPENDS / 1000 for times in zip(*runs))
    print(f"an append {appended:.1f} us, its four calls on the file alone {alone:.1f} us")


if __name__ == "__main__":
    main()
