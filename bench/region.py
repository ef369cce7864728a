#!/usr/bin/env -S python3 -B
"""Times guest memory: making a region of 65,536 slots and writing each of them once, beside the same with a Vec.

    region.py [--times N]

The Vec is filled with zeros, and as many bytes are then copied into it, also by pages. Both are one optimized program,
written into a temporary folder beside copies of this repository's crates, and proved and built there by `rt run`. It
measures itself: the start of its process, and giving the memory back, don't count.
"""
import argparse
import os
import shutil
import statistics
import subprocess
import sys
import tempfile

from timing import ROOT

CRATES = ("igvm_headers", "guest_region")
NAME = "region_timing"
SLOTS = 65_536
AIM = 1.5

SOURCE = """\
//! Makes 65,536 pages of zeros and copies a page into each: as a region, or in a Vec. Prints the time and a sum.
#![tactic(auto)]

use guest_region::GuestRegion;
use igvm_headers::PageView;
use std::time::Instant;
use std::{env, io};

const SLOTS: u32 = 65_536;

const PAGE: usize = 4096;

fn write_region(region: &mut GuestRegion) {
    let mut page = [0u8; PAGE];
    for slot in 0..SLOTS {
        page[slot as usize % PAGE] = (slot % 256) as u8;
        if slot < region.slots() {
            region.write(slot, PageView::of_bytes(page.as_slice()));
        }
    }
}

fn sum_region(region: &GuestRegion) -> u32 {
    let mut sum = 0u32;
    for slot in 0..SLOTS {
        if slot < region.slots() {
            sum = sum.wrapping_add(region.page(slot)[slot as usize % PAGE] as u32);
        }
    }
    sum
}

fn write_bytes(bytes: &mut [u8]) {
    let mut page = [0u8; PAGE];
    for slot in 0..SLOTS {
        page[slot as usize % PAGE] = (slot % 256) as u8;
        let at = slot as usize * PAGE;
        if at + PAGE <= bytes.len() {
            bytes[at..at + PAGE].copy_from_slice(page.as_slice());
        }
    }
}

fn sum_bytes(bytes: &[u8]) -> u32 {
    let mut sum = 0u32;
    for slot in 0..SLOTS {
        let at = slot as usize * PAGE + slot as usize % PAGE;
        if at < bytes.len() {
            sum = sum.wrapping_add(bytes[at] as u32);
        }
    }
    sum
}

fn time_region(rt: HostRuntime) -> io::Result<()> {
    let start = Instant::now(&rt)?;
    let Ok(mut region) = GuestRegion::new(rt.alloc(), SLOTS) else {
        return Err(io::ErrorKind::OutOfMemory.into());
    };
    write_region(&mut region);
    let taken = start.elapsed(&rt)?.as_nanos();
    let sum = sum_region(&region);
    println!(rt; "{taken} {sum}")
}

fn time_bytes(rt: HostRuntime) -> io::Result<()> {
    let start = Instant::now(&rt)?;
    let mut bytes = Vec::new(rt.alloc());
    bytes.resize(SLOTS as usize * PAGE, 0u8)?;
    write_bytes(&mut bytes);
    let taken = start.elapsed(&rt)?.as_nanos();
    let sum = sum_bytes(&bytes);
    println!(rt; "{taken} {sum}")
}

fn main(rt: HostRuntime) -> io::Result<()> {
    let mut words = env::args(&rt)?.skip(1);
    match words.next() {
        Some(_) => time_region(rt),
        None => time_bytes(rt),
    }
}
"""

# Both loops write from the same page, whose length stays.
INVARIANT = """\
use Rattle.std.proofs.Common.{◌≡◌, length}
use Rattle.region_timing.proofs.FUNCTION.Given as goal

abbrev pub invariant-loop-slot : goal.invariant-loop-slot
invariant-loop-slot l = length l.page ≡ 4096
"""
LOOPS = ("write_region", "write_bytes")


def write(path, text):
    os.makedirs(os.path.dirname(path), exist_ok=True)
    with open(path, "w", encoding="utf-8") as out:
        out.write(text)


def build(folder):
    """The program's path."""
    with open(os.path.join(ROOT, "crates.txt"), encoding="utf-8") as lines:
        below = [line for line in lines if line.split(":")[0] in CRATES]
    write(os.path.join(folder, "crates.txt"), "".join(below) + f"{NAME}: {' '.join(CRATES)}\n")
    for crate in CRATES:
        parts = os.path.join("crates", crate)
        shutil.copytree(os.path.join(ROOT, parts), os.path.join(folder, parts), ignore=shutil.ignore_patterns("out"))
    own = os.path.join(folder, "crates", NAME)
    write(os.path.join(own, "src", "main.rt"), SOURCE)
    for loop in LOOPS:
        write(os.path.join(own, "proofs", loop, "Invariants.antt"), INVARIANT.replace("FUNCTION", loop))
    done = subprocess.run(["rt", "run", "--jobs", "1"], cwd=own, stdin=subprocess.DEVNULL, stdout=subprocess.PIPE,
                          stderr=subprocess.STDOUT, text=True)
    if done.returncode != 0:
        sys.exit(f"{done.stdout[-4000:]}\nregion.py: the program isn't proved and built")
    return os.path.join(own, "out", NAME)


def seconds(words):
    """What the program says that it took. Its sum over the bytes it wrote must be the right one."""
    done = subprocess.run(words, stdin=subprocess.DEVNULL, stdout=subprocess.PIPE, text=True, check=True)
    nanoseconds, found = map(int, done.stdout.split())
    if found != sum(slot % 256 for slot in range(SLOTS)):
        sys.exit(f"{' '.join(words)}: a wrong sum, {found}")
    return nanoseconds / 1e9


def load():
    return f"{os.getloadavg()[0]:.1f}"


def main():
    parser = argparse.ArgumentParser(description="a guest region beside a Vec")
    parser.add_argument("--times", type=int, default=5)
    options = parser.parse_args()
    if options.times < 1:
        parser.error("--times is 1 or more")
    if shutil.which("rt") is None:
        sys.exit("rt is missing")
    with tempfile.TemporaryDirectory() as folder:
        program = build(folder)
        before = load()
        pairs = [(seconds([program, "region"]), seconds([program])) for _ in range(options.times)]
        after = load()
    regions, vecs = zip(*pairs)
    print(f"{SLOTS:,} pages, {options.times} times in turn, load {before} before and {after} after")
    for name, of in (("region", regions), ("Vec", vecs)):
        print(f"  {name:<12}{min(of):8.3f} s at best, {statistics.median(of):8.3f} s in the middle")
    print("  in turn     " + ", ".join(f"{region:.3f}/{vec:.3f}" for region, vec in pairs))
    print(f"  region / Vec{min(regions) / min(vecs):8.2f} of the best times (aim: at most {AIM})")


if __name__ == "__main__":
    main()
