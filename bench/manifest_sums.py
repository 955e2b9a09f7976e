#!/usr/bin/env python3
"""Times `read_manifest` of 256 lines, and `Summing` over pieces of 64 KiB beside `sha256sum`. Run it by hand.

usage: bench/manifest_sums.py [MEBIBYTES] [RUNS]
It builds a small program over copies of `upd_text` and `manifest_sums` in a temporary folder (the first time that
takes some minutes, if the crates' own `out/` is absent), and prints the median time of a `read_manifest` and the ratio
of the two sums' medians, both of this run.
"""
import hashlib
import os
import shutil
import statistics
import subprocess
import sys
import tempfile
import time

TIMES = 1_000

PROGRAM = """//! Reads `manifest` a thousand times, or sums `message`, whichever lies where it runs.
#![tactic(auto)]

use manifest_sums::{Summing, read_manifest};
use std::alloc::Global;
use std::fs::File;
use std::io::{Read, Write};
use std::{fs, io};

fn digits_of(file: &mut File) -> io::Result<[u8; 64]> {
    let mut buffer = [0u8; 65536];
    let mut summing = Summing::new();
    for _ in 0..u64::MAX {
        let count = file.read(&mut buffer)?;
        if count == 0 {
            break;
        }
        summing.piece(&buffer[..count]);
    }
    Ok(summing.finish().hex())
}

fn lines_in(alloc: Global, bytes: &[u8]) -> u32 {
    let mut lines = 0;
    for _ in 0..1_000u32 {
        lines = match read_manifest(alloc, bytes) {
            Ok(manifest) => manifest.len(),
            Err(_) => 0,
        };
    }
    lines
}

fn main(rt: HostRuntime) -> io::Result<()> {
    if let Ok(bytes) = fs::read(&rt, "manifest") {
        let lines = lines_in(rt.alloc(), bytes.as_slice());
        println!(rt; "{lines}")?;
    }
    if let Ok(mut file) = fs::open(&rt, "message") {
        let digits = digits_of(&mut file)?;
        io::writer(&rt).write_all(&digits)?;
    }
    Ok(())
}
"""


def build(folder):
    """Builds the program over copies of the two crates, and gives its path."""
    top = os.path.join(os.path.dirname(os.path.abspath(__file__)), "..")
    crates = os.path.join(folder, "crates")
    for name in ("upd_text", "manifest_sums"):
        shutil.copytree(os.path.join(top, "crates", name), os.path.join(crates, name))
    measure = os.path.join(crates, "measure")
    os.makedirs(os.path.join(measure, "src"))
    with open(os.path.join(measure, "src", "main.rt"), "w") as source:
        source.write(PROGRAM)
    with open(os.path.join(top, "crates.txt")) as given, open(os.path.join(folder, "crates.txt"), "w") as kept:
        kept.writelines(line for line in given if line.split(":")[0] in ("upd_text", "manifest_sums"))
        kept.write("measure: manifest_sums\n")
    subprocess.run(["git", "init", "--quiet"], cwd=folder, check=True)
    subprocess.run(["rt", "run"], cwd=measure, check=True, stdout=subprocess.DEVNULL)
    return os.path.join(measure, "out", "measure")


def median_time(count, arguments, folder, wanted):
    """The median time of so many runs, in seconds. Each has to write what is wanted first."""
    times = []
    for _ in range(count):
        begin = time.perf_counter()
        run = subprocess.run(arguments, cwd=folder, stdout=subprocess.PIPE, check=True)
        times.append(time.perf_counter() - begin)
        assert run.stdout.startswith(wanted), run.stdout
    return statistics.median(times)


def main():
    size = int(sys.argv[1]) if len(sys.argv) > 1 else 64
    count = int(sys.argv[2]) if len(sys.argv) > 2 else 5
    with tempfile.TemporaryDirectory() as folder:
        program = build(folder)
        lines, message = os.path.join(folder, "lines"), os.path.join(folder, "bytes")
        os.mkdir(lines)
        os.mkdir(message)
        with open(os.path.join(lines, "manifest"), "w") as manifest:
            for k in range(256):
                path = f"data/0000/{k:0118}"
                manifest.write(f"{hashlib.sha256(path.encode()).hexdigest()}  {path}\n")
        data = os.urandom(1 << 20) * size
        with open(os.path.join(message, "message"), "wb") as whole:
            whole.write(data)
        reading = median_time(count, [program], lines, b"256\n")
        print(f"read_manifest of 256 lines with paths of 128 bytes: {reading / TIMES * 1e6:.1f} us")
        digits = hashlib.sha256(data).hexdigest().encode()
        ours = median_time(count, [program], message, digits)
        theirs = median_time(count, ["sha256sum", "message"], message, digits)
        print(f"{size} MiB: Summing {ours:.3f} s, sha256sum {theirs:.3f} s, ratio {ours / theirs:.2f}")


if __name__ == "__main__":
    main()
