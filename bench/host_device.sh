#!/bin/sh
# Times what `prepare` asks of the real device, to clear the work folder, to add a payload in pieces of 65,536 bytes, and to
# sync, beside `cp` and `sync` of a file of that size in the same run. With strace installed it also counts the system calls.
# It proves and builds a small program over copies of the crates, which takes some minutes where they weren't built before.
# Run by hand; the gate doesn't call it.
# usage: bench/host_device.sh [MEBIBYTES]
set -e
top=$(cd "$(dirname "$0")/.." && pwd)
size=${1:-100}
work=$(mktemp -d "$top/bench/run.XXXXXX")
trap 'rm -rf "$work"' EXIT
mkdir -p "$work/crates/host_bench/src"
below="upd_text io_model device_model script_names host_edge"
for crate in $below; do
    cp -r "$top/crates/$crate" "$work/crates/"
    grep "^$crate:" "$top/crates.txt" >> "$work/crates.txt"
done
cp "$top/HANDLES" "$work/HANDLES"
echo "host_bench: $below" >> "$work/crates.txt"
cat > "$work/crates/host_bench/src/main.rt" <<PROGRAM
// Times the work folder of the real device.
#![tactic(auto)]

use device_model::{Device, Part};
use host_edge::HostDevice;
use std::io;
use std::time::Instant;
use upd_text::Name;

const PIECES: u32 = $size * 16;

fn fill<D: Device>(device: &mut D, path: &Name) -> Option<()> {
    if device.room() == 0 {
        return None;
    }
    device.work_clear().ok()?;
    let piece = [0x5au8; 65536];
    for _ in 0..PIECES {
        if device.room() == 0 {
            return None;
        }
        device.work_append(Part::Tree(0), path, &piece).ok()?;
    }
    if device.room() == 0 {
        return None;
    }
    device.work_sync().ok()
}

fn run(rt: &HostRuntime) -> Option<u128> {
    let (mut device, _) = HostDevice::attach(rt, rt.alloc(), "d").ok()?;
    let path = Name::read(b"files/image").ok()?;
    let start = Instant::now(rt).ok()?;
    fill(&mut device, &path)?;
    let spent = start.elapsed(rt).ok()?;
    Some(spent.as_millis())
}

fn main(rt: HostRuntime) -> io::Result<()> {
    match run(&rt) {
        Some(spent) => println!(rt; "work folder, $size MiB in pieces of 65536: {spent} ms")?,
        None => println!(rt; "failed")?,
    }
    Ok(())
}
PROGRAM
(cd "$work/crates/host_bench" && rt run) > "$work/log" 2>&1 || true
program="$work/crates/host_bench/out/host_bench"
[ -x "$program" ] || { tail -n 20 "$work/log" >&2; exit 1; }
mkdir "$work/d"
echo device_type=bench > "$work/d/device_type"
cd "$work"
for turn in 1 2 3; do
    "$program"
done
if command -v strace > /dev/null; then
    strace -f -c -o calls "$program" > /dev/null
    grep -E ' (write|openat|fsync|fdatasync|mkdir|rmdir|unlinkat|statx)$' calls
fi
python3 - d/work/0000/files/image <<'PYTHON'
import os, subprocess, sys, time
file = sys.argv[1]
for turn in range(3):
    start = time.monotonic()
    subprocess.run(["cp", file, "copy"], check=True)
    subprocess.run(["sync", "copy"], check=True)
    print(f"cp and sync: {(time.monotonic() - start) * 1000:.0f} ms")
    os.remove("copy")
PYTHON
