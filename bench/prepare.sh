#!/bin/sh
# Times `prepare` of a payload of one file, copied in pieces of 65,536 bytes from a source in memory into the device in
# memory, beside `cp` and `sha256sum` of a file of that size in the same run. It proves and builds a small program over
# copies of the crates, which takes some minutes where they weren't built before. Run by hand; the gate doesn't call it.
# usage: bench/prepare.sh [MEBIBYTES]
set -e
top=$(cd "$(dirname "$0")/.." && pwd)
size=${1:-100}
work=$(mktemp -d)
trap 'rm -rf "$work"' EXIT
mkdir -p "$work/crates/prepare_bench/src"
below="upd_text io_model device_model device_mem manifest_sums provides_map script_names artifact_meta admit work_folder"
for crate in $below; do
    cp -r "$top/crates/$crate" "$work/crates/"
    grep "^$crate:" "$top/crates.txt" >> "$work/crates.txt"
done
echo "prepare_bench: $below" >> "$work/crates.txt"
cat > "$work/crates/prepare_bench/src/main.rt" <<PROGRAM
// Times prepare over memory.
#![tactic(auto)]

ghost use Rattle.std.specs.Prelude.{IfSome};
ghost use Rattle.device_mem.specs.Mem.{state_of};
ghost use Rattle.work_folder.specs.Prepare.{IsReady};

use admit::admit;
use device_mem::{AnswerList, AreaBytes, LossList, MemDevice, Script};
use device_model::Answer;
use io_model::{FileList, MemSource};
use manifest_sums::Summing;
use provides_map::Provides;
use script_names::{ScriptList, Site};
use std::alloc::Global;
use std::io;
use std::time::Instant;
use upd_text::{CallList, Name};
use work_folder::prepare;

const PIECES: u32 = $size * 16;

const FILES: [(&[u8], &[u8]); 3] = [
    (b"version", b"{\"format\":\"mender\",\"version\":3}"),
    (b"header/header-info", b"{\"payloads\":[{\"type\":\"single-file\"}],\"artifact_provides\":{\"artifact_name\":\"release-2\"},\"artifact_depends\":{\"device_type\":[\"beaglebone\"]}}"),
    (b"header/headers/0000/type-info", b"{\"type\":\"single-file\"}"),
];

fn add(files: &mut FileList, text: &mut Vec<u8>, path: &[u8], bytes: &[u8]) -> Option<()> {
    let mut summing = Summing::new();
    summing.piece(bytes);
    text.extend_from_slice(summing.finish().hex().as_slice()).ok()?;
    text.extend_from_slice(b"  ").ok()?;
    text.extend_from_slice(path).ok()?;
    text.extend_from_slice(b"\n").ok()?;
    push(files, path, bytes)
}

fn push(files: &mut FileList, path: &[u8], bytes: &[u8]) -> Option<()> {
    if bytes.len() >= 0x1_0000_0000 {
        return None;
    }
    files.push(path, bytes).ok()
}

fn tree(alloc: Global) -> Option<FileList> {
    let mut files = FileList::new(alloc);
    let mut text = Vec::new(alloc);
    for (path, bytes) in FILES {
        add(&mut files, &mut text, path, bytes)?;
    }
    let piece = [0x5au8; 65536];
    let mut payload = Vec::new(alloc);
    for _ in 0..PIECES {
        payload.extend_from_slice(&piece).ok()?;
    }
    add(&mut files, &mut text, b"data/0000/app.bin", payload.as_slice())?;
    push(&mut files, b"manifest", text.as_slice())?;
    Some(files)
}

fn device_of(alloc: Global) -> Option<MemDevice>
    ensures { IfSome result (λ d. IsReady (state_of d)) }
{
    let script = Script {
        answers: AnswerList::new(alloc),
        supports: Answer::Exit(0),
        needs: Answer::Exit(0),
        others: AnswerList::new(alloc),
        losses: LossList::new(alloc),
        cuts: CallList::new(alloc),
        faults: CallList::new(alloc),
        meddle: false,
    };
    MemDevice::new(alloc, AreaBytes::zeros(alloc).ok()?, 10, script).ok()
}

fn run(alloc: Global, rt: &HostRuntime) -> Option<u128> {
    let mut source = MemSource::new(tree(alloc)?, CallList::new(alloc));
    let site = Site {
        device_type: Name::read(b"beaglebone").ok()?,
        scripts: ScriptList::new(alloc),
    };
    let held = Provides::new(alloc);
    let Ok(admitted) = admit(alloc, &mut source, &site, &held) else {
        return None;
    };
    let mut device = device_of(alloc)?;
    let mut buffer = [0u8; 65536];
    let start = Instant::now(rt).ok()?;
    prepare(&mut device, &mut source, &admitted, &site, &held, &mut buffer).ok()?;
    let spent = start.elapsed(rt).ok()?;
    Some(spent.as_millis())
}

fn main(rt: HostRuntime) -> io::Result<()> {
    match run(rt.alloc(), &rt) {
        Some(spent) => println!(rt; "prepare $size MiB in pieces of 65536: {spent} ms")?,
        None => println!(rt; "failed")?,
    }
    Ok(())
}
PROGRAM
(cd "$work/crates/prepare_bench" && rt run) > "$work/log" 2>&1 || { tail -n 20 "$work/log" >&2; exit 1; }
grep "^prepare" "$work/log"
head -c "$((size * 1048576))" /dev/zero | tr '\0' 'Z' > "$work/file"
python3 - "$work/file" <<'PYTHON'
import subprocess, sys, time
file = sys.argv[1]
for words in (["cp", file, file + ".copy"], ["sha256sum", file]):
    start = time.monotonic()
    subprocess.run(words, check=True, stdout=subprocess.DEVNULL)
    print(f"{words[0]}: {(time.monotonic() - start) * 1000:.0f} ms")
PYTHON
