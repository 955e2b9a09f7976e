#!/bin/sh
# Times the pattern of 64 stars against a key of 128 bytes, in the slow build that `rt try` makes.
# Run by hand; the gate doesn't call it.
set -e
top=$(cd "$(dirname "$0")/.." && pwd)
work=$(mktemp -d)
trap 'rm -rf "$work"' EXIT
mkdir -p "$work/crates/pattern_bench/src"
cp -r "$top/crates/upd_text" "$top/crates/provides_map" "$work/crates/"
printf '%s\n' 'upd_text: arrayvec itoa' 'provides_map: upd_text' 'pattern_bench: upd_text provides_map' > "$work/crates.txt"
cat > "$work/crates/pattern_bench/src/main.rt" <<'PROGRAM'
// Times a pattern of 64 stars against a key of 128 bytes that it just doesn't match.
#![tactic(auto)]

use provides_map::Pattern;
use std::io;
use std::time::Instant;
use upd_text::Name;

const ROUNDS: u32 = 1_000;

fn main(rt: HostRuntime) -> io::Result<()> {
    let mut text = [b'*'; 128];
    for i in 0..64 {
        text[2 * i + 1] = b'a';
    }
    let mut key = [b'a'; 128];
    key[127] = b'b';
    let (Ok(name), Ok(key)) = (Name::read(&text), Name::read(&key)) else {
        println!(rt; "no such names")?;
        return Ok(());
    };
    let pattern = Pattern::of(name);
    let start = Instant::now(&rt)?;
    let mut matched: u32 = 0;
    for _ in 0..ROUNDS {
        if pattern.matches(&key) {
            matched = matched.saturating_add(1);
        }
    }
    let spent = start.elapsed(&rt)?;
    println!(rt; "{ROUNDS} rounds, {matched} matched, {} ms", spent.as_millis())?;
    Ok(())
}
PROGRAM
cd "$work/crates/pattern_bench"
rt try
