#!/usr/bin/env python3
"""Times `trace_cli` over 30 MB of notes, beside `wc -l` and `sha256sum` of the same file in the same run. Run it by hand.

usage: bench/trace.py [PROGRAM] [RUNS]
For each kind of notes it prints the processor time of the program and of the two others together, the smallest of the runs each,
then the program's peak of memory and the file's size in MB, and its answer.
"""
import os
import subprocess
import sys
import tempfile

SIZE = 30_000_000
HEAD = "boot install\nfrom Idle Undecided 0 No 0\nkind single-file\n"
SITE = [f"Download_Enter_{i:02}" for i in range(64)]
AGAIN = "".join(f"run {name}\nexit 21\npause 60\n" * 30 + f"run {name}\nexit 0\n" for name in SITE)

TRIPLE = "module 0 Download\nexit 0\npause 1\n"

# What a note begins with, a part of its events, how often that comes, and its end: boots in each of which nothing was done, which are
# a way; boots with 5,888 events, each cut off behind them; notes with 900 short lines each that no boot may do; and one such note.
KINDS = {
    "few events": ("boot resume\nfrom Idle Undecided 0 No 0\n", "", 0, "end none\n"),
    "retries": (HEAD + "".join(f"site {name}\n" for name in SITE), AGAIN, 1, "end halted\n"),
    "dense": (HEAD, TRIPLE, 300, "end halted\n"),
    "one note": (HEAD, TRIPLE, SIZE // len(TRIPLE) - 10, "end halted\n"),
}


def write_notes(path, front, part, count, end):
    """Writes notes of SIZE bytes, piece by piece: the peak of a child counts what this process holds when it starts."""
    with open(path, "w") as trace:
        for _ in range(SIZE // (len(front) + len(part) * count + len(end))):
            trace.write(front)
            for _ in range(count):
                trace.write(part)
            trace.write(end)


def run(words):
    """The processor time of a run in seconds, its peak in MB, and what it wrote."""
    with tempfile.TemporaryFile() as out:
        child = subprocess.Popen(words, stdout=out)
        _, _, used = os.wait4(child.pid, 0)
        out.seek(0)
        return used.ru_utime + used.ru_stime, used.ru_maxrss / 1000, out.read().decode().strip()


def main():
    top = os.path.join(os.path.dirname(os.path.abspath(__file__)), "..")
    program = sys.argv[1] if len(sys.argv) > 1 else os.path.join(top, "crates/trace_cli/out/trace_cli")
    runs = int(sys.argv[2]) if len(sys.argv) > 2 else 5
    for kind, note in KINDS.items():
        with tempfile.TemporaryDirectory() as folder:
            path = os.path.join(folder, "trace")
            write_notes(path, *note)
            time, peak, answer = min(run([program, folder]) for _ in range(runs))
            beside = sum(min(run(words)[0] for _ in range(runs)) for words in (["wc", "-l", path], ["sha256sum", path]))
            print(f"{kind}: {time:.2f} s beside {beside:.2f} s, {peak:.0f} MB for {os.path.getsize(path) / 1e6:.0f} MB: {answer}")


main()
