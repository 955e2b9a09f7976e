#!/usr/bin/env python3
"""Times `check` of one tree that provides 5,300 pairs, over stores that hold 2,000 to 16,000 pairs: the time is to grow with
their sum, and not with their product. Run it by hand.

usage: bench/check_held.py [PROGRAM] [RUNS]
It prints the median time of a run in milliseconds, and what `check` answered.
"""
import os
import statistics
import struct
import subprocess
import sys
import tempfile
import time

from check import make_tree, FILES
from show_provides import LIMIT, make_data, pair

HELD = (2_000, 4_000, 8_000, 16_000)
NEW = 5_300


def record_of(count):
    """The record of a committed deployment that provides so many pairs."""
    letters = [b for b in range(0x20, 0x100) if b != 0x7F]
    keys = (bytes((a, b)) for a in letters for b in letters)
    pairs = sorted([(b"artifact_name", b"r")] + [(next(keys), b"") for _ in range(count - 1)])
    body = b"\0\0" + struct.pack(">H", len(pairs)) + b"".join(pair(*p) for p in pairs) + b"\x01x\0"
    record = b"MUP1" + bytes((0, 2, 0, 0, 5)) + b"\0\0\0" + struct.pack(">I", 16 + len(body)) + body
    assert len(record) <= LIMIT
    return record


def header_info():
    """The metadata of an artifact that provides so many pairs."""
    letters = "abcdefghijklmnopqrstuvwxyz"
    keys = [a + b + c for a in letters for b in letters for c in letters][:NEW - 1]
    pairs = ",".join(f'"{key}":""' for key in keys)
    text = ('{"payloads":[{"type":"single-file"}],"artifact_provides":{"artifact_name":"release-2",' + pairs + "},"
            '"artifact_depends":{"device_type":["beaglebone"]}}')
    assert len(text) <= 65_536
    return text.encode()


def main():
    here = os.path.dirname(os.path.abspath(__file__))
    default = os.path.join(here, "..", "crates", "client_cli", "out", "client_cli")
    program = os.path.abspath(sys.argv[1] if len(sys.argv) > 1 else default)
    count = int(sys.argv[2]) if len(sys.argv) > 2 else 10
    FILES["header/header-info"] = header_info()
    print(f"{count} runs each, {NEW} new pairs")
    for held in HELD:
        with tempfile.TemporaryDirectory() as folder:
            make_data(folder, record_of(held))
            make_tree(os.path.join(folder, "tree"), {"image": [b"abc"]})
            # the first run rewrites the record in the version of today
            answer = subprocess.run([program, "check", "tree"], cwd=folder, stdout=subprocess.PIPE, check=False)
            times = []
            for _ in range(count):
                begin = time.perf_counter()
                subprocess.run([program, "check", "tree"], cwd=folder, stdout=subprocess.DEVNULL, check=False)
                times.append((time.perf_counter() - begin) * 1000)
            told = answer.stdout.decode().strip()
            print(f"held {held:6}   median {statistics.median(times):8.2f} ms   {answer.returncode} {told}")


if __name__ == "__main__":
    main()
