#!/usr/bin/env python3
"""Times `check` of a hostile tree: eight payloads whose type-infos have as many patterns as 65,536 bytes hold, over stores with
many short keys and with long ones. Run it by hand.

usage: bench/clears.py [PROGRAM]
It prints the seconds of a processor for each kind of patterns and keys, the peak of memory where GNU time is installed, and what
`check` answered.
"""
import itertools
import os
import resource
import struct
import subprocess
import sys
import tempfile

from check import make_tree, FILES
from show_provides import LIMIT, make_data, pair, peak_memory

PAYLOADS = 8


def record_of(keys):
    """The record of a committed deployment that provides as many of these as leave room for what the tree brings."""
    pairs = [(b"artifact_name", b"r")]
    room = LIMIT - 256
    for key in keys:
        room -= len(pair(key, b""))
        if room < 0 or len(pairs) == 65_535:
            break
        pairs.append((key, b""))
    pairs.sort()
    body = b"\0\0" + struct.pack(">H", len(pairs)) + b"".join(pair(*p) for p in pairs) + b"\x01x\0"
    return b"MUP1" + bytes((0, 2, 0, 0, 5)) + b"\0\0\0" + struct.pack(">I", 16 + len(body)) + body, len(pairs)


def words(letters, length):
    return ("".join(word) for word in itertools.product(letters, repeat=length))


def type_info(patterns):
    """A type-info with as many of these patterns as fit, and one that matches all, so that what is held may be large; and how many
    they are."""
    text = '{"type":"single-file","clears_artifact_provides":['
    taken = []
    room = 65_536 - len(text) - 2 - 3
    for pattern in patterns:
        room -= len(pattern) + 3
        if room < 0:
            break
        taken.append(f'"{pattern}"')
    return (text + ",".join(taken + ['"*"']) + "]}").encode(), len(taken)


LETTERS = "abcdefghijklmnopqrstuvwxyz"
PAIRS = [bytes(two) for two in itertools.product((b for b in range(0x20, 0x100) if b != 0x7F), repeat=2)]
HELD = {
    "of 2 bytes": PAIRS,
    "of 3 bytes": [b"a" + two for two in PAIRS],
    "of 9 bytes": [two + b"a" * 7 for two in PAIRS],
    "of 125": [b"a" * 122 + two + b"b" for two in PAIRS],
}
KINDS = {
    "names": lambda: words(LETTERS, 8),
    "starts": lambda: (word + "*" for word in words(LETTERS, 7)),
    "ends": lambda: ("*" + word for word in words(LETTERS, 7)),
    "both": lambda: ("*" + word + "*" for word in words(LETTERS, 6)),
    "a letter between stars": lambda: (f"*{a}*{b}*{c}*{d}" for a, b, c, d in words(LETTERS, 4)),
    "the same letter": lambda: itertools.repeat("*a*a*a*c"),
    "a letter, then the same": lambda: (f"*{a}*a*a*a" for a in itertools.cycle(LETTERS)),
    "a letter, the same, stars": lambda: (f"*{a}a*a*a*" for a in itertools.cycle(LETTERS)),
    "a letter, the same, a star": lambda: (f"*{a}aaaaa*" for a in itertools.cycle(LETTERS)),
    "stars alone but one": lambda: itertools.repeat("*" * 7 + "c"),
    "long, the same letter": lambda: itertools.repeat("c" + "*a" * 63),
    "long, behind the keys' letter": lambda: itertools.repeat("a*c" + "*a" * 62),
}


def main():
    here = os.path.dirname(os.path.abspath(__file__))
    default = os.path.join(here, "..", "crates", "client_cli", "out", "client_cli")
    program = os.path.abspath(sys.argv[1] if len(sys.argv) > 1 else default)
    types = ",".join(['{"type":"single-file"}'] * PAYLOADS)
    FILES["header/header-info"] = ('{"payloads":[' + types + '],"artifact_provides":{"artifact_name":"release-2"},'
                                   '"artifact_depends":{"device_type":["beaglebone"]}}').encode()
    for held, keys in HELD.items():
        record, count = record_of(keys)
        for kind, patterns in KINDS.items():
            text, number = type_info(patterns())
            for i in range(PAYLOADS):
                FILES[f"header/headers/{i:04}/type-info"] = text if i == PAYLOADS - 1 else text.replace(b',"*"]', b"]")
            with tempfile.TemporaryDirectory() as folder:
                make_data(folder, record)
                make_tree(os.path.join(folder, "tree"), {"image": [b"abc"]})
                before = resource.getrusage(resource.RUSAGE_CHILDREN)
                run = subprocess.run([program, "check", "tree"], cwd=folder, capture_output=True, text=True)
                after = resource.getrusage(resource.RUSAGE_CHILDREN)
                spent = after.ru_utime + after.ru_stime - before.ru_utime - before.ru_stime
                print(f"{count:6} keys {held:10}  {PAYLOADS} x {number:5} {kind:29} {spent:7.2f} s  peak {peak_memory([program, 'check', 'tree'], folder)}"
                      f"  {run.stdout.strip() or run.returncode}", flush=True)


if __name__ == "__main__":
    main()
