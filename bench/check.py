#!/usr/bin/env python3
"""Times `check` of a tree of 256 files and of one with a large payload, beside `sha256sum` of the same files in the same
run. Run it by hand.

usage: bench/check.py [PROGRAM] [MEBIBYTES] [RUNS]
It prints the median times in milliseconds, their ratio, and the peaks of memory where GNU time is installed.
"""
import hashlib
import os
import subprocess
import sys
import tempfile

from show_provides import median_time, peak_memory

FILES = {
    "version": b'{"format":"mender","version":3}',
    "header/header-info": b'{"payloads":[{"type":"single-file"}],"artifact_provides":{"artifact_name":"release-2"},'
                          b'"artifact_depends":{"device_type":["beaglebone"]}}',
    "header/headers/0000/type-info": b'{"type":"single-file"}',
}


def write(folder, path, chunks):
    """Writes a file of these chunks, and gives its line of the manifest."""
    whole = os.path.join(folder, path)
    os.makedirs(os.path.dirname(whole), exist_ok=True)
    digest = hashlib.sha256()
    with open(whole, "wb") as file:
        for chunk in chunks:
            file.write(chunk)
            digest.update(chunk)
    return f"{digest.hexdigest()}  {path}\n"


def make_tree(folder, payloads):
    """A tree with these payload files, each a list of chunks."""
    lines = [write(folder, path, [bytes_]) for path, bytes_ in FILES.items()]
    lines += [write(folder, f"data/0000/{name}", chunks) for name, chunks in payloads.items()]
    write(folder, "manifest", ["".join(lines).encode()])


def main():
    here = os.path.dirname(os.path.abspath(__file__))
    default = os.path.join(here, "..", "crates", "client_cli", "out", "client_cli")
    program = os.path.abspath(sys.argv[1] if len(sys.argv) > 1 else default)
    size = int(sys.argv[2]) if len(sys.argv) > 2 else 100
    count = int(sys.argv[3]) if len(sys.argv) > 3 else 5
    with tempfile.TemporaryDirectory() as folder:
        os.mkdir(os.path.join(folder, "mender-data"))
        with open(os.path.join(folder, "mender-data", "device_type"), "w") as device_type:
            device_type.write("device_type=beaglebone\n")
        small = {f"f{i:03}": [bytes((i,)) * 4096] for i in range(252)}
        make_tree(os.path.join(folder, "many"), small)
        mebibyte = os.urandom(1 << 20)
        make_tree(os.path.join(folder, "large"), {"image": [mebibyte] * size})
        make_tree(os.path.join(folder, "tiny"), {"image": [b"abc"]})
        sums = {
            "many": ["sh", "-c", "sha256sum many/data/0000/* many/version many/header/header-info > /dev/null"],
            "large": ["sha256sum", "large/data/0000/image"],
            "tiny": ["sha256sum", "tiny/data/0000/image"],
        }
        print(f"{count} runs each; many: 256 files, large: {size} MiB of payload, tiny: 3 bytes")
        for tree, other in sums.items():
            ours = median_time(count, [program, "check", tree], folder)
            theirs = median_time(count, other, folder)
            peak = peak_memory([program, "check", tree], folder)
            print(f"{tree:6} check {ours:9.2f} ms   sha256sum {theirs:9.2f} ms   ratio {ours / theirs:5.2f}   peak {peak}")


if __name__ == "__main__":
    main()
