#!/usr/bin/env python3
"""Times installs by the built client, over real files, in a folder of the disk that is meant: of 1 KB with a module that exits
0 beside six starts of that module, and of a large payload beside `cp`, `sync` of the copy and `sha256sum` of the same file. It
shows the client's peak of memory in both where GNU time is installed, and, where strace is there, the syncs of one install, the
bytes that it writes to its store, and the folders that it makes. Run it by hand after the gate, which builds the client and
tree_cli. It works
in FOLDER, which says which disk is meant; without it in the current one.

usage: bench/install.py [MEBIBYTES [ROUNDS [FOLDER [PROGRAM]]]]
"""
import os
import re
import shutil
import statistics
import subprocess
import sys
import tempfile
import time

from show_provides import peak_memory

TOP = os.path.dirname(os.path.dirname(os.path.abspath(__file__)))
CLIENT = os.path.join(TOP, "crates/client_cli/out/client_cli")
WRITER = os.path.join(TOP, "crates/tree_cli/out/tree_cli")

# of a deployment that is committed at once
STATES = 5
CHILDREN = 6


def put(path, data, mode=0o644):
    os.makedirs(os.path.dirname(path), exist_ok=True)
    with open(path, "wb") as file:
        file.write(data)
    os.chmod(path, mode)


def make_device(data):
    put(data + "/device_type", b"device_type=beaglebone\n")
    put(data + "/modules/v3/single-file", b"#!/bin/sh\nexit 0\n", 0o755)


def make_tree(tree, size):
    """A tree of one payload file of so many bytes."""
    files = tree + "-files"
    os.makedirs(files)
    with open(files + "/app.bin", "wb") as file:
        for _ in range(size // 1024):
            file.write(os.urandom(1024))
    run([WRITER, files, tree, "release-2", "beaglebone", "single-file", "-"])
    shutil.rmtree(files)


def run(words):
    """The seconds of a command, which has to go well."""
    start = time.perf_counter()
    status = subprocess.run(words, stdout=subprocess.DEVNULL).returncode
    spent = time.perf_counter() - start
    if status != 0:
        sys.exit(f"{words[0]} ended with status {status}")
    return spent


def words_for(data, tree):
    return [CLIENT, "--data", data, "install", tree]


def install(data, tree):
    return run(words_for(data, tree))


def median_of(rounds, what):
    return statistics.median(what() for _ in range(rounds))


def small(work, rounds):
    data, tree = work + "/small", work + "/tree-small"
    make_device(data)
    make_tree(tree, 1024)
    peak = peak_memory(words_for(data, tree), work)
    module = data + "/modules/v3/single-file"

    def starts():
        return sum(run([module, "Download", work]) for _ in range(CHILDREN))

    whole = median_of(rounds, lambda: install(data, tree))
    print(f"install of 1 KB: {1000 * whole:.1f} ms, peak {peak}")
    print(f"{CHILDREN} starts of its module: {1000 * median_of(rounds, starts):.1f} ms")
    return data, tree


def large(work, mebibytes, rounds):
    data, tree = work + "/large", work + "/tree-large"
    make_device(data)
    make_tree(tree, mebibytes << 20)
    payload, copy = tree + "/data/0000/app.bin", work + "/copy"
    run(["sha256sum", payload])
    peak = peak_memory(words_for(data, tree), work)
    installs, parts = [], []
    for _ in range(rounds):
        installs.append(install(data, tree))
        if os.path.exists(copy):
            os.remove(copy)
        parts.append([run(["cp", payload, copy]), run(["sync", copy]), run(["sha256sum", payload])])
    whole = statistics.median(installs)
    cp, sync, sums = (statistics.median(part) for part in zip(*parts))
    print(f"install of {mebibytes} MiB: {1000 * whole:.0f} ms, peak {peak}")
    print(f"cp {1000 * cp:.0f} ms, sync {1000 * sync:.0f} ms, sha256sum {1000 * sums:.0f} ms: install takes {whole / (cp + sync + sums):.2f} of their sum")


def traced(work, data, tree):
    if shutil.which("strace") is None:
        print("strace isn't there: no syncs are counted")
        return
    log = work + "/trace"
    calls = "trace=write,pwrite64,fsync,fdatasync,mkdir"
    run(["strace", "-f", "-y", "-e", calls, "-o", log, CLIENT, "--data", data, "install", tree])
    with open(log, encoding="utf-8", errors="replace") as file:
        lines = list(file)
    store = [line for line in lines if re.search(r"\(\d+<[^>]*/store>", line)]
    written = sum(int(line.rsplit("= ", 1)[1].split()[0]) for line in store if "write" in line.split("(")[0])
    syncs = sum("sync" in line.split("(")[0] for line in store)
    print(f"the store in one install: {syncs} syncs, {written} bytes written; {STATES + 1} positions are put")
    folder = sum("sync(" in line and re.search(r"<[^>]*/work(/[^>]*)?>", line) is not None for line in lines)
    made = sum("mkdir(" in line and line.rstrip().endswith("= 0") for line in lines)
    print(f"the work folder in one install: {folder} syncs, {made} folders made")


def main():
    global CLIENT
    mebibytes = int(sys.argv[1]) if len(sys.argv) > 1 else 100
    rounds = int(sys.argv[2]) if len(sys.argv) > 2 else 5
    folder = sys.argv[3] if len(sys.argv) > 3 else "."
    CLIENT = os.path.abspath(sys.argv[4]) if len(sys.argv) > 4 else CLIENT
    if not os.path.exists(CLIENT):
        sys.exit("the client isn't built: run the gate first")
    with tempfile.TemporaryDirectory(dir=folder) as work:
        work = os.path.abspath(work)
        data, tree = small(work, 4 * rounds)
        traced(work, data, tree)
        large(work, mebibytes, rounds)


if __name__ == "__main__":
    main()
