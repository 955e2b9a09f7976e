#!/usr/bin/env python3
"""Times tree_cli over one file of 100 MB and over 200 files of 1 KB, in a folder of the disk that is meant, beside `cp`, `sync` of the
copy and `sha256sum` of the same files, all in the same run, and beside `mender-artifact write module-image` where that is installed. It
shows the peaks of memory where GNU time is installed. Run it by hand after the gate, which builds the program.

usage: bench/tree.py [ROUNDS]
"""
import os
import shutil
import statistics
import subprocess
import sys
import tempfile
import time

from show_provides import peak_memory

TOP = os.path.dirname(os.path.dirname(os.path.abspath(__file__)))
WRITER = os.path.join(TOP, "crates/tree_cli/out/tree_cli")
CASES = (("one file of 100 MB", 1, 100_000_000), ("200 files of 1 KB", 200, 1_000))


def run(words, folder):
    """The seconds of a command, which has to go well."""
    start = time.perf_counter()
    status = subprocess.run(words, cwd=folder, stdout=subprocess.DEVNULL).returncode
    spent = time.perf_counter() - start
    if status != 0:
        sys.exit(f"{words[0]} ended with status {status}")
    return spent


def write(folder):
    shutil.rmtree(folder + "/out", ignore_errors=True)
    return run([WRITER, "files", "out", "release-2", "beaglebone", "single-file", "-", "app.version=2"], folder)


def copy(folder, files):
    """The seconds of `cp`, of `sync` of the copies and of `sha256sum`, one after the other."""
    shutil.rmtree(folder + "/copy", ignore_errors=True)
    copies = [name.replace("files", "copy", 1) for name in files]
    return [run(["cp", "-r", "files", "copy"], folder), run(["sync", "copy", *copies], folder), run(["sha256sum", *files], folder)]


def package(folder, files):
    words = ["mender-artifact", "write", "module-image", "--compression", "none", "-T", "single-file", "-t", "beaglebone", "-n", "release-2",
             "-o", "release-2.mender"]
    return run([*words, *(word for name in files for word in ("-f", name))], folder)


def main():
    rounds = int(sys.argv[1]) if len(sys.argv) > 1 else 7
    packager = shutil.which("mender-artifact")
    for name, count, size in CASES:
        with tempfile.TemporaryDirectory(dir=".") as folder:
            folder = os.path.abspath(folder)
            os.mkdir(folder + "/files")
            files = [f"files/f{i:03}" for i in range(count)]
            for path in files:
                with open(f"{folder}/{path}", "wb") as file:
                    file.write(os.urandom(size))
            writes, copies, packages = [], [], []
            for _ in range(rounds):
                writes.append(write(folder))
                copies.append(copy(folder, files))
                if packager:
                    packages.append(package(folder, files))
            shutil.rmtree(folder + "/out")
            peak = peak_memory([WRITER, "files", "out", "release-2", "beaglebone", "single-file", "-"], folder)
            whole = statistics.median(sum(steps) for steps in copies)
            cp, sync, sums = (statistics.median(times) for times in zip(*copies))
            written = statistics.median(writes)
            print(f"{name}, {rounds} rounds, medians: tree_cli {written * 1e3:.1f} ms, peak {peak}")
            print(f"    cp {cp * 1e3:.1f} + sync {sync * 1e3:.1f} + sha256sum {sums * 1e3:.1f} = {whole * 1e3:.1f} ms   ratio {written / whole:.2f}")
            print(f"    mender-artifact {statistics.median(packages) * 1e3:.1f} ms" if packager else "    mender-artifact isn't installed")


if __name__ == "__main__":
    main()
