#!/usr/bin/env python3
"""Times how the built client clears a work folder that a module left deep or wide: an install of a tree of 1 KB over folders of
several sizes, each in its own data folder. The time has to grow as the number of names. Run it by hand after the gate.

usage: bench/clear.py [PROGRAM]
"""
import os
import shutil
import sys
import tempfile
import time

import install

DEPTHS = [0, 750, 1500, 3000, 6000]
WIDTHS = [10000, 20000, 40000]


def make_deep(folder, depth):
    """Folders one in the other, with a file in each."""
    here = os.open(folder, os.O_RDONLY)
    for _ in range(depth):
        os.mkdir("d", dir_fd=here)
        os.close(os.open("file", os.O_CREAT | os.O_WRONLY, 0o644, dir_fd=here))
        below = os.open("d", os.O_RDONLY, dir_fd=here)
        os.close(here)
        here = below
    os.close(here)


def make_wide(folder, width):
    for i in range(width):
        os.mkdir(f"{folder}/{i}")


def spent(data, tree, make, size):
    install.make_device(data)
    tmp = os.path.join(data, "work", "0000", "tmp")
    os.makedirs(tmp)
    make(tmp, size)
    start = time.perf_counter()
    install.install(data, tree)
    whole = time.perf_counter() - start
    if os.listdir(tmp):
        sys.exit("it wasn't cleared")
    shutil.rmtree(data)
    return whole


def main():
    if len(sys.argv) > 1:
        install.CLIENT = os.path.abspath(sys.argv[1])
    with tempfile.TemporaryDirectory(dir=".") as work:
        work = os.path.abspath(work)
        tree = work + "/tree"
        install.make_tree(tree, 1024)
        for depth in DEPTHS:
            print(f"{depth} folders deep: {1000 * spent(work + '/data', tree, make_deep, depth):.0f} ms")
        for width in WIDTHS:
            print(f"{width} folders wide: {1000 * spent(work + '/data', tree, make_wide, width):.0f} ms")


if __name__ == "__main__":
    main()
