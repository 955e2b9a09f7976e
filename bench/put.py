#!/usr/bin/env python3
"""Makes the calls of one put on a real file, as the client's device makes them (a seek, a write and a sync of data each), and
shows what a put of each way writes: the whole record at each put, as it was done before there were cells, the first put of a
deployment, and every other one. Run it by hand, in a folder of the disk that is meant.

usage: bench/put.py [ROUNDS]
It prints the bytes that were written, the syncs, the bytes that came to the disk, and the median time.
"""
import os
import statistics
import sys
import tempfile
import time

AREA = 266_240
SLOT_0, SLOT = 4_096, 131_072
CELLS_0, CELLS, CELL = 1_024, 1_024, 64


class Disk:
    """A store on a file, and what was written to it since it was opened."""

    def __init__(self, path):
        self.file = os.open(path, os.O_RDWR)
        # out of the page cache, and then read as a mount reads it
        os.posix_fadvise(self.file, 0, 0, os.POSIX_FADV_DONTNEED)
        for at, count in [(0, 1), (SLOT_0, SLOT), (CELLS_0, 1), (CELLS_0 + CELL, CELL)]:
            os.pread(self.file, count, at)
        self.written = 0
        self.syncs = 0

    def write(self, at, data):
        os.lseek(self.file, at, os.SEEK_SET)
        self.written += os.write(self.file, data)

    def sync(self):
        os.fdatasync(self.file)
        self.syncs += 1


def put_whole_record(disk, slot, size):
    disk.write(SLOT_0 + SLOT * slot, b"r" * size)
    disk.sync()
    disk.write(0, bytes([slot]))
    disk.sync()


def put_first(disk, slot, size):
    disk.write(SLOT_0 + SLOT * slot, b"r" * size)
    disk.write(CELLS_0 + CELLS * slot, bytes(192))
    disk.sync()
    disk.write(0, bytes([slot]))
    disk.sync()


def put_cell(disk, cell, _size):
    disk.write(CELLS_0 + CELL + CELL * cell, b"c" * CELL)
    disk.sync()
    disk.write(CELLS_0, bytes([cell]))
    disk.sync()


def bytes_to_the_disk():
    for line in open("/proc/self/io"):
        if line.startswith("write_bytes:"):
            return int(line.split()[1])
    return 0


def main():
    rounds = int(sys.argv[1]) if len(sys.argv) > 1 else 40
    rows = [("whole record", put_whole_record), ("first put", put_first), ("other put", put_cell)]
    with tempfile.NamedTemporaryFile(dir=".") as store:
        for name, put in rows:
            for size in [75, 20_000, SLOT]:
                times, reached = [], 0
                for round in range(rounds):
                    store.truncate(0)
                    store.seek(0)
                    store.write(bytes(AREA))
                    store.flush()
                    os.fsync(store.fileno())
                    disk = Disk(store.name)
                    before, start = bytes_to_the_disk(), time.perf_counter()
                    put(disk, round % 2, size)
                    times.append(time.perf_counter() - start)
                    reached += bytes_to_the_disk() - before
                    os.close(disk.file)
                print(f"{name:12} record of {size:6}: {disk.written:6} bytes written, {disk.syncs} syncs, "
                      f"{reached // rounds:6} bytes to the disk, median {statistics.median(times) * 1e6:6.0f} us")


main()
