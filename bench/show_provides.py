#!/usr/bin/env python3
"""Times `show-provides` over the largest record and over one of 75 bytes, beside a `cat` of each text and beside /bin/true in the
same run. Run it by hand.

usage: bench/show_provides.py [PROGRAM] [RUNS]
It prints the median time of a run in milliseconds, and the peak of memory where GNU time is installed.
"""
import os
import statistics
import struct
import subprocess
import sys
import tempfile
import time

AREA, SLOT_0, LIMIT = 266_240, 4_096, 131_072


def pair(key, value):
    return struct.pack(">H", len(key)) + key + struct.pack(">H", len(value)) + value


def largest_record():
    """A committed deployment whose record has 131,072 bytes: as many pairs as fit, with keys of two bytes."""
    room = LIMIT - 16 - 2 - 2 - len(b"\x01x") - 1
    letters = [b for b in range(0x20, 0x100) if b != 0x7F]
    pairs = [(b"artifact_name", b"r")]
    room -= len(pair(*pairs[0]))
    keys = (bytes((a, b)) for a in letters for b in letters)
    while room >= 12:
        pairs.append((next(keys), b""))
        room -= 6
    pairs.append((next(keys), b"v" * (room - 6)))
    pairs.sort()
    body = b"\0\0" + struct.pack(">H", len(pairs)) + b"".join(pair(*p) for p in pairs) + b"\x01x\0"
    record = b"MUP1" + bytes((0, 2, 0, 0, 5)) + b"\0\0\0" + struct.pack(">I", 16 + len(body)) + body
    assert len(record) == LIMIT
    return record, len(pairs)


SMALL = (b"MUP1\0\2\0\0\5\0\0\0\0\0\0\x4b" + b"\0\0" + b"\0\2" + pair(b"app.version", b"2")
         + pair(b"artifact_name", b"release-2") + b"\x0bsingle-file\0")


def make_data(folder, record):
    """A data folder whose store has this record in slot 0."""
    data = os.path.join(folder, "mender-data")
    os.mkdir(data)
    with open(os.path.join(data, "device_type"), "w") as device_type:
        device_type.write("device_type=beaglebone\n")
    with open(os.path.join(data, "store"), "wb") as store:
        store.write(bytes(SLOT_0) + record + bytes(AREA - SLOT_0 - len(record)))


def median_time(count, arguments, folder):
    """The median time of so many runs, in ms."""
    times = []
    for _ in range(count):
        begin = time.perf_counter()
        subprocess.run(arguments, cwd=folder, stdout=subprocess.DEVNULL, check=True)
        times.append((time.perf_counter() - begin) * 1000)
    return statistics.median(times)


def peak_memory(arguments, folder):
    """The peak of memory of one run, in KiB, by GNU time where it is there."""
    if not os.access("/usr/bin/time", os.X_OK):
        return "(no /usr/bin/time)"
    run = subprocess.run(["/usr/bin/time", "-f", "%M", *arguments], cwd=folder, stdout=subprocess.DEVNULL,
                         stderr=subprocess.PIPE, check=True, text=True)
    return f"{run.stderr.split()[-1]} KiB"


def main():
    here = os.path.dirname(os.path.abspath(__file__))
    default = os.path.join(here, "..", "crates", "client_cli", "out", "client_cli")
    program = os.path.abspath(sys.argv[1] if len(sys.argv) > 1 else default)
    count = int(sys.argv[2]) if len(sys.argv) > 2 else 200
    record, pairs = largest_record()
    print(f"{count} runs each, a record of {LIMIT} bytes with {pairs} pairs and one of {len(SMALL)} bytes with 2")
    for name, stored in (("largest", record), ("75 bytes", SMALL)):
        with tempfile.TemporaryDirectory() as folder:
            make_data(folder, stored)
            shown = [program, "show-provides"]
            print(f"{name:10} median {median_time(count, shown, folder):8.3f} ms   peak {peak_memory(shown, folder)}")
            with open(os.path.join(folder, "text"), "wb") as text:
                subprocess.run(shown, cwd=folder, stdout=text, check=True)
            print(f"  cat      median {median_time(count, ['cat', 'text'], folder):8.3f} ms")
    with tempfile.TemporaryDirectory() as folder:
        print(f"/bin/true  median {median_time(count, ['/bin/true'], folder):8.3f} ms   peak {peak_memory(['/bin/true'], folder)}")


if __name__ == "__main__":
    main()
