#!/usr/bin/env python3
"""Times the module for two partitions over a real file, in a folder of the disk that is meant: Download of a large image beside
`cp`, `sync` of the copy and `sha256sum` of the same image, and ArtifactCommit beside `sha256sum`, all in the same run. It shows
the peaks of memory where GNU time is installed, and sees that the partition that is chosen then is the image. Run it by hand
after the gate, which builds the module.

usage: bench/ab_image.py [MEBIBYTES [ROUNDS]]
"""
import hashlib
import os
import statistics
import subprocess
import sys
import tempfile
import time

from show_provides import peak_memory

TOP = os.path.dirname(os.path.dirname(os.path.abspath(__file__)))
MODULE = os.path.join(TOP, "crates/ab_image_cli/out/ab_image_cli")

MIB = 1 << 20
# where the partitions begin, and where the choice and the origin stand
FIRST, CHOICE, ORIGIN = 4_096, 0, 1_024


def run(words, folder):
    """The seconds of a command, which has to go well."""
    start = time.perf_counter()
    status = subprocess.run(words, cwd=folder, stdout=subprocess.DEVNULL).returncode
    spent = time.perf_counter() - start
    if status != 0:
        sys.exit(f"{words[0]} ended with status {status}")
    return spent


def make(folder, size):
    """A device whose partitions take so many bytes, and an artifact with such an image."""
    work = os.path.join(folder, "work", "0000")
    os.makedirs(work + "/files")
    os.makedirs(work + "/header")
    digest = hashlib.sha256()
    with open(work + "/files/rootfs.img", "wb") as image:
        for _ in range(size // MIB):
            chunk = os.urandom(MIB)
            digest.update(chunk)
            image.write(chunk)
    with open(work + "/header/type-info", "w") as info:
        info.write('{"type":"ab-image","artifact_provides":{"rootfs-image.checksum":"%s"}}' % digest.hexdigest())
    with open(folder + "/blocks", "wb") as blocks:
        for _ in range(2 * size // MIB):
            blocks.write(bytes(MIB))
        blocks.write(bytes(FIRST))
        blocks.flush()
        os.fsync(blocks.fileno())
    return digest.digest()


def bytes_of(folder, at, count):
    with open(folder + "/blocks", "rb") as blocks:
        blocks.seek(at)
        return blocks.read(count)


def is_chosen(folder, size, digest):
    """Whether the chosen partition is the image."""
    chosen = bytes_of(folder, CHOICE, 1)[0] % 2
    found = hashlib.sha256(bytes_of(folder, FIRST + chosen * size, size)).digest()
    record = bytes_of(folder, 2_048 + chosen * 1_024, 40)
    return found == digest and record == size.to_bytes(8, "big") + digest


def copy(folder):
    """The seconds of `cp`, of `sync` of the copy and of `sha256sum`, one after the other."""
    steps = [["cp", "work/0000/files/rootfs.img", "copy"], ["sync", "copy"], ["sha256sum", "work/0000/files/rootfs.img"]]
    spent = [run(step, folder) for step in steps]
    os.remove(folder + "/copy")
    return spent


def main():
    size = (int(sys.argv[1]) if len(sys.argv) > 1 else 100) * MIB
    rounds = int(sys.argv[2]) if len(sys.argv) > 2 else 5
    downloads, copies, commits, sums = [], [], [], []
    with tempfile.TemporaryDirectory(dir=".") as folder:
        folder = os.path.abspath(folder)
        digest = make(folder, size)
        for _ in range(rounds):
            downloads.append(run([MODULE, "Download", "work/0000"], folder))
            copies.append(copy(folder))
            commits.append(run([MODULE, "ArtifactCommit", "work/0000"], folder))
            sums.append(run(["sha256sum", "work/0000/files/rootfs.img"], folder))
            if not is_chosen(folder, size, digest):
                sys.exit("the image isn't chosen")
            run([MODULE, "Cleanup", "work/0000"], folder)
        peaks = [peak_memory([MODULE, word, "work/0000"], folder) for word in ("Download", "ArtifactCommit")]
    download, commit, sha = (statistics.median(times) for times in (downloads, commits, sums))
    whole = statistics.median(sum(steps) for steps in copies)
    cp, sync, sha256sum = (statistics.median(times) for times in zip(*copies))
    print(f"{size // MIB} MiB, {rounds} rounds, medians")
    print(f"Download       {download * 1e3:8.1f} ms   cp {cp * 1e3:.1f} + sync {sync * 1e3:.1f} + sha256sum "
          f"{sha256sum * 1e3:.1f} = {whole * 1e3:.1f} ms   ratio {download / whole:5.2f}   peak {peaks[0]}")
    print(f"ArtifactCommit {commit * 1e3:8.1f} ms   sha256sum {sha * 1e3:.1f} ms   ratio {commit / sha:5.2f}   peak {peaks[1]}")


if __name__ == "__main__":
    main()
