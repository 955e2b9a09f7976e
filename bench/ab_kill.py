#!/usr/bin/env python3
"""Kills the module for two partitions at each of its system calls in the four words that write. Run by hand; it needs strace.

usage: bench/ab_kill.py [PROGRAM]
Each system call of a whole run is the one at which the module is killed (kill -9, as the call is entered). Then the partition
that is chosen must be whole: the old image, or behind a commit that was killed the new one. The same word again must end with 0
and leave what it is for.
"""
import hashlib
import os
import shutil
import sys
import tempfile

from file_module import calls_of, kill, run

OLD, NEW = b"old image" * 9_000, b"new image" * 15_000
SIZE, FIRST, HALF = 4_096 + 2 * 200_000, 4_096, 200_000

# the words that come before, and what holds of the image that is chosen, the other one, and the parities behind the word
WORDS = {
    "Download": ([], lambda disk: (chosen(disk), image(disk, 1 - disk[0] % 2)) == (OLD, NEW)),
    "ArtifactCommit": (["Download"], lambda disk: chosen(disk) == NEW and disk[1_024] % 2 != disk[0] % 2),
    "ArtifactRollback": (["Download", "ArtifactCommit"], lambda disk: chosen(disk) == OLD),
    "Cleanup": (["Download", "ArtifactCommit"], lambda disk: chosen(disk) == NEW and disk[1_024] % 2 == disk[0] % 2),
}


def record(data):
    return len(data).to_bytes(8, "big") + hashlib.sha256(data).digest()


def make(folder):
    """A disk whose partition 0 is chosen and has the old image, and an artifact of the new one."""
    shutil.rmtree(folder, ignore_errors=True)
    os.makedirs(f"{folder}/work/0000/files")
    os.makedirs(f"{folder}/work/0000/header")
    with open(f"{folder}/work/0000/files/rootfs.img", "wb") as payload:
        payload.write(NEW)
    with open(f"{folder}/work/0000/header/type-info", "w") as info:
        info.write('{"type":"ab-image","artifact_provides":{"rootfs-image.checksum":"%s"}}' % hashlib.sha256(NEW).hexdigest())
    disk = bytearray(SIZE)
    disk[2_048:2_088] = record(OLD)
    disk[FIRST : FIRST + len(OLD)] = OLD
    with open(f"{folder}/blocks", "wb") as blocks:
        blocks.write(disk)


def disk_of(folder):
    with open(f"{folder}/blocks", "rb") as blocks:
        return blocks.read()


def image(disk, partition):
    """The image of a partition, or none where its record doesn't fit it."""
    named = disk[2_048 + 1_024 * partition :][:40]
    start = FIRST + HALF * partition
    data = disk[start : start + min(int.from_bytes(named[:8], "big"), HALF)]
    return data if record(data) == named else None


def chosen(disk):
    return image(disk, disk[0] % 2)


def prepare(program, folder, word):
    make(folder)
    for before in WORDS[word][0]:
        assert run(program, folder, before) == 0


def main():
    here = os.path.dirname(os.path.abspath(__file__))
    default = os.path.join(here, "..", "crates", "ab_image_cli", "out", "ab_image_cli")
    program = os.path.abspath(sys.argv[1] if len(sys.argv) > 1 else default)
    cases = wrong = 0
    with tempfile.TemporaryDirectory() as top:
        folder = f"{top}/d"
        for word, (_, done) in WORDS.items():
            prepare(program, folder, word)
            for name, count in calls_of(program, folder, word).items():
                for at in range(1, count + 1):
                    prepare(program, folder, word)
                    good = kill(program, folder, word, name, at)
                    boots = chosen(disk_of(folder))
                    good = good and (boots == OLD if word == "Download" else boots in (OLD, NEW))
                    good = run(program, folder, word) == 0 and good and done(disk_of(folder))
                    cases += 1
                    if not good:
                        wrong += 1
                        print(f"FAILED  {word}, {name} {at}")
    print(f"{cases} kills, {wrong} wrong")
    sys.exit(1 if wrong else 0)


if __name__ == "__main__":
    main()
