#!/usr/bin/env python3
"""Makes trees of random words and folders with tree_cli, and sees that the built client says `admitted` of each and installs it. Then it
hands tree_cli what it can't take: words, folders, files and disks, and sees the exit status and that nothing looks whole. Run it by hand
after the gate, which builds both programs.

usage: bench/trees.py [TREES [SEED]]
"""
import os
import random
import resource
import shutil
import subprocess
import sys
import tempfile

TOP = os.path.dirname(os.path.dirname(os.path.abspath(__file__)))
WRITER = os.path.join(TOP, "crates/tree_cli/out/tree_cli")
CLIENT = os.path.join(TOP, "crates/client_cli/out/client_cli")
LETTERS = "abcXYZ019.-_+ é∷\"\\*"
FORM = b"tree_cli FILES OUT NAME DEVICE KIND CLEARS [KEY=VALUE]...\n"
WORDS = ["r", "beaglebone", "single-file", "-"]


def name(draw, most, without=""):
    """A random text of at most so many bytes that is no `.` or `..`."""
    while True:
        text = "".join(draw.choice(LETTERS) for _ in range(draw.randint(1, most)))
        if len(text.encode()) <= most and text not in (".", "..", "-") and not any(letter in text for letter in without):
            return text


def run(words, **more):
    return subprocess.run(words, stdin=subprocess.DEVNULL, capture_output=True, check=False, **more)


def write(folder, *words, **more):
    """How tree_cli ends, over `files` and into `out`."""
    return run([WRITER, "files", "out", *words], cwd=folder, **more)


def need(right, what):
    if not right:
        sys.exit(f"wrong: {what}")


def random_tree(folder, draw):
    """A folder with files, and the words of a tree over them."""
    os.mkdir(folder + "/files")
    for path in {name(draw, 118) for _ in range(draw.choice([0, 1, 1, 2, 5, 40]))}:
        with open(f"{folder}/files/{path}", "wb") as file:
            file.write(draw.randbytes(draw.choice([0, 1, 63, 64, 1000, 70_000])))
    pairs = {name(draw, 20, "="): name(draw, 60) if draw.random() < 0.9 else "" for _ in range(draw.randint(0, 8))}
    kind, device = name(draw, 30), name(draw, 30)
    return [name(draw, 40), device, kind, draw.choice(["-", "*", name(draw, 20)]), *(f"{key}={value}" for key, value in pairs.items())]


def device_of(folder, words):
    os.makedirs(folder + "/mender-data/modules/v3")
    with open(folder + "/mender-data/device_type", "w") as file:
        file.write(f"device_type={words[1]}\n")
    module = f"{folder}/mender-data/modules/v3/{words[2]}"
    with open(module, "w") as file:
        file.write("#!/bin/sh\nexit 0\n")
    os.chmod(module, 0o755)


def taken(draw):
    """Makes a random tree, and has the client check and install it."""
    with tempfile.TemporaryDirectory() as folder:
        words = random_tree(folder, draw)
        made = write(folder, *words)
        need((made.returncode, made.stdout, made.stderr) == (0, b"", b""), f"{words}: {made}")
        device_of(folder, words)
        told = run([CLIENT, "check", "out"], cwd=folder)
        need(told.stdout == b"admitted\n", f"{words}: {told}")
        told = run([CLIENT, "install", "out"], cwd=folder)
        need(told.stdout == b"committed\n", f"{words}: {told}")
        shown = run([CLIENT, "show-artifact"], cwd=folder).stdout
        need(shown == words[0].encode() + b"\n", f"{words}: {shown}")


def some_file(folder):
    os.mkdir(folder + "/files")
    with open(folder + "/files/app.bin", "wb") as file:
        file.write(b"abc")


def no_files(folder):
    pass


def a_folder(folder):
    os.makedirs(folder + "/files/a")
    with open(folder + "/files/a/b", "wb"):
        pass


def a_link_to_nothing(folder):
    some_file(folder)
    os.symlink("nowhere", folder + "/files/link")


def a_pipe(folder):
    some_file(folder)
    os.mkfifo(folder + "/files/pipe")


def no_rights(folder):
    some_file(folder)
    os.chmod(folder + "/files/app.bin", 0)


def no_text(folder):
    some_file(folder)
    with open(folder.encode() + b"/files/\xff", "wb"):
        pass


def many(folder):
    os.mkdir(folder + "/files")
    for i in range(253):
        with open(f"{folder}/files/{i}", "wb"):
            pass


def long_name(folder):
    some_file(folder)
    os.rename(folder + "/files/app.bin", folder + "/files/" + 119 * "a")


def long_file(folder):
    os.mkdir(folder + "/files")
    with open(folder + "/files/app.bin", "wb") as file:
        file.truncate(268_435_457)


def out_is_there(folder):
    some_file(folder)
    os.mkdir(folder + "/out")
    with open(folder + "/out/kept", "wb"):
        pass


def out_is_a_file(folder):
    some_file(folder)
    with open(folder + "/out", "wb"):
        pass


def out_is_empty(folder):
    some_file(folder)
    os.mkdir(folder + "/out")


LONG = [f"{i:03}{'k' * 100}={'v' * 1_000}" for i in range(70)]
# what is there, the words, the exit status, and whether the form is listed
ROWS = [
    (some_file, WORDS, 0, False),
    (out_is_empty, WORDS, 0, False),
    (some_file, [], 2, True),
    (some_file, WORDS[:3], 2, True),
    (some_file, ["r\n", *WORDS[1:]], 2, True),
    (some_file, [*WORDS, "app.version"], 2, True),
    (some_file, [*WORDS, "a=1", "a=2"], 2, True),
    (some_file, [*WORDS[:2], "single/file", "-"], 1, False),
    (some_file, [*WORDS, *LONG], 1, False),
    (a_folder, WORDS, 1, False),
    (long_name, WORDS, 1, False),
    (many, WORDS, 1, False),
    (long_file, WORDS, 3, False),
    (a_link_to_nothing, WORDS, 4, False),
    (a_pipe, WORDS, 4, False),
    (no_rights, WORDS, 4, False),
    (no_text, WORDS, 4, False),
    (no_files, WORDS, 15, False),
    (out_is_there, WORDS, 15, False),
    (out_is_a_file, WORDS, 15, False),
]


def seen(folder):
    """What stands below a folder."""
    return sorted(os.path.join(at, entry) for at, folders, files in os.walk(folder) for entry in folders + files)


def refused():
    for make, words, status, listed in ROWS:
        if make is no_rights and os.geteuid() == 0:
            continue
        with tempfile.TemporaryDirectory() as folder:
            make(folder)
            before = seen(folder)
            ended = write(folder, *words)
            what = f"{make.__name__} {words[:6]}: {ended}"
            need(ended.returncode == status and (FORM in ended.stderr) == listed and ended.stdout == b"", what)
            need(status == 0 or seen(folder) == before, what)
    need(FORM in run([WRITER]).stderr, "no words")


def full():
    """A disk on which no file gets longer than two bytes, as on one that is full: no manifest is left."""
    with tempfile.TemporaryDirectory() as folder:
        some_file(folder)
        limit = lambda: resource.setrlimit(resource.RLIMIT_FSIZE, (2, 2))
        ended = write(folder, *WORDS, preexec_fn=limit, restore_signals=False)
        need(ended.returncode == 5 and not os.path.exists(folder + "/out/manifest"), f"a full disk: {ended}")
        told = write(folder, *WORDS)
        need(told.returncode == 15, f"what a full disk left: {told}")


def main():
    trees = int(sys.argv[1]) if len(sys.argv) > 1 else 100
    draw = random.Random(int(sys.argv[2]) if len(sys.argv) > 2 else 1)
    refused()
    full()
    print(f"{len(ROWS)} rows of what is there and of words have their answers; a full disk leaves no manifest")
    for _ in range(trees):
        taken(draw)
    print(f"{trees} random trees are admitted and installed")


if __name__ == "__main__":
    main()
