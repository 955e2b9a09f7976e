#!/usr/bin/env python3
"""What a run of the gate costs, in processor minutes by crate.

    tools/gate_minutes.py [--add FILE] [--edits] COMMAND..     runs the command, as `rt ci` or `rt ci upd_text`, and writes the table
    tools/gate_minutes.py --add FILE                           writes the table of the runs that FILE has

With --add the figures are kept in FILE, and those of earlier runs there stand for what this run took as kept, so that several runs make
one table. --edits lists the checks of must-fail edits one by one too, in the order in which they began; the first is of the crate as it
stands. A check is seen four times a second, so that each figure may lack a quarter of a second. A run that is stopped (SIGTERM) is told
as far as it came.
"""
import json
import os
import resource
import signal
import subprocess
import sys
import time

TICKS = os.sysconf("SC_CLK_TCK")
KINDS = ("proofs", "tests", "edits")


def processes():
    """Returns each process's parent, processor seconds (with those of its ended children) and words."""
    found = {}
    for name in os.listdir("/proc"):
        if not name.isdigit():
            continue
        try:
            with open(f"/proc/{name}/stat", encoding="utf-8", errors="replace") as file:
                fields = file.read().rpartition(")")[2].split()
            with open(f"/proc/{name}/cmdline", "rb") as file:
                words = file.read().decode(errors="replace").split("\0")
        except OSError:
            continue
        found[int(name)] = (int(fields[1]), sum(int(it) for it in fields[11:15]) / TICKS, words, int(fields[19]))
    return found


def kind_of(words):
    if "--test" in words:
        return "tests"
    is_edit = "check" in words and "--empty-contracts" not in words
    return "edits" if is_edit else "proofs"


def look(root, seen):
    """Notes what the checks below the process `root` have taken so far."""
    every = processes()

    def check_above(pid):
        """Returns the topmost check that the process is or is part of, and whether it is below the root."""
        top = None
        while pid in every:
            if "--crate-name" in every[pid][2]:
                top = pid
            if pid == root:
                return top
            pid = every[pid][0]
        return None

    taken = {}
    for pid, (_, seconds, _, _) in every.items():
        top = check_above(pid)
        if top:
            taken[top] = taken.get(top, 0) + seconds
    for top, seconds in taken.items():
        words, began = every[top][2:]
        crate = words[words.index("--crate-name") + 1]
        key = (began, top)
        before = seen.get(key, (crate, kind_of(words), 0))[2]
        seen[key] = (crate, kind_of(words), max(before, seconds))


def run(words, seen):
    """Runs the command to its end and returns its exit status, its processor seconds and its minutes."""
    began = time.monotonic()
    with subprocess.Popen(words) as ran:
        signal.signal(signal.SIGTERM, lambda *_: ran.terminate())
        while ran.poll() is None:
            look(ran.pid, seen)
            time.sleep(0.25)
    used = resource.getrusage(resource.RUSAGE_CHILDREN)
    return ran.returncode, used.ru_utime + used.ru_stime, (time.monotonic() - began) / 60


def added(earlier, seen):
    """Returns the seconds by crate and kind: of this run, and of earlier ones where it has none."""
    now = {}
    for crate, kind, seconds in seen.values():
        row = now.setdefault(crate, {})
        row[kind] = row.get(kind, 0) + seconds
    return {crate: {**earlier.get(crate, {}), **now.get(crate, {})} for crate in {**earlier, **now}}


def write_table(rows):
    print(f"{'crate':18}" + "".join(f"{kind:>9}" for kind in (*KINDS, "together")))
    whole = dict.fromkeys(KINDS, 0)
    for crate, row in sorted(rows.items(), key=lambda it: -sum(it[1].values())):
        parts = [row.get(kind, 0) / 60 for kind in KINDS]
        for kind, part in zip(KINDS, parts):
            whole[kind] += part
        print(f"{crate:18}" + "".join(f"{it:9.1f}" for it in (*parts, sum(parts))))
    print(f"{'all':18}" + "".join(f"{it:9.1f}" for it in (*whole.values(), sum(whole.values()))))


def main(words):
    add = None
    edits = False
    while words and words[0].startswith("--"):
        if words[0] == "--edits":
            edits, words = True, words[1:]
        elif words[0] == "--add" and len(words) > 1:
            add, words = words[1], words[2:]
        else:
            sys.exit(__doc__)
    if not words and not add:
        sys.exit(__doc__)
    earlier = {}
    if add and os.path.exists(add):
        with open(add, encoding="utf-8") as file:
            earlier = json.load(file)
    seen, status = {}, 0
    if words:
        status, whole, minutes = run(words, seen)
        checks = sum(seconds for _, _, seconds in seen.values())
        print(f"this run: {whole / 60:.1f} processor minutes in {minutes:.1f} minutes; {(whole - checks) / 60:.1f} of them for links, tests, programs and the gate itself")
    if edits:
        for _, (crate, kind, seconds) in sorted(seen.items()):
            if kind == "edits":
                print(f"edit of {crate}: {seconds:.0f} seconds")
    rows = added(earlier, seen)
    write_table(rows)
    if add:
        with open(add, "w", encoding="utf-8") as file:
            json.dump(rows, file, indent=1, sort_keys=True)
    return status


sys.exit(main(sys.argv[1:]))
