#!/usr/bin/env python3
"""Writes the notes of boots that lose their power or meet a fault, and lets `trace_cli` judge them. Part of the gate by transcripts.sh.

usage: tools/campaigns.py SCENARIO_CLI TRACE_CLI ROWS..
Each row of a file of rows is played by SCENARIO_CLI once for each moment that its lines `each` name, with other commands behind its
own. What is noted of each boot has the position that the disk stood at before it. All notes of a row have to be a path, and those
without a boot that changed the database none. The last line counts both.
"""
import pathlib
import re
import subprocess
import sys
import tempfile

STATES = ["Idle", "Download", "Install", "Reboot", "VerifyReboot", "Commit", "CommitLeave", "Rollback", "RollbackReboot",
          "VerifyRollbackReboot", "Failure", "Cleanup", "Wait"]
OUTCOMES = ["Undecided", "Kept", "Committed", "RolledBack", "Inconsistent"]
REBOOTS = ["No", "Yes", "Automatic"]
DEEDS = {"install tree": "install", "resume": "resume", "resume --stop-before ArtifactCommit": "resume-stop", "commit": "commit",
         "rollback": "rollback"}
ENDS = {"committed": "ended Committed", "waiting": "waits", "rolled back": "ended RolledBack", "inconsistent": "ended Inconsistent",
        "reboot needed": "reboot-needed", "disk fault": "halted", "not installed: kept": "ended Kept",
        "not installed: rolled back": "ended RolledBack"}
BEHIND = ["resume --stop-before ArtifactCommit", "resume", "show-artifact", "rollback", "resume", "commit", "resume", "resume",
          "install tree", "resume"]
LOOKS = ["bytes 0 1", "bytes 1024 192", "bytes 2048 192", "bytes 4096 12", "bytes 135168 12"]
EVENT = re.compile(r"(module|ask|run|exit|reply|pause) |(reboot|not-started|loss)$")


def rows_of(text):
    """Gives the lines that set up all rows, and of each row its own, its boots, and its moments."""
    common, rows, last, heads = [], [], [], []
    for line in text.split("\n"):
        word, _, rest = line.partition(" ")
        if not line or line.startswith(("#", "  ")):
            continue
        if word in ("all", "row", "variant"):
            heads = common if word == "all" else list(last) if word == "variant" else []
            rows.append((heads, [], []))
            is_row = word == "row"
            last = heads if is_row else last
        elif word in "->":
            rows[-1][1].append(rest)
        elif word == "each":
            rows[-1][2].append(rest)
        elif word not in ("bytes", "changed", "given", "read"):
            rows[-1][0].append(line)
    return common, [row for row in rows if row[1]]


def moments_of(each):
    """Gives the lines that a line `each` stands for."""
    words = each.split(" ")
    for call in range(int(words[-2]), int(words[-1]) + 1):
        if words[0] == "loss":
            yield f"loss {call} before {words[1]}"
            yield f"loss {call} after {words[1]}"
        else:
            yield f"{words[0]} {call}"


def bytes_of(text):
    """Gives the bytes that an answer spells."""
    return re.sub(rb"\\(n|[0-9a-f]{2})", lambda m: b"\n" if m[1] == b"n" else bytes([int(m[1], 16)]), text.encode("latin-1"))


def database_of(looks):
    """Gives the number of the deployment and the position that the looks at a disk tell, or none where nothing was deployed."""
    selector, *slots = (bytes_of(look) for look in looks)
    slot = selector[0] % 2
    cells, record = slots[slot], slots[2 + slot]
    if record[:4] == bytes(4):
        return None
    cell = cells[128:] if cells[0] % 2 else cells[64:128]
    return record[10:12], (record[4:9] if cell[:4] == bytes(4) else cell[4:9])


def from_of(database):
    """Gives the line of a position."""
    if database is None:
        return "from Idle Undecided 0 No 0"
    state, outcome, undoable, reboot, n = database[1]
    return f"from {STATES[state]} {OUTCOMES[outcome]} {undoable} {REBOOTS[reboot]} {n}"


def lists_of(setup):
    """Gives the lines of the payload types, of the artifact's scripts in the manifest's order, and of the device's own."""
    text = "\n".join(setup)
    info = re.findall(r"^tree header/header-info (.*)$", text, re.MULTILINE)[-1]
    kinds = re.findall(r'"type":"([^"]*)"', info)
    scripts = sorted(re.findall(r"^tree header/scripts/(\S+)", text, re.MULTILINE))
    own = sorted(re.findall(r"^own (\S+)", text, re.MULTILINE))
    return [f"kind {name}" for name in kinds] + [f"script {name}" for name in scripts] + [f"site {name}" for name in own]


def notes_of(answers, lists):
    """Gives the notes of a row, and of each whether its boot changed the database."""
    notes, before = [], database_of([text for _, [text] in answers[:5]])
    for at in range(5, len(answers), 6):
        (words, told), looks = answers[at], answers[at + 1:at + 6]
        behind = database_of([text for _, [text] in looks])
        deed = DEEDS.get(words)
        end = "halted" if told[-1] == "status 10" else ENDS.get(told[-2] if len(told) > 1 else "", "none")
        events = [line for line in told if EVENT.match(line)]
        is_unread = end == "halted" and behind is None and deed != "install"
        if deed and not is_unread:
            own = [] if end == "none" else lists
            notes.append(("\n".join([f"boot {deed}", from_of(before), *own, *events, f"end {end}"]) + "\n", from_of(behind) != from_of(before)))
        before = behind
    return notes


def played(scenario_cli, file, text):
    """Gives the answers of each row: pairs of what a line asks and the lines under it."""
    file.write_text(text, encoding="latin-1")
    done = subprocess.run([scenario_cli, file], capture_output=True, check=False)
    if done.returncode != 1:
        sys.exit(f"{file}: status {done.returncode}: {done.stderr.decode('latin-1')}")
    rows = []
    for line in done.stdout.decode("latin-1").split("\n")[1:]:
        if line.startswith("row "):
            rows.append([])
        elif line.startswith("  "):
            rows[-1][-1][1].append(line[2:])
        elif line.startswith(("- ", "bytes ")):
            rows[-1].append((line.removeprefix("- "), []))
    return rows


def verdict(trace_cli, folder, notes):
    """Gives what the checker answers of notes."""
    (folder / "trace").write_text("".join(note for note, _ in notes), encoding="latin-1")
    return subprocess.run([trace_cli, folder], capture_output=True, check=False).stdout.decode("latin-1").strip()


def file_text(common, setup, boots, moments):
    """Gives the rows of all moments."""
    lines = ["all", *common]
    for moment in moments:
        lines += ["row " + moment, *setup, moment, *LOOKS]
        for words in [*boots, *BEHIND]:
            lines += ["- " + words, *LOOKS]
    return "\n".join(lines) + "\n"


def check(programs, folder, name, notes):
    """Has the notes judged, and then without one that led to another position, for each that stands between two; gives how many
    of the latter are none, and how many are a path all the same."""
    found = verdict(programs[1], folder, notes)
    if found != "path":
        sys.exit(f"{name}: {found} of\n" + "".join(note for note, _ in notes))
    between = [at for at, (_, is_moved) in enumerate(notes) if is_moved and 0 < at < len(notes) - 1]
    left = [verdict(programs[1], folder, notes[:at] + notes[at + 1:]) for at in between]
    return sum(found.startswith("broken ") for found in left), left.count("path")


def main():
    programs, files = sys.argv[1:3], sys.argv[3:]
    if not files:
        sys.exit(__doc__)
    paths, broken, whole = 0, 0, 0
    with tempfile.TemporaryDirectory() as top:
        folder = pathlib.Path(top)
        for file in files:
            common, rows = rows_of(pathlib.Path(file).read_text(encoding="latin-1"))
            for setup, boots, each in rows:
                moments = [moment for text in each for moment in moments_of(text)]
                lists = lists_of(common + setup)
                answers = played(programs[0], folder / "rows", file_text(common, setup, boots, moments)) if moments else []
                for moment, row in zip(moments, answers):
                    none, some = check(programs, folder, f"{file}: {setup} {moment}", notes_of(row, lists))
                    paths, broken, whole = paths + 1, broken + none, whole + some
    print(f"{paths} rows of boots are paths; without one note {broken} are none, and {whole} are")


if __name__ == "__main__":
    main()
