#!/usr/bin/env python3
"""Makes boots of the built client with `--trace`, whose modules and scripts do as a seed draws, fail, and kill the client. What is noted of
them has to be `path` for trace_cli, and with one event changed `broken` there. Part of the gate by transcripts.sh, which makes few boots; by
hand it makes 2,000.

usage: tools/notes.py [BOOTS [CHANGES [SEED]]]
A boot that is killed writes no note: one is put in its place that is cut off, with the events that its children wrote down. Before it a
look (an install of a tree whose payload has another sum) tells where the database stands. The last line counts what was seen. PROGRAMS in the environment is a folder with the programs.
"""
import hashlib
import os
import random
import shutil
import subprocess
import sys
import tempfile

TOP = os.path.dirname(os.path.dirname(os.path.abspath(__file__)))
PLACE = os.environ.get("PROGRAMS", os.path.join(TOP, "crates/{0}/out"))
PROGRAMS = {name: os.path.join(PLACE.format(name), name) for name in ("client_cli", "trace_cli", "tree_cli")}
STATES = ["Download", "ArtifactInstall", "ArtifactReboot", "ArtifactVerifyReboot", "ArtifactCommit", "ArtifactRollback",
          "ArtifactRollbackReboot", "ArtifactVerifyRollbackReboot", "ArtifactFailure", "Cleanup"]
COMMANDS = [("install", ["install", "tree"])] * 3 + [("resume", ["resume"])] * 3 + [("commit", ["commit"]), ("rollback", ["rollback"])]
COMMANDS += [("resume-stop", ["resume", "--stop-before", "ArtifactCommit"])] * 2
KIND, OWN, BROUGHT = "app", "Download_Enter_00", "ArtifactInstall_Enter_00"
CHILD = """#!/bin/sh
data=$(dirname "$0" | sed 's,/data/.*,/data,')
{name}
[ ! -f "$data/kill/$name" ] || {{ rm "$data/kill/$name"; kill -9 $PPID; exit 0; }}
{answer}
"""
MODULE = CHILD.format(name="""name=$1
case $1 in
Supports* | Needs*) echo "ask 0 $1" ;;
*) echo "module 0 $1" ;;
esac >> "$data/seen\"""", answer="""case $1 in
Supports* | Needs*)
    reply=$(cat "$data/replies/$1" 2> /dev/null)
    printf %s "$reply"
    hex=$(printf %s "$reply" | od -An -tx1 | tr -d ' \\n')
    echo "reply 0 ${hex:--}" >> "$data/seen"
    exit 0 ;;
esac
status=0
[ ! -f "$data/fails/$1" ] || status=1
echo "exit $status" >> "$data/seen"
exit $status""")
SCRIPT = CHILD.format(name="""name=$(basename "$0")
echo "run $name" >> "$data/seen\"""", answer="""status=0
[ ! -f "$data/fails/$name" ] || status=1
echo "exit $status" >> "$data/seen"
exit $status""")


def need(right, what):
    if not right:
        sys.exit(f"wrong: {what}")


def write(path, text):
    os.makedirs(os.path.dirname(path), exist_ok=True)
    with open(path, "w") as file:
        file.write(text)
    os.chmod(path, 0o755)


def make_tree(folder, name, has_script):
    """A tree with one payload, and with a script of the artifact."""
    write(folder + "/files/app.bin", name)
    words = [PROGRAMS["tree_cli"], "files", name, "release", "device", KIND, "-"]
    need(subprocess.run(words, cwd=folder, check=False).returncode == 0, f"tree_cli {name}")
    if has_script:
        write(f"{folder}/{name}/header/scripts/{BROUGHT}", SCRIPT)
        with open(f"{folder}/{name}/manifest", "a") as manifest:
            manifest.write(f"{hashlib.sha256(SCRIPT.encode()).hexdigest()}  header/scripts/{BROUGHT}\n")


class Device:
    """A data folder, its trees, and what was noted of its boots."""

    def __init__(self, folder, draw):
        self.folder, self.draw, self.notes = folder, draw, []
        self.scripts = [BROUGHT] if draw.random() < 0.5 else []
        self.site = [OWN] if draw.random() < 0.5 else []
        self.killed = 0
        for name in ("tree", "look"):
            make_tree(folder, name, bool(self.scripts))
        write(folder + "/look/data/0000/app.bin", "another")
        write(folder + "/data/device_type", "device_type=device\n")
        write(f"{folder}/data/modules/v3/{KIND}", MODULE)
        for name in self.site:
            write(f"{folder}/data/scripts/{name}", SCRIPT)
        write(folder + "/data/reboot", "exit 0\n")

    def prepare(self, kill):
        """Draws what the children of the next boot do. At most one of them kills the client."""
        for part in ("kill", "fails", "replies"):
            shutil.rmtree(f"{self.folder}/data/{part}", ignore_errors=True)
            os.makedirs(f"{self.folder}/data/{part}")
        for name in STATES + self.scripts + self.site:
            if self.draw.random() < 0.1:
                write(f"{self.folder}/data/fails/{name}", "")
        for query, words in (("SupportsRollback", ["", "No", "Yes", "Yes"]), ("NeedsArtifactReboot", ["", "No", "Yes", "maybe"])):
            write(f"{self.folder}/data/replies/{query}", self.draw.choice(words))
        if kill:
            write(f"{self.folder}/data/kill/{self.draw.choice(STATES + self.scripts + self.site)}", "")
        write(self.folder + "/data/seen", "")

    def client(self, words):
        """The exit status, and what is written behind the answer."""
        run = [PROGRAMS["client_cli"], "--data", "data", "--trace", *words]
        ended = subprocess.run(run, cwd=self.folder, stdin=subprocess.DEVNULL, capture_output=True, text=True, check=False)
        return ended.returncode, ended.stdout.partition("\n")[2]

    def boot(self):
        deed, words = self.draw.choice(COMMANDS)
        kill = self.draw.random() < 0.25
        self.prepare(False)
        if kill:
            _, look = self.client(["install", "look"])
            self.notes.append(look)
            self.prepare(True)
        status, note = self.client(words)
        with open(self.folder + "/data/seen") as file:
            seen = file.read()
        if status == -9:
            self.killed += 1
            lists = [f"kind {KIND}\n"] + [f"script {name}\n" for name in self.scripts] + [f"site {name}\n" for name in self.site]
            note = f"boot {deed}\n{look.splitlines()[1]}\n{''.join(lists)}{seen}end halted\n"
        else:
            need(note.endswith("\n") and f"boot {deed}\n" in note, f"the note of {words}: {note!r}")
            need("".join(line + "\n" for line in events_of(note) if line != "reboot") == seen, f"the events of {note}, not {seen}")
        self.notes.append(note)


def events_of(note):
    heads = ("boot ", "from ", "kind ", "script ", "site ", "end ")
    return [line for line in note.splitlines() if not line.startswith(heads)]


def judged(folder, notes):
    write(folder + "/notes/trace", "".join(notes))
    ended = subprocess.run([PROGRAMS["trace_cli"], folder + "/notes"], stdin=subprocess.DEVNULL, capture_output=True, text=True, check=False)
    return ended.stdout.strip()


def changed(draw, notes):
    """The notes with one event changed that can't come there, and which note and event that is; none where no note has an event."""
    places = [(at, k) for at, note in enumerate(notes) for k in range(len(events_of(note)))]
    if not places:
        return None
    at, k = draw.choice(places)
    event = events_of(notes[at])[k]
    lines = notes[at].splitlines()
    line = len(lines) - 1 - len(events_of(notes[at])) + k
    if event.split()[0] in ("exit", "reply"):
        lines[line] = "pause 60"
    else:
        lines[line] = draw.choice(["pause 60", "exit 0", f"run {OWN}x", "not-started"])
    return [*notes[:at], "\n".join(lines) + "\n", *notes[at + 1:]], f"broken {at} {k}"


def main():
    boots, changes, seed = (int(word) for word in (sys.argv[1:] + ["2000", "200", "1"][len(sys.argv) - 1:]))
    draw, made, tried, killed, events = random.Random(seed), 0, 0, 0, 0
    while made < boots:
        with tempfile.TemporaryDirectory() as folder:
            device = Device(folder, draw)
            for _ in range(min(20, boots - made)):
                device.boot()
                made += 1
            killed += device.killed
            events += sum(len(events_of(note)) for note in device.notes)
            found = judged(folder, device.notes)
            need(found == "path", f"{found} for\n{''.join(device.notes)}")
            for _ in range(0 if tried >= changes else max(1, changes * 20 // boots)):
                change = changed(draw, device.notes)
                if change:
                    found = judged(folder, change[0])
                    need(found == change[1], f"{found}, not {change[1]}, for\n{''.join(change[0])}")
                    tried += 1
    print(f"seed {seed}: {made} boots, {killed} of them killed, with {events} events: path; {tried} with one event changed: broken there")


if __name__ == "__main__":
    main()
