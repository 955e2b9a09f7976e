#!/usr/bin/env python3
"""Kills the module that replaces a file at each of its system calls, and rolls back. Run by hand; it needs strace.

usage: bench/file_module.py [PROGRAM]
For a target that is there and for one that isn't, for an installation and for a rollback, each system call of the whole run is
the one at which the module is killed (kill -9, as the call is entered). The rollback that follows must end with 0, and leave the
old bytes with the old mode and owner, or no target. Then each system call of a rollback is the one at which it is killed behind
an installation that was killed at each of its two renames. Last a rollback is begun beside an installation that waits in its
first rename, and must wait for its end.
"""
import collections
import os
import shutil
import subprocess
import sys
import tempfile
import time

OLD, NEW, MODE = b"old bytes" * 9_000, b"new bytes" * 11_000, 0o4750

# another owner than the one who runs this, where that one may give files away
OWNER = 1_000 if os.geteuid() == 0 else os.geteuid()


def make(folder, old):
    """A work folder with one payload file, and a root with or without a target."""
    shutil.rmtree(folder, ignore_errors=True)
    os.makedirs(f"{folder}/work/0000/files")
    os.mkdir(f"{folder}/root")
    with open(f"{folder}/work/0000/files/app.bin", "wb") as payload:
        payload.write(NEW)
    if old:
        with open(f"{folder}/root/target", "wb") as target:
            target.write(OLD)
        os.chown(f"{folder}/root/target", OWNER, -1)
        os.chmod(f"{folder}/root/target", MODE)


def run(program, folder, word, *before):
    """The status of one call, negative where a signal ended it."""
    command = [*before, program, word, f"{folder}/work/0000"]
    return subprocess.run(command, stdout=subprocess.DEVNULL, stderr=subprocess.DEVNULL).returncode


def calls_of(program, folder, word):
    """How often each system call is made, in one whole run."""
    log = f"{folder}/calls"
    assert run(program, folder, word, "strace", "-o", log) == 0
    with open(log) as lines:
        names = [line.split("(")[0] for line in lines if "(" in line and not line.startswith(("+++", "---"))]
    os.remove(log)
    return collections.Counter(name for name in names if name not in ("execve", "exit_group"))


def stands(folder, old):
    """Whether the target is what it was."""
    target = f"{folder}/root/target"
    if not old:
        return not os.path.lexists(target)
    found = os.stat(target)
    with open(target, "rb") as file:
        return file.read() == OLD and found.st_mode & 0o7777 == MODE and found.st_uid == OWNER


def whole(folder, old):
    """Whether the target is the old one or the new one, whole."""
    target = f"{folder}/root/target"
    if not os.path.lexists(target):
        return not old
    with open(target, "rb") as file:
        return file.read() in (OLD if old else NEW, NEW)


def kill(program, folder, word, name, at):
    """Runs the word, which is killed at that system call of the name. Whether it was."""
    return run(program, folder, word, "strace", "-o", "/dev/null", f"-einject={name}:signal=KILL:when={at}") == -9


def beside(program, folder, rename):
    """Begins a rollback while an installation waits in a rename. Whether both ended with 0, the rollback behind it."""
    delay = ["strace", "-o", "/dev/null", f"-einject={rename}:delay_enter=500000:when=1"]
    installing = subprocess.Popen([*delay, program, "ArtifactInstall", f"{folder}/work/0000"])
    time.sleep(0.25)
    begun = installing.poll() is None
    rolled_back = run(program, folder, "ArtifactRollback")
    return begun and rolled_back == 0 and installing.wait() == 0


def main():
    here = os.path.dirname(os.path.abspath(__file__))
    default = os.path.join(here, "..", "crates", "file_module_cli", "out", "file_module_cli")
    program = os.path.abspath(sys.argv[1] if len(sys.argv) > 1 else default)
    cases = wrong = 0
    with tempfile.TemporaryDirectory() as top:
        folder = f"{top}/d"
        for old in (True, False):
            make(folder, old)
            assert run(program, folder, "Download") == 0
            installing = calls_of(program, folder, "ArtifactInstall")
            rolling = calls_of(program, folder, "ArtifactRollback")
            plans = [("ArtifactInstall", name, at, None) for name, count in installing.items() for at in range(1, count + 1)]
            plans += [("ArtifactRollback", name, at, None) for name, count in rolling.items() for at in range(1, count + 1)]
            renames = [name for name in installing if name.startswith("rename")]
            plans += [
                ("ArtifactInstall", rename, which, (name, at))
                for rename in renames
                for which in (1, 2)
                for name, count in rolling.items()
                for at in range(1, count + 1)
            ]
            for word, name, at, then in plans:
                make(folder, old)
                run(program, folder, "Download")
                if word == "ArtifactRollback":
                    run(program, folder, "ArtifactInstall")
                good = kill(program, folder, word, name, at) and whole(folder, old)
                if then:
                    kill(program, folder, "ArtifactRollback", *then)
                    good = good and whole(folder, old)
                good = run(program, folder, "ArtifactRollback") == 0 and good and stands(folder, old)
                cases += 1
                if not good:
                    wrong += 1
                    print(f"FAILED  target {old}, {word}, {name} {at}, then {then}")
            make(folder, old)
            if not (beside(program, folder, renames[0]) and stands(folder, old)):
                wrong += 1
                print(f"FAILED  target {old}, two at once")
    print(f"{cases} kills, {wrong} wrong")
    sys.exit(1 if wrong else 0)


if __name__ == "__main__":
    main()
