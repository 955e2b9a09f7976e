#!/usr/bin/env python3
"""Shows what tools/unpack.sh takes and refuses, by artifacts that are made here, good ones and ones that would write outside
of their folder, and that nothing is left beside the tree. Where openssl is installed it shows what --key takes and refuses, by the
built signed_cli where there is one, and by openssl alone. Run it by hand; the gate doesn't call it.

usage: bench/unpack.py [SHELL [PATH]]
SHELL runs the script, else sh; with `busybox sh` and a PATH of busybox's programs it shows them in the place of GNU's.
"""
import base64
import gzip
import hashlib
import io
import lzma
import os
import shutil
import subprocess
import sys
import tarfile
import tempfile

HERE = os.path.dirname(os.path.abspath(__file__))
SCRIPT = os.path.join(HERE, "..", "tools", "unpack.sh")
PROGRAMS = os.path.join(HERE, "..", "crates", "signed_cli", "out")
VERSION = b'{"format":"mender","version":3}'
INFO = (b'{"payloads":[{"type":"single-file"}],"artifact_provides":{"artifact_name":"release-2"},'
        b'"artifact_depends":{"device_type":["beaglebone"]}}')
TYPE = b'{"type":"single-file"}'
HEADER = [("header-info", INFO), ("headers/0000/type-info", TYPE)]
PACKINGS = {"": lambda b: b, ".gz": gzip.compress, ".xz": lambda b: lzma.compress(b, lzma.FORMAT_XZ),
            ".zst": lambda b: subprocess.run(["zstd", "-qc"], input=b, stdout=subprocess.PIPE, check=True).stdout}


def member(name, content=b"", kind=tarfile.REGTYPE, link=""):
    """A member of a tar with its bytes."""
    info = tarfile.TarInfo(name)
    info.size, info.type, info.linkname, info.mode = len(content), kind, link, 0o4777
    return info, content


def tar(members, form=tarfile.PAX_FORMAT):
    """The bytes of a tar. A member is a name and its bytes, or what `member` gives."""
    out = io.BytesIO()
    with tarfile.open(fileobj=out, mode="w", format=form) as file:
        for one in members:
            info, content = one if isinstance(one[0], tarfile.TarInfo) else member(*one)
            file.addfile(info, io.BytesIO(content))
    return out.getvalue()


def line(name, content):
    return f"{hashlib.sha256(content).hexdigest()}  {name}\n".encode()


def artifact(header=HEADER, payloads=([("app.bin", b"new")],), packing=".gz", version=VERSION, more=(), lines=b"",
             manifest=None, damage=None):
    """The bytes of an artifact."""
    pack = PACKINGS[packing]
    head = pack(tar(header))
    datas = [(f"data/{k:04}.tar{packing}", pack(tar(files))) for k, files in enumerate(payloads)]
    if manifest is None:
        manifest = line("version", version) + line(f"header.tar{packing}", head)
        for k, files in enumerate(payloads):
            for one in files:
                if isinstance(one[0], str):
                    manifest += line(f"data/{k:04}/{one[0]}", one[1])
    if damage:
        head, datas = damage(head, datas)
    return tar([("version", version), ("manifest", manifest + lines), (f"header.tar{packing}", head)] + datas + list(more))


def cases(outside, path=None):
    """A name, the bytes, and the exit status that is wanted with a part of the line."""
    good = [("app.bin", b"new")]
    yield "as it is", artifact(), 0, ""
    yield "not packed", artifact(packing=""), 0, ""
    yield "packed with xz", artifact(packing=".xz"), 0, ""
    if shutil.which("zstd"):
        there = shutil.which("zstd", path=path)
        yield "packed with zstd", artifact(packing=".zst"), 0 if there else 2, "" if there else "zstd is missing"
    yield "four files", artifact(payloads=[[(f"f{i}", b"x" * i) for i in range(4)]]), 0, ""
    yield "eight payloads", artifact(header=HEADER + [(f"headers/{k:04}/type-info", TYPE) for k in range(1, 8)],
                                     payloads=[good] * 8), 0, ""
    yield "a payload without files", artifact(payloads=[[]]), 0, ""
    yield "scripts and meta-data", artifact(header=HEADER + [("headers/0000/meta-data", b"{}"),
                                                             ("scripts/ArtifactInstall_Enter_00", b"exit 0\n")]), 0, ""
    yield "odd names", artifact(payloads=[[("-x", b"1"), (" a  b ", b"2"), ("a\\nb", b"3"), ("*", b"4"),
                                           ("\u00e9", b"5")]]), 0, ""
    yield "no tar", b"no tar at all" * 100, 1, "it is no tar"
    yield "no bytes", b"", 1, "no tar"
    yield "cut off", artifact(payloads=[[("app.bin", os.urandom(100_000))]], packing="")[:50_000], 1, "cut off"
    yield "format 2", artifact(version=b'{"format":"mender","version":2}'), 1, "format 2"
    yield "augmented", artifact(more=[("manifest-augment", b"")]), 1, "augmented"
    yield "no type", artifact(header=[("header-info", INFO), ("headers/0000/type-info", b'{"type":null}')]), 1, "type empty"
    yield "nine payloads", artifact(payloads=[good] * 9), 1, "eight payloads"
    yield "a long name", artifact(payloads=[[("n" * 119, b"")]]), 1, "too long"
    yield "the longest name", artifact(payloads=[[("n" * 118, b"")]]), 0, ""
    yield "a long script", artifact(header=HEADER + [("scripts/ArtifactInstall_Enter_00_" + "n" * 100, b"")]), 1, "too long"
    yield "too many files", artifact(payloads=[[(f"f{i}", b"") for i in range(253)]]), 1, "257 files"
    yield "as many as may be", artifact(payloads=[[(f"f{i}", b"") for i in range(252)]]), 0, ""
    yield "another header", artifact(damage=lambda h, d: (gzip.compress(tar(HEADER[:1])), d)), 1, "sum of header.tar.gz"
    yield "another payload", artifact(damage=lambda h, d: (h, [(d[0][0], gzip.compress(tar([("app.bin", b"old")])))])), \
        1, "sum of data/0000/app.bin"
    yield "a payload that is cut off", artifact(damage=lambda h, d: (h, [(d[0][0], d[0][1][:-9])])), 1, "cut off"
    yield "a line too many", artifact(lines=line("data/0000/b", b"")), 1, "lists what it hasn't: data/0000/b"
    yield "a line too few", artifact(manifest=line("version", VERSION) + line("header.tar.gz", gzip.compress(b""))), 1, "sum"
    yield "a file without a line", artifact(damage=lambda h, d: (h, [(d[0][0], gzip.compress(
        tar([("app.bin", b"new"), ("b", b"")])))])), 1, "no line"
    yield "a bad line", artifact(lines=b"nothing\n"), 1, "no sum and path"
    yield "a line out of the tree", artifact(lines=line("../outside/kept", b"kept")), 1, "lists what it hasn't"
    yield "a line out of a payload", artifact(lines=line("data/0000/../../../../outside/kept", b"kept")), 1, "no payload"
    yield "a large header", artifact(header=HEADER + [("scripts/ArtifactInstall_Enter_00", b"x" * 65_537)]), 1, "65536 bytes"
    yield "a stranger in it", artifact(more=[("etc", b"")]), 1, "no artifact of format 3"
    yield "a stranger in the header", artifact(header=HEADER + [("etc", b"")]), 1, "no header has"
    kinds = [("symlink", tarfile.SYMTYPE), ("hard link", tarfile.LNKTYPE), ("folder", tarfile.DIRTYPE),
             ("fifo", tarfile.FIFOTYPE), ("device", tarfile.CHRTYPE)]
    for name, kind in kinds:
        link = member("l", b"", kind, f"{outside}/kept")
        through = [link, ("l", b"written"), ("l/written", b"written")]
        told = "" if kind == tarfile.LNKTYPE else "no file"       # busybox lists a hard link as a file, and it is refused later
        yield f"a {name} in a payload", artifact(payloads=[good + through]), 1, told
        yield f"a {name} alone in a payload", artifact(payloads=[good + [link]], lines=line("data/0000/l", b"kept")), 1, ""
        yield f"a {name} in the header", artifact(header=HEADER + [member("scripts", b"", kind, outside),
                                                                   ("scripts/written", b"written")]), 1, told
        yield f"a {name} in it", artifact(more=[member("data/0001.tar", b"", kind, f"{outside}/kept")]), 1, told
    for name in [f"{outside}/written", "../../../outside/written", "../written", "a/../../../../outside/written", "..", "a/b",
                 "x\n../../../../outside/written"]:
        yield f"{name!r} in a payload", artifact(payloads=[good + [(name, b"written")]]), 1, ""
        yield f"{name!r} in the header", artifact(header=HEADER + [(name, b"written")]), 1, ""
        yield f"scripts/{name!r} in the header", artifact(header=HEADER + [("scripts/" + name, b"written")]), 1, ""
        yield f"{name!r} in it", artifact(more=[(name, b"written")]), 1, ""
    yield "a name of two lines", artifact(payloads=[[("a\nb", b"")]]), 1, ""
    yield "a script's name of two lines", artifact(header=HEADER + [("scripts/a\nscripts/b", b"")]), 1, ""
    yield "a file twice", artifact(damage=lambda h, d: (h, [(d[0][0], gzip.compress(tar(good + good)))])), 1, "twice"
    yield "a header file twice", artifact(header=HEADER + HEADER), 1, "twice"
    yield "a payload in two packings", artifact(more=[("data/0000.tar", tar([]))]), 1, "twice"


def openssl(*words, **more):
    return subprocess.run(["openssl", *words], capture_output=True, check=True, **more).stdout


def make_keys(folder):
    """Files of keys by their names, each with its private part in a file `NAME.private`."""
    for name, words in [("key", ("genrsa", "2048")), ("large", ("genrsa", "4096")), ("other", ("genrsa", "2048")),
                        ("short", ("genrsa", "1024")), ("three", ("genrsa", "-3", "2048")),
                        ("curve", ("ecparam", "-name", "prime256v1", "-genkey", "-noout"))]:
        with open(os.path.join(folder, name + ".private"), "wb") as file:
            file.write(openssl(*words))
        with open(os.path.join(folder, name), "wb") as file:
            file.write(openssl("pkey", "-in", file.name + ".private", "-pubout"))
    for name, parts in [("several", ["other", "large", "key"]), ("second-wrong", ["key", "curve"]), ("others", ["other", "large"])]:
        with open(os.path.join(folder, name), "wb") as file:
            for part in parts:
                with open(os.path.join(folder, part), "rb") as one:
                    file.write(one.read())
    with open(os.path.join(folder, "text"), "wb") as file:
        file.write(b"no key at all\n")
    os.mkfifo(os.path.join(folder, "fifo"))


def members_of(content):
    with tarfile.open(fileobj=io.BytesIO(content)) as file:
        return [(one.name, file.extractfile(one).read()) for one in file]


def signature_of(folder, key, content):
    """The signature of an artifact's manifest by a key."""
    return openssl("dgst", "-sha256", "-sign", os.path.join(folder, key + ".private"), input=dict(members_of(content))["manifest"])


def signed(content, signature):
    """An artifact with this signature behind its files."""
    return tar(members_of(content) + [("manifest.sig", base64.b64encode(signature))])


def keyed_cases(folder):
    """A name, the file of keys, the bytes, and the exit status that is wanted with a part of the line."""
    plain, old = artifact(), artifact(payloads=[[("app.bin", b"old")]])
    right = signature_of(folder, "key", plain)
    good = signed(plain, right)
    yield "signed", "key", good, 0, ""
    yield "signed with a large key", "large", signed(plain, signature_of(folder, "large", plain)), 0, ""
    yield "signed with the last of several keys", "several", good, 0, ""
    yield "signed with none of several keys", "others", good, 1, "isn't one of this manifest"
    yield "signed with another key", "other", good, 1, "isn't one of this manifest"
    yield "unsigned", "key", plain, 1, "it isn't signed"
    for key in ["absent", "fifo"]:
        yield f"the key {key}", key, good, 2, "no file that can be read"
    for key, told in [("text", "no PEM text"), ("curve", "no RSA key"), ("short", "fewer than 2048 bits"), ("three", "another exponent"),
                      ("second-wrong", "no RSA key")]:
        yield f"the key {key}", key, good, 2, told
    yield "octets behind the signature", "key", signed(plain, right + b"x"), 1, "isn't one of this manifest"
    yield "a signature that is cut", "key", signed(plain, right[:-1]), 1, "isn't one of this manifest"
    yield "a signature that isn't base64", "key", tar(members_of(plain) + [("manifest.sig", b"-" * 344)]), 1, "isn't base64"
    yield "a signature without end", "key", tar(members_of(plain) + [("manifest.sig", b"A" * 16_385)]), 1, "more than 16384 bytes"
    yield "the signature of another artifact", "key", signed(old, right), 1, "isn't one of this manifest"
    changed = bytearray(right)
    changed[100] ^= 1
    yield "a changed bit of the signature", "key", signed(plain, bytes(changed)), 1, "isn't one of this manifest"
    parts = dict(members_of(good))
    lines = bytearray(parts["manifest"])
    lines[0] ^= 1
    yield "a changed bit of the manifest", "key", tar(list({**parts, "manifest": bytes(lines)}.items())), 1, "isn't one of this manifest"
    head = gzip.compress(tar(HEADER[:1]))
    yield "another header", "key", tar(list({**parts, "header.tar.gz": head}.items())), 1, "sum of header.tar.gz"
    data = gzip.compress(tar([("app.bin", b"old")]))
    yield "another payload", "key", tar(list({**parts, "data/0000.tar.gz": data}.items())), 1, "sum of data/0000/app.bin"
    both = list(parts.items())
    unsigned = ("manifest", dict(members_of(old))["manifest"])
    mixed = [(name, data if name == "data/0000.tar.gz" else content) for name, content in both]
    yield "the signed manifest, then another", "key", tar(mixed + [unsigned]), 1, "manifest twice"
    yield "another manifest, then the signed one", "key", tar([unsigned] + mixed), 1, "manifest twice"


def files_of(folder):
    found = {}
    for above, _, names in os.walk(folder):
        for name in names:
            path = os.path.join(above, name)
            with open(path, "rb") as file:
                found[os.path.relpath(path, folder)] = file.read()
    return found


def whole(tree):
    """What is wrong with a tree, by its manifest, its kinds of files and its rights."""
    for above, folders, names in os.walk(tree):
        for name in folders + names:
            path = os.path.join(above, name)
            if os.path.islink(path) or os.stat(path).st_mode & 0o7022:
                return f"{path} has odd rights or is a link"
    files = files_of(tree)
    lines = files.pop("manifest").decode("utf-8", "surrogateescape").splitlines()
    listed = {one[66:]: one[:64] for one in lines}
    found = {path: hashlib.sha256(content).hexdigest() for path, content in files.items()}
    return "" if listed == found and len(lines) == len(found) else "its manifest isn't its files'"


def try_artifact(top, run, words, content, wanted, told):
    """What is wrong with how the script takes an artifact. Beside the new folder where it works, `top` has one that must stay."""
    outside, place, path = os.path.join(top, "outside"), os.path.join(top, "here", "below"), os.path.join(top, "a.mender")
    os.makedirs(place)
    with open(path, "wb") as file:
        file.write(content)
    end = run([SCRIPT, *words, path, "tree"], cwd=place, capture_output=True, text=True, stdin=subprocess.DEVNULL)
    wrong = []
    if end.returncode != wanted or end.stdout:
        wrong.append(f"exit {end.returncode}, not {wanted}")
    if end.stderr.count("\n") != (1 if wanted else 0) or told not in end.stderr:
        wrong.append(f"it says {end.stderr!r}, not {told!r}")
    if os.listdir(place) != ([] if wanted else ["tree"]):
        wrong.append(f"it leaves {os.listdir(place)}")
    elif not wanted and whole(os.path.join(place, "tree")):
        wrong.append(whole(os.path.join(place, "tree")))
    kept = os.stat(os.path.join(outside, "kept"))
    if files_of(outside) != {"kept": b"kept"} or sorted(os.listdir(top)) != ["a.mender", "here", "outside"] or \
            os.listdir(os.path.join(top, "here")) != ["below"] or kept.st_mode & 0o7777 != 0o600 or kept.st_nlink != 1:
        wrong.append("it wrote outside")
    shutil.rmtree(place)
    return wrong


def rows(outside, keys, path):
    """Each row: its name, the folder of programs that comes before those of PATH, the script's first words, the bytes, the status
    and a part of the line."""
    for name, *row in cases(outside, path):
        yield name, "", [], *row
    if not shutil.which("openssl"):
        print("skipped: --key, for which openssl is wanting")
        return
    make_keys(keys)
    programs = [PROGRAMS] if os.access(os.path.join(PROGRAMS, "signed_cli"), os.X_OK) else []
    if shutil.which("openssl", path=path):
        programs.append("")
    for name, key, *row in keyed_cases(keys):
        for folder in programs:
            yield f"{name}, by {'signed_cli' if folder else 'openssl'}", folder, ["--key", os.path.join(keys, key)], *row


def main():
    shell = sys.argv[1].split() if len(sys.argv) > 1 else ["sh"]
    path = sys.argv[2] if len(sys.argv) > 2 else None
    failed = count = 0
    with tempfile.TemporaryDirectory() as top, tempfile.TemporaryDirectory() as keys:
        top = os.path.realpath(top)
        outside = os.path.join(top, "outside")
        os.makedirs(outside)
        with open(os.path.join(outside, "kept"), "wb") as file:
            file.write(b"kept")
        os.chmod(os.path.join(outside, "kept"), 0o600)
        for name, folder, words, content, wanted, told in rows(outside, keys, path):
            searched = ":".join(filter(None, [folder, path or os.environ["PATH"]]))

            def run(words, **more):
                return subprocess.run(shell + words, env=dict(os.environ, PATH=searched), **more)
            wrong = try_artifact(top, run, words, content, wanted, told)
            count += 1
            if wrong:
                failed += 1
                print(f"FAILED  {name}: {'; '.join(wrong)}")
    print(f"{count - failed} of {count} artifacts as they should be")
    sys.exit(1 if failed else 0)


main()
