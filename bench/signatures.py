#!/usr/bin/env python3
"""Hands the built signed_cli random manifests with signatures that are right, damaged or of others, and sees that it says the same
as `openssl dgst -verify` and a look at the signature's length: openssl reads as many octets as the key has, and takes a signature
with more behind them. Each row is tried with a file of one key and with a file of three. Then it times the program for each size of
key. Run it by hand; the gate doesn't call it. It needs openssl.

usage: bench/signatures.py [ROWS [SEED]]
"""
import base64
import os
import random
import statistics
import subprocess
import sys
import tempfile
import time

from show_provides import peak_memory

HERE = os.path.dirname(os.path.abspath(__file__))
PROGRAM = os.path.realpath(os.path.join(HERE, "../crates/signed_cli/out/signed_cli"))
SIZES = (2048, 3072, 4096)


def openssl(*words, **more):
    return subprocess.run(["openssl", *words], capture_output=True, check=True, **more).stdout


def sign(key, manifest, digest="-sha256", *options):
    """The signature of a manifest by the private part of a key."""
    return openssl("dgst", digest, "-sign", f"{key}.private", *options, input=manifest)


def modulus(key):
    return int(openssl("rsa", "-pubin", "-in", f"{key}.pem", "-noout", "-modulus").split(b"=")[1], 16)


def damaged(draw, kind, signature, key, other, manifest):
    """A signature that is damaged so, or another one."""
    octets = len(signature)
    flipped = bytearray(signature)
    flipped[draw.randrange(octets)] ^= 1 << draw.randrange(8)
    n = modulus(key)
    more = int.from_bytes(signature, "big") + n
    return {
        "right": signature,
        "a bit": bytes(flipped),
        "cut": signature[:draw.randrange(octets)],
        "cut in front": signature[1:],
        "longer": signature + bytes([draw.randrange(256)]),
        "a zero in front": b"\0" + signature,
        "zero": bytes(octets),
        "one": bytes(octets - 1) + b"\1",
        "all ones": b"\xff" * octets,
        "the modulus": n.to_bytes(octets, "big"),
        "plus the modulus": more.to_bytes((more.bit_length() + 7) // 8, "big"),
        "none": b"",
        "another key's": sign(other, manifest),
        "of another manifest": sign(key, manifest + b"x"),
        "SHA-1": sign(key, manifest, "-sha1"),
        "SHA-512": sign(key, manifest, "-sha512"),
        "PSS": sign(key, manifest, "-sha256", "-sigopt", "rsa_padding_mode:pss"),
        "the least octet first": signature[::-1],
        "random": bytes(draw.randrange(256) for _ in range(octets)),
    }[kind]


KINDS = ["right"] * 8 + ["a bit"] * 4 + ["cut", "cut in front", "longer", "a zero in front", "zero", "one", "all ones", "the modulus",
                                         "plus the modulus", "none", "another key's", "of another manifest", "SHA-1", "SHA-512",
                                         "PSS", "the least octet first", "random"]


def run(key):
    return subprocess.run([PROGRAM, key, "manifest", "manifest.sig"], capture_output=True, stdin=subprocess.DEVNULL)


def verified(key, signature):
    """What openssl says, and the length."""
    with open("raw", "wb") as file:
        file.write(signature)
    found = subprocess.run(["openssl", "dgst", "-sha256", "-verify", f"{key}.pem", "-signature", "raw", "manifest"],
                           capture_output=True).returncode == 0
    return found, len(signature) == (modulus(key).bit_length() + 7) // 8


def compare(rows, draw, keys):
    """How many rows differ."""
    wrong = taken = longer = 0
    for row in range(rows):
        size = draw.choice(SIZES)
        key, other = draw.sample(keys[size], 2)
        manifest = draw.randbytes(draw.choice([0, 1, draw.randrange(1000), draw.randrange(65537), 65536]))
        kind = draw.choice(KINDS)
        signature = damaged(draw, kind, sign(key, manifest), key, other, manifest)
        with open("manifest", "wb") as file:
            file.write(manifest)
        text = base64.b64encode(signature) if draw.randrange(2) else base64.encodebytes(signature)
        with open("manifest.sig", "wb") as file:
            file.write(text)
        apart = draw.choice([name for group in keys.values() for name in group if name not in (key, other)])
        several = draw.sample([key, other, apart], 3)
        with open("several.pem", "wb") as file:
            for name in several:
                with open(f"{name}.pem", "rb") as one:
                    file.write(one.read())
        found, long = verified(key, signature)
        longer += found and not long
        taken += found and long
        any_of = any(all(verified(name, signature)) for name in several)
        for file, wanted in [(f"{key}.pem", found and long), ("several.pem", any_of)]:
            end = run(file)
            if end.returncode != (0 if wanted else 1) or end.stdout or end.stderr.count(b"\n") != (0 if wanted else 1):
                wrong += 1
                print(f"row {row}, {size} bits, {kind}, {file}: status {end.returncode}, {end.stderr}, wanted {wanted}")
    print(f"{rows} rows, {taken} signed, {longer} that only openssl takes: {wrong} differ")
    return wrong


def time_sizes(keys):
    for size in SIZES:
        key = keys[size][0]
        manifest = os.urandom(1000)
        with open("manifest", "wb") as file:
            file.write(manifest)
        with open("manifest.sig", "wb") as file:
            file.write(base64.b64encode(sign(key, manifest)))
        took = []
        for _ in range(50):
            start = time.perf_counter()
            end = run(f"{key}.pem")
            took.append((time.perf_counter() - start) * 1e3)
            assert end.returncode == 0
        peak = peak_memory([PROGRAM, f"{key}.pem", "manifest", "manifest.sig"], ".")
        print(f"{size} bits: median {statistics.median(took):.1f} ms, least {min(took):.1f} ms as a process; peak {peak}")


def main():
    rows = int(sys.argv[1]) if len(sys.argv) > 1 else 400
    seed = int(sys.argv[2]) if len(sys.argv) > 2 else random.randrange(1 << 32)
    if not os.access(PROGRAM, os.X_OK):
        sys.exit(f"there is no program {PROGRAM}: the gate builds it")
    print(f"seed {seed}")
    with tempfile.TemporaryDirectory() as work:
        os.chdir(work)
        keys = {size: [f"{size}-{k}" for k in range(2)] for size in SIZES}
        for name in [name for group in keys.values() for name in group]:
            openssl("genrsa", "-out", f"{name}.private", name.split("-")[0])
            with open(f"{name}.pem", "wb") as file:
                file.write(openssl("rsa", "-in", f"{name}.private", "-pubout"))
        wrong = compare(rows, random.Random(seed), keys)
        time_sizes(keys)
    sys.exit(1 if wrong else 0)


main()
