#!/usr/bin/env python3
"""Writes the data and the expected output of the program `judged`, from Python's own SHA-256, integers and dates.

    python3 tests/make_headers.py          writes crates/judged/data/ and crates/judged/stdout
    python3 tests/make_headers.py --long FILE HEADERS
                                           writes a chain of that many headers, for a run past the greatest count

The rules are written here a second time, from the text and not from the proved code.
"""
import datetime
import hashlib
import os
import random
import sys

CEILING = 0x207FFFFF
PREVIOUS = bytes([0x5A]) * 32
MOST_HEADERS = 65536
MOST_HEIGHT = 4294967295
BITCOIN = bytes.fromhex("0588960d73d71901")


def header_hash(header):
    return hashlib.sha256(hashlib.sha256(header).digest()).digest()


def target_of(bits):
    """The target, or None where the bits are unlawful."""
    exponent, mantissa = bits >> 24, bits & 0x7FFFFF
    target = mantissa << 8 * (exponent - 3) if exponent >= 3 else mantissa >> 8 * (3 - exponent)
    if bits & 0x800000 or target == 0 or target >= 1 << 256:
        return None
    return target


def little(data):
    return int.from_bytes(data, "little")


def make(previous, root, time, bits, nonce, version=2):
    numbers = [n.to_bytes(4, "little") for n in (version, time, bits, nonce)]
    return numbers[0] + previous + root + numbers[1] + numbers[2] + numbers[3]


def mine(draw, previous, bits, works=True, limit=None):
    """A header whose hash is at most the limit (by default its target), or above it."""
    root, time = draw.randbytes(32), draw.randrange(1 << 32)
    limit = target_of(bits) if limit is None else limit
    nonce = 0
    while True:
        header = make(previous, root, time, bits, nonce)
        if (little(header_hash(header)) <= limit) == works:
            return header
        nonce += 1


def chain(draw, count, broken=None, **how):
    """A chain of headers; the broken one is made as `how` says."""
    headers, before = [], PREVIOUS
    for k in range(count):
        if k == broken:
            header = mine(draw, how.get("previous", before), how.get("bits", CEILING), how.get("works", True), how.get("limit"))
        else:
            header = mine(draw, before, CEILING)
        headers.append(header)
        before = header_hash(header)
    return b"".join(headers)


def run(base, previous, ceiling, data):
    """How many headers are covered, and why no more."""
    if target_of(ceiling) is None:
        return 0, "the ceiling is unlawful"
    k, before = 0, previous
    while True:
        if len(data) == 80 * k:
            return k, "the bytes end"
        if k >= MOST_HEADERS:
            return k, "a run has no more headers"
        if base + k > MOST_HEIGHT:
            return k, "the next height is too great"
        header = data[80 * k : 80 * k + 80]
        if len(header) < 80:
            return k, "the next header is cut short"
        target = target_of(little(header[72:76]))
        if header[4:36] != before:
            return k, "the next header names another hash"
        if target is None:
            return k, "the next header has unlawful bits"
        if target > target_of(ceiling):
            return k, "the next header has a target above the ceiling"
        before = header_hash(header)
        if little(before) > target:
            return k, "the next header has a hash above its target"
        k += 1


def ask(base, covered, data, height, message):
    k = height - base
    if not 0 <= k < covered:
        return "waiting"
    if message != data[80 * k + 36 : 80 * k + 68]:
        return "rejected"
    time = little(data[80 * k + 68 : 80 * k + 72])
    return f"confirmed {time} {date(time)}"


def date(time):
    moment = datetime.datetime(1970, 1, 1) + datetime.timedelta(seconds=time)
    return moment.strftime("%Y-%m-%d %H:%M:%S UTC")


def chain_lines(name, base, previous, ceiling, data):
    covered, why = run(base, previous, ceiling, data)
    yield f"{name}: covers {covered}, {why}"
    heights = ([base - 1] if base > 0 else []) + [base + k for k in range(covered + 1)]
    for height in heights:
        k = height - base
        root = data[80 * k + 36 : 80 * k + 68] if k >= 0 else b""
        if len(root) < 32:
            root = bytes(32)
        turned = bytes([root[0] ^ 1]) + root[1:]
        if height <= MOST_HEIGHT:
            yield f"{name} height {height}: {ask(base, covered, data, height, root)}"
            yield f"{name} height {height} turned: {ask(base, covered, data, height, turned)}"


def chains(draw):
    """Name, base and bytes of each chain; a chain that breaks, breaks in one way alone."""
    yield "whole", 0, chain(draw, 5)
    yield "empty", 7, b""
    yield "link", 100, chain(draw, 5, 3, previous=bytes(32))
    yield "first-link", 100, chain(draw, 3, 0, previous=bytes(32))
    yield "bit-23", 200, chain(draw, 4, 2, bits=0x20800001, limit=1 << 256)
    yield "zero", 300, chain(draw, 4, 1, bits=0x20000000, limit=1 << 256)
    yield "fraction", 300, chain(draw, 4, 1, bits=0x0100FFFF, limit=1 << 256)
    yield "too-large", 400, chain(draw, 4, 2, bits=0x21010000, limit=1 << 256)
    yield "above-ceiling", 400, chain(draw, 4, 2, bits=0x2100FFFF, limit=target_of(CEILING))
    yield "just-above", 400, chain(draw, 4, 2, bits=0x21008000, limit=target_of(CEILING))
    yield "smaller-target", 500, chain(draw, 4, 2, bits=0x2000FFFF)
    yield "no-work", 500, chain(draw, 5, 4, works=False)
    yield "small-no-work", 500, chain(draw, 4, 2, bits=0x1D00FFFF, limit=target_of(CEILING))
    yield "cut-79", 600, chain(draw, 4)[:-1]
    yield "cut-1", 600, chain(draw, 4)[:-79]
    yield "height", 4294967293, chain(draw, 5)
    yield "last-height", 4294967293, chain(draw, 3)


ADDRESSES = [
    ("listed", b"https://a.example.org"),
    ("last", b"https://c.example.org"),
    ("beginning", b"https://a.example.or"),
    ("longer", b"https://a.example.org/"),
    ("behind-return", b"https://b.example.org/x"),
    ("none", b"https://d.example.org"),
    ("empty", b""),
    ("spaces", b"no address"),
]

TEXTS = [
    ("calendars", b"\nhttps://a.example.org\n\nhttps://b.example.org/x\r\nno address\nhttps://c.example.org"),
    ("ended", b"https://c.example.org\n"),
    ("nothing", b""),
]

ADDRESS_BYTES = b"abcdefghijklmnopqrstuvwxyzABCDEFGHIJKLMNOPQRSTUVWXYZ0123456789-._/:"


def calendar_lines(name, text):
    listed = [line for line in text.split(b"\n") if line]
    for word, address in ADDRESSES:
        fine = all(b in ADDRESS_BYTES for b in address)
        yield f"{name} {word}: {'waiting' if fine and address in listed else 'rejected'}"
    yield f"{name} cut: rejected"
    yield f"{name} trailing: rejected"


TIMES = [
    0, 86399, 68169599, 68169600, 68256000, 946684799, 951782400, 951868800, 1231006505,
    4107542399, 4107542400, 4294967295,
]


def judged(folder):
    draw = random.Random(20090103)
    first = make(
        bytes(32),
        bytes.fromhex("3ba3edfd7a7b12b27ac72c3e67768f617fc81bc3888a51323a9fb8aa4b1e5e4a"),
        1231006505, 0x1D00FFFF, 2083236893, version=1,
    )
    write(folder, "first.bin", first)
    yield from chain_lines("first", 0, bytes(32), 0x1D00FFFF, first)
    kept = {}
    for name, base, data in chains(draw):
        kept[name] = data
        write(folder, name + ".bin", data)
        yield from chain_lines(name, base, PREVIOUS, CEILING, data)
    whole = kept["whole"]
    yield from chain_lines("unlawful-ceiling", 0, PREVIOUS, 0x20800000, whole)
    yield from payload_lines(whole)
    for name, text in TEXTS:
        write(folder, name + ".txt", text)
        yield from calendar_lines(name, text)
    yield from choice_lines(whole)
    for time in TIMES:
        yield f"date {time}: {date(time)}"


def payload_lines(whole):
    """The first header's root under payloads of every form."""
    at_0 = ask(0, 5, whole, 0, whole[36:68])
    yield f"payload short: {at_0}"
    yield f"payload padded: {at_0}"
    yield "payload greatest: waiting"
    for name in ("none", "cut", "trailing", "too-large", "too-long"):
        yield f"payload {name}: rejected"


def choice_lines(whole):
    """Which tags each judge owns, and what it says under them."""
    at_0 = ask(0, 5, whole, 0, whole[36:68])
    for name, bitcoin, pending in (
        ("nobody", "foreign", "foreign"),
        ("headers", at_0, "foreign"),
        ("calendars", "foreign", "waiting"),
        ("both", at_0, "waiting"),
        ("pair", at_0, "waiting"),
    ):
        yield f"{name} bitcoin: {owned(bitcoin)} {bitcoin}"
        yield f"{name} pending: {owned(pending)} {pending}"
        yield f"{name} unknown: not owned, foreign"


def owned(verdict):
    return "not owned," if verdict == "foreign" else "owned,"


def write(folder, name, data):
    with open(os.path.join(folder, name), "wb") as out:
        out.write(data)


def long_chain(path, count):
    draw = random.Random(65536)
    with open(path, "wb") as out:
        before = bytes(32)
        for _ in range(count):
            header = mine(draw, before, CEILING)
            out.write(header)
            before = header_hash(header)


def main():
    if sys.argv[1:2] == ["--long"]:
        return long_chain(sys.argv[2], int(sys.argv[3]))
    crate = os.path.join(os.path.dirname(os.path.dirname(os.path.abspath(__file__))), "crates", "judged")
    folder = os.path.join(crate, "data")
    os.makedirs(folder, exist_ok=True)
    lines = list(judged(folder))
    with open(os.path.join(crate, "stdout"), "w") as out:
        out.writelines(line + "\n" for line in lines)


main()
