#!/usr/bin/env python3
"""Prints what the program `vectors` has to print, from Python's own SHA-256 and its operations on byte strings.

    python3 tests/make_vectors.py > crates/vectors/stdout
"""
import hashlib

PUBLISHED = [
    ("empty", b""),
    ("abc", b"abc"),
    ("448-bits", b"abcdbcdecdefdefgefghfghighijhijkijkljklmklmnlmnomnopnopq"),
    (
        "896-bits",
        b"abcdefghbcdefghicdefghijdefghijkefghijklfghijklmghijklmnhijklmno"
        b"ijklmnopjklmnopqklmnopqrlmnopqrsmnopqrstnopqrstu",
    ),
    ("million-a", b"a" * 1000000),
]


LIMIT = 4096
PATTERN = bytes((i * 7 + i // 256 + 3) % 256 for i in range(LIMIT))
KINDS = ("sha256", "append", "prepend", "reverse", "hexlify")
SMALL = [
    (b"", b""),
    (b"", b"abc"),
    (b"xy", b""),
    (b"xy", b"a"),
    (b"\x00\xff\x7f", b"\x09\x10\x9f\xa0\xfa"),
]
FULL = [
    ("sha256", b"", PATTERN),
    ("append", PATTERN[32:], PATTERN[:32]),
    ("append", PATTERN[4095:], PATTERN[:4095]),
    ("append", PATTERN, b""),
    ("prepend", PATTERN[:4064], PATTERN[4064:]),
    ("prepend", PATTERN[:1], PATTERN[1:]),
    ("prepend", PATTERN, b""),
    ("reverse", b"", PATTERN),
    ("hexlify", b"", PATTERN[:2048]),
]
PROOF = [
    ("append", b"salt of 16 bytes"),
    ("sha256", b""),
    ("prepend", b"\x01\x02\x03\xfd\xfe\xff"),
    ("sha256", b""),
    ("reverse", b""),
    ("hexlify", b""),
    ("append", b"\n"),
]
SHA, TURN, HEX, MORE = ("sha256", b""), ("reverse", b""), ("hexlify", b""), ("append", b"!")
DIGEST = hashlib.sha256(b"abc").digest()
PATHS = [
    ("nothing", [], DIGEST),
    ("proof", PROOF, DIGEST),
    ("proof-begun", PROOF[:3], DIGEST),
    ("hashes-255", [SHA] * 255, DIGEST),
    ("digits-to-4096", [HEX] * 7, DIGEST),
    ("there-and-back", [TURN] * 2, PATTERN),
    ("digest-of-4096", [], PATTERN),
    ("digits-to-8192", [HEX] * 8, DIGEST),
    ("a-byte-over", [MORE], PATTERN),
    ("over-on-the-way", [MORE, SHA], PATTERN),
    ("back-from-the-limit", [SHA, MORE], PATTERN),
    ("digest-too-long", [SHA], b"\x07" * 4097),
]


def line(name, message):
    print("sha256", name, hashlib.sha256(message).hexdigest())


def apply(kind, argument, message):
    if kind == "sha256":
        return hashlib.sha256(message).digest()
    if kind == "append":
        return message + argument
    if kind == "prepend":
        return argument + message
    if kind == "reverse":
        return message[::-1]
    return message.hex().encode()


def shown(message, short):
    """The message's size, the message itself where it is short, and its digest."""
    parts = [str(len(message))]
    if len(message) <= short:
        parts.append(message.hex() or "-")
    return parts + [hashlib.sha256(message).hexdigest()]


def apply_line(kind, argument, message):
    print("apply", kind, len(argument), len(message), *shown(apply(kind, argument, message), 64))


def replay(path, digest):
    """The message that a path makes of a digest, or None where one on the way is too long."""
    message = digest
    for kind, argument in path:
        if len(message) > LIMIT:
            return None
        message = apply(kind, argument, message)
    return message if len(message) <= LIMIT else None


def area_lines(name, area):
    print("area", name, "first", hashlib.sha256(area[:LIMIT]).hexdigest())
    print("area", name, "behind", hashlib.sha256(area[LIMIT:]).hexdigest())


for name, message in PUBLISHED:
    line(name, message)
for length in range(131):
    line(f"length-{length}", PATTERN[:length])
for argument, message in SMALL:
    for kind in KINDS:
        apply_line(kind, argument, message)
for kind, argument, message in FULL:
    apply_line(kind, argument, message)
for name, path, digest in PATHS:
    message = replay(path, digest)
    print("replay", name, *(["none"] if message is None else shown(message, 128)))
BEHIND = b"\xaa" * 104
area_lines("guarded", bytes(LIMIT) + BEHIND)
area_lines("replayed", replay(PROOF, DIGEST).ljust(LIMIT, b"\0") + BEHIND)
area_lines("refused", b"\xaa" * LIMIT + BEHIND)
print("area too-short", hashlib.sha256(b"\xaa" * 4095).hexdigest())
