#!/usr/bin/env python3
"""Writes the table of files that the program `table` reads, and what is expected of each: every fault at its edge, one
below, at and one above each limit, and a small file cut at every offset. Run from the repository's root."""
import struct
import rules as r

T, U = b"\x01" * 8, b"\x02" * 8
LEAF = r.attestation(T, b"")
cases = []


def case(name, data):
    cases.append((name, data))


def body(name, *parts):
    case(name, r.file(b"".join(parts)))


# the smallest file, and what may follow it
body("leaf", LEAF)
body("leaf-and-a-byte", LEAF, b"\x00")
body("two-leaves", r.node(LEAF, r.attestation(U, b"")))
case("nothing", b"")

# a small file with some of everything, cut at every offset
small = r.file(r.node(r.append(b"\xaa") + r.pending(b"a.b"), b"\x08" + r.bitcoin(300), LEAF), version=b"\x81\x00")
case("small", small)
for k in range(len(small)):
    case(f"small-cut-{k}", small[:k])
case("small-and-a-byte", small + b"\xff")

# the file's length


def sized(n):
    """A file of exactly n bytes: leaves with payloads, the last as long as needed."""
    items, left = [], n - len(r.file(b""))
    while left > 6000:
        items.append(r.attestation(T, bytes(4000)))
        left -= len(items[-1]) + 1
    items.append(r.attestation(T, bytes(left - 11)))
    return r.file(r.node(*items))


for n in (65535, 65536, 65537):
    case(f"length-{n}", sized(n))
case("length-65537-wrong-mark", b"\x01" + sized(65537)[1:])

# the mark, each byte of it
for k in (0, 1, 15, 16, 29, 30):
    wrong = bytearray(r.file(LEAF))
    wrong[k] ^= 1
    case(f"mark-{k}", bytes(wrong))
    case(f"mark-{k}-cut", bytes(wrong[: k + 1]))
    case(f"mark-{k}-short", r.file(LEAF)[:k])

# the version and its number
for name, v in (
    ("0", b"\x00"), ("2", b"\x02"), ("1-padded-2", b"\x81\x00"), ("1-padded-5", b"\x81\x80\x80\x80\x00"),
    ("1-padded-6", b"\x81\x80\x80\x80\x80\x00"), ("fifth-continues", b"\x81\x80\x80\x80\x80"),
    ("largest", b"\xff\xff\xff\xff\x0f"), ("too-large", b"\x80\x80\x80\x80\x10"), ("129", b"\x81\x01"),
):
    case(f"version-{name}", r.file(LEAF, version=v))
case("version-four-continue-and-end", r.MARK + b"\x81\x80\x80\x80")
case("version-five-continue-and-end", r.MARK + b"\x81\x80\x80\x80\x80")

# the file hash tag
for tag in (0x00, 0x02, 0x03, 0x07, 0x09, 0x67, 0xF0, 0xFF):
    case(f"file-hash-{tag:02x}", r.MARK + b"\x01" + bytes([tag]) + bytes(32) + LEAF)
case("file-hash-padded-version", r.MARK + b"\x81\x80\x00" + b"\x07" + bytes(32) + LEAF)

# operation tags: all 256
for tag in range(256):
    body(f"tag-{tag:02x}", bytes([tag]), b"\x01\xaa", LEAF)
body("ff-ff", b"\xff\xff")
body("ff-end", b"\xff")
body("ff-leaf", b"\xff", LEAF)

# arguments
for kind, name in ((b"\xf0", "append"), (b"\xf1", "prepend")):
    for n in (0, 1, 2, 127, 128, 4063, 4064, 4065, 4095, 4096, 4097):
        body(f"{name}-{n}", kind, r.number(n), bytes(n), LEAF)
    body(f"{name}-1-padded", kind, r.number(1, 5), b"\xaa", LEAF)
    body(f"{name}-1-padded-6", kind, r.number(1, 6), b"\xaa", LEAF)
    body(f"{name}-too-large", kind, b"\x80\x80\x80\x80\x10", LEAF)
    body(f"{name}-4096-over-one-byte", b"\x08", kind, r.number(4064), bytes(4064), LEAF)
    body(f"{name}-short", kind, r.number(12), bytes(3))
body("f0-00", b"\xf0\x00")
body("append-after-4064", r.append(bytes(4064)), r.append(b"\x00"), LEAF)
body("append-after-4063", r.append(bytes(4063)), r.append(b"\x00"), LEAF)
body("append-too-long-and-cut", b"\xf0", r.number(4065), bytes(4064))
body("append-too-long-then-nothing", b"\xf0", r.number(4065), bytes(4065))

# hexlify doubles: 32 bytes reach 4,096 after seven, and an eighth is too long
for k in (6, 7, 8):
    body(f"hexlify-{k}", b"\xf3" * k, LEAF)
body("hexlify-after-2048", r.append(bytes(2016)), b"\xf3", LEAF)
body("hexlify-after-2049", r.append(bytes(2017)), b"\xf3", LEAF)
body("sha256-shrinks", b"\xf3" * 7, b"\x08", b"\xf3" * 7, LEAF)

# paths: the 255th operation is the last
for k in (254, 255, 256, 257):
    body(f"path-{k}", b"\x08" * k, LEAF)
body("path-256-unknown-tag", b"\x08" * 255, b"\x09", LEAF)
body("path-256-empty-argument", b"\x08" * 255, b"\xf0\x00", LEAF)
body("path-255-twice", r.node(b"\x08" * 255 + LEAF, b"\xf2" * 255 + LEAF))
body("path-deep-siblings", b"\x08" * 254, r.node(b"\xf2" + LEAF, b"\xf2" + LEAF, LEAF))

# payload lengths
for n in (0, 1, 127, 128, 8191, 8192, 8193):
    body(f"payload-{n}", b"\x00", T, r.number(n), bytes(n))
body("payload-padded", b"\x00", T, r.number(2, 3), b"\xaa\xbb")
body("payload-padded-6", b"\x00", T, r.number(2, 6), b"\xaa\xbb")
body("payload-cut", b"\x00", T, r.number(5), b"\xaa\xbb")
body("payload-no-length", b"\x00", T)
body("payload-tag-cut", b"\x00", T[:5])

# Bitcoin
for name, p in (
    ("0", r.number(0)), ("0-padded", b"\x80\x00"), ("largest", b"\xff\xff\xff\xff\x0f"), ("too-large", b"\xff\xff\xff\xff\x10"),
    ("fifth-continues", b"\x80\x80\x80\x80\x80"), ("empty", b""), ("cut", b"\x80"), ("cut-4", b"\x80\x80\x80\x80"), ("over", b"\x01\x00"),
    ("six", b"\x80\x80\x80\x80\x80\x00"),
):
    body(f"bitcoin-{name}", r.attestation(r.BITCOIN, p))
body("bitcoin-payload-too-long", b"\x00", r.BITCOIN, r.number(8193), bytes(8193))
body("bitcoin-payload-cut-in-file", b"\x00", r.BITCOIN, r.number(2), b"\x80")
body("bitcoin-empty-at-the-end", b"\x00", r.BITCOIN, b"\x00")
body("bitcoin-padded-length", b"\x00", r.BITCOIN, r.number(1, 3), b"\x05")

# Pending
for n in (0, 1, 999, 1000, 1001):
    body(f"address-{n}", r.attestation(r.PENDING, r.number(n) + b"a" * n))
body("address-1001-missing", r.attestation(r.PENDING, r.number(1001) + b"a"))
body("address-short", r.attestation(r.PENDING, r.number(5) + b"abcd"))
body("address-over", r.attestation(r.PENDING, r.number(3) + b"abcd"))
body("address-padded-length", r.attestation(r.PENDING, r.number(3, 4) + b"abc"))
body("address-empty-payload", r.attestation(r.PENDING, b""))
body("address-length-cut", r.attestation(r.PENDING, b"\x83"))
body("address-length-too-large", r.attestation(r.PENDING, b"\xff\xff\xff\xff\x7f"))
body("address-bad-and-over", r.attestation(r.PENDING, r.number(1) + b"!!"))
for b in range(256):
    body(f"address-byte-{b:02x}", r.attestation(r.PENDING, r.number(3) + b"a" + bytes([b]) + b"z"))

# what follows
body("follows-leaf", LEAF, LEAF)
body("follows-branch", b"\x08", LEAF, b"\x08", LEAF)

with open("crates/table/data/cases.bin", "wb") as out, open("crates/table/stdout", "w") as said:
    for name, data in cases:
        out.write(struct.pack("<BI", len(name), len(data)) + name.encode() + data)
        try:
            said.write("%s: accepted pending %d bitcoin %d unknown %d\n" % ((name,) + r.counts(r.read(data)[2])))
        except r.Refused as e:
            said.write(f"{name}: {e}\n")
print(len(cases), "files")
