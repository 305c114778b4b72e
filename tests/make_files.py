#!/usr/bin/env python3
"""Writes the proof that the program is run on, and the account that is expected of it. Run from the repository's root."""
import hashlib
import rules as r

# A commissioning record, stamped by two calendars, with an operation that stands twice in one node (the second time over
# another attestation), a Bitcoin attestation whose height is padded, and a tag that is not known here.
digest = hashlib.sha256(b"rack 7: 48 dimmers, curve set A, loads checked\n").digest()
console = r.append(bytes.fromhex("0c5fe1a7d2b94e63")) + b"\x08" + r.pending(b"https://alice.btc.calendar.opentimestamps.org")
laptop = r.append(bytes.fromhex("71c2a90e")) + b"\x08" + r.node(
    r.pending(b"https://finney.calendar.eternitywall.com"),
    r.prepend(bytes.fromhex("5d3c7a11")) + b"\x08" + b"\x08" + r.attestation(r.BITCOIN, r.number(358391, 4)),
)
factory = r.append(bytes.fromhex("71c2a90e")) + b"\x08" + r.attestation(bytes.fromhex("06869a0d73d71b45"), bytes.fromhex("aabb"))
other = b"\xf2" + b"\xf3" + b"\x08" + r.bitcoin(0)
proof = r.file(r.node(console, laptop, factory, other), digest)

open("crates/tiphvanh/data/record.ots", "wb").write(proof)
open("crates/tiphvanh/stdout", "w").write("\n".join(r.account(proof, messages=True)) + "\n")
print(len(proof), "bytes")
