"""The rules of docs/FORMAT.md, written once more in Python, apart from the program: for making test files and what is
expected of them."""
import hashlib

MARK = bytes.fromhex("004f70656e54696d657374616d7073000050726f6f6600bf89e2e884e89294")
PENDING = bytes.fromhex("83dfe30d2ef90c8e")
BITCOIN = bytes.fromhex("0588960d73d71901")
KINDS = {0x08: "sha256", 0xF0: "append", 0xF1: "prepend", 0xF2: "reverse", 0xF3: "hexlify"}
ADDRESS = set(b"abcdefghijklmnopqrstuvwxyzABCDEFGHIJKLMNOPQRSTUVWXYZ0123456789-._/:")


class Refused(Exception):
    def __init__(self, number, offset):
        super().__init__(f"refused {number} at {offset}")
        self.number, self.offset = number, offset


def number(value, size=None):
    """A number; padded to size bytes where that is given."""
    out = bytearray()
    while True:
        low, value = value & 127, value >> 7
        if value or (size is not None and len(out) + 1 < size):
            out.append(low | 128)
        else:
            out.append(low)
            return bytes(out)


def block(data):
    return number(len(data)) + data


def append(data):
    return b"\xf0" + block(data)


def prepend(data):
    return b"\xf1" + block(data)


def attestation(tag, payload):
    return b"\x00" + tag + block(payload)


def pending(address):
    return attestation(PENDING, block(address))


def bitcoin(height):
    return attestation(BITCOIN, number(height))


def node(*items):
    return b"".join(b"\xff" + i for i in items[:-1]) + items[-1]


def file(body, digest=bytes(32), version=b"\x01"):
    return MARK + version + b"\x08" + digest + body


class Reader:
    def __init__(self, data, at=0, end=None):
        self.data, self.at, self.end = data, at, len(data) if end is None else end

    def byte(self):
        if self.at >= self.end:
            raise Refused(2, self.end)
        self.at += 1
        return self.data[self.at - 1]

    def bytes(self, n):
        if self.at + n > self.end:
            raise Refused(2, self.end)
        self.at += n
        return self.data[self.at - n : self.at]

    def number(self):
        first, value = self.at, 0
        for i in range(5):
            b = self.byte()
            value |= (b & 127) << (7 * i)
            if b < 128:
                if value > 0xFFFFFFFF:
                    raise Refused(7, first)
                return value
        raise Refused(7, first)

    def block(self, low, high):
        first = self.at
        n = self.number()
        if not low <= n <= high:
            raise Refused(8, first)
        return self.bytes(n)


def content(tag, payload, data, first, end):
    """What a payload says under its tag: its own numbers fault by themselves, what is missing or over is 10."""
    inner = Reader(data, first, end)
    try:
        if tag == BITCOIN:
            value = ("bitcoin", inner.number())
        elif tag == PENDING:
            value = ("pending", bytes(inner.block(0, 1000)))
            if any(b not in ADDRESS for b in value[1]):
                raise Refused(10, first)
        else:
            return ("unknown", bytes(tag), bytes(payload))
    except Refused as r:
        raise Refused(10, first) if r.number == 2 else r
    if inner.at != end:
        raise Refused(10, first)
    return value


def result_size(kind, size, n):
    return {"sha256": 32, "append": size + n, "prepend": size + n, "reverse": size, "hexlify": 2 * size}[kind]


def read(data):
    """(digest, offset of the file hash tag, items): each item is (depth, offset, kind, argument, first) or
    (depth, offset, 'attestation', content, payload, first)."""
    if len(data) > 65536:
        raise Refused(1, 65536)
    r = Reader(data)
    for m in MARK:
        at = r.at
        if r.byte() != m:
            raise Refused(3, at)
    at = r.at
    if r.number() != 1:
        raise Refused(4, at)
    tag = r.at
    if r.byte() != 0x08:
        raise Refused(5, tag)
    digest = r.bytes(32)
    items, levels, size = [], [], 32
    while True:
        more = r.at < r.end and data[r.at] == 0xFF
        if more:
            r.at += 1
        offset = r.at
        op = r.byte()
        if op == 0:
            offset = r.at
            t = r.bytes(8)
            payload = r.block(0, 8192)
            first = r.at - len(payload)
            items.append((len(levels), offset, "attestation", content(t, payload, data, first, r.at), payload, first))
            if not more:
                while levels and not levels[-1][0]:
                    levels.pop()
                if not levels:
                    break
                size = levels.pop()[1]
            continue
        if op not in KINDS:
            raise Refused(6, offset)
        if len(levels) >= 255:
            raise Refused(11, offset)
        kind = KINDS[op]
        argument = r.block(1, 4096) if kind in ("append", "prepend") else b""
        if result_size(kind, size, len(argument)) > 4096:
            raise Refused(9, offset)
        items.append((len(levels), offset, kind, argument, r.at - len(argument)))
        levels.append((more, size))
        size = result_size(kind, size, len(argument))
    if r.at != r.end:
        raise Refused(12, r.at)
    return digest, tag, items


def counts(items):
    said = [i[3][0] for i in items if i[2] == "attestation"]
    return said.count("pending"), said.count("bitcoin"), said.count("unknown")


def apply(kind, argument, message):
    if kind == "sha256":
        return hashlib.sha256(message).digest()
    if kind == "append":
        return message + argument
    if kind == "prepend":
        return argument + message
    if kind == "reverse":
        return message[::-1]
    return message.hex().encode()


def claims(items):
    """The set of claims: (path of (tag, argument), (tag, key, payload in shortest form))."""
    tags = {name: tag for tag, name in KINDS.items()}
    path, found = [], set()
    for item in items:
        del path[item[0] :]
        if item[2] == "attestation":
            said = item[3]
            if said[0] == "bitcoin":
                a = (BITCOIN, said[1], number(said[1]))
            elif said[0] == "pending":
                a = (PENDING, bytes(said[1]), block(said[1]))
            else:
                a = (said[1], said[2], said[2])
            found.add((tuple(path), a))
        else:
            path.append((tags[item[2]], bytes(item[3])))
    return found


def size(found):
    """Operations, attestations and bytes of a set of claims."""
    beginnings = {path[: k + 1] for path, _ in found for k in range(len(path))}
    return len(beginnings), len(found), sum(len(b[-1][1]) for b in beginnings) + sum(len(a[2]) for _, a in found)


def canonical_node(found):
    """The bytes of the node with these claims: attestations ascending, then operations ascending."""
    items = [attestation(a[0], a[2]) for a in sorted(a for path, a in found if not path)]
    for op in sorted({path[0] for path, _ in found if path}):
        below = {(path[1:], a) for path, a in found if path and path[0] == op}
        argument = block(op[1]) if op[0] in (0xF0, 0xF1) else b""
        items.append(bytes([op[0]]) + argument + canonical_node(below))
    return node(*items)


def canonical(digest, found):
    return file(canonical_node(found), digest)


def account(data, messages=False):
    """What `show` prints of an accepted file."""
    digest, tag, items = read(data)
    above = [digest]
    lines = [f"digest {digest.hex()} (tag at {tag})"]
    for item in items:
        lead = "  " * item[0] + f"{item[1]} "
        if item[2] == "attestation":
            said, payload, first = item[3], item[4], item[5]
            if said[0] == "pending":
                text = f"pending [{said[1].decode()}]"
            elif said[0] == "bitcoin":
                text = f"bitcoin {said[1]}"
            else:
                text = f"unknown {said[1].hex()} [{said[2].hex()}]"
            lines.append(f"{lead}{text} ({len(payload)} at {first})")
            if messages:
                message = above[item[0]]
                lines.append("  " * item[0] + f"  message {message.hex()}")
                if said[0] == "bitcoin":
                    lines.append("  " * item[0] + f"  root {message[::-1].hex()}")
            continue
        above[item[0] + 1 :] = [apply(item[2], item[3], above[item[0]])]
        if item[3]:
            lines.append(f"{lead}{item[2]} [{item[3].hex()}] ({len(item[3])} at {item[4]})")
        else:
            lines.append(f"{lead}{item[2]}")
    lines.append("claims: pending %d, bitcoin %d, unknown %d" % counts(items))
    found = claims(items)
    ops, atts, total = size(found)
    if ops <= 1024 and atts <= 128 and total <= 32768:
        lines.append(f"size: ops {ops} of 1024, atts {atts} of 128, bytes {total} of 32768")
        lines.append(f"canonical {len(canonical(digest, found))} bytes")
    else:
        lines.append("size: above a limit")
    lines.append(f"read {len(data)} bytes")
    return lines
