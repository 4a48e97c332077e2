#!/usr/bin/python3
"""Makes the list that the program `exchange` replays, with Google's Protobuf as the judge.

    make.py [SEED [COUNT]] > crates/exchange/stdin        (the committed list: seed 1, count 600)

Needs Debian's python3-protobuf and protobuf-compiler (3.21.12). A line is a record's name, its
bytes in hex (`-` for none), and the answer: `ok`, or `23 C PLACE`.

The answer comes from Google's Protobuf alone. Bytes are a record's encoding exactly when Google's
reader takes them, finds no unknown field and nothing outside our limits, and Google's writer
writes the same bytes again. The place of a refusal is the length of the longest front of the
bytes that is an encoding, tried front by front.
"""

import importlib
import os
import random
import subprocess
import sys
import tempfile

from google.protobuf.message import DecodeError

HERE = os.path.dirname(os.path.abspath(__file__))
NAMES = ["KeyData", "KeyTemplate", "Key", "Keyset", "KeyInfo", "KeysetInfo", "EncryptedKeyset"]
INT32 = [0, 1, 2, 3, 4, 5, 127, 128, 2**31 - 1, -1, -2, -2**31]
UINT32 = [0, 1, 7, 127, 128, 16383, 16384, 2**31 - 1, 2**31, 2**32 - 1]


def url_fits(u):
    return len(u) <= 64 and all(0x21 <= ord(c) <= 0x7E for c in u)


def fits(name, m):
    """Inside the limits of our records?"""
    if name in ("KeyData", "KeyTemplate"):
        return url_fits(m.type_url) and len(m.value) <= 128
    if name == "Key":
        return not m.HasField("key_data") or fits("KeyData", m.key_data)
    if name == "Keyset":
        return len(m.key) <= 16 and all(fits("Key", k) for k in m.key)
    if name == "KeyInfo":
        return url_fits(m.type_url)
    if name == "KeysetInfo":
        return len(m.key_info) <= 16 and all(fits("KeyInfo", k) for k in m.key_info)
    return len(m.encrypted_keyset) <= 4160 and (
        not m.HasField("keyset_info") or fits("KeysetInfo", m.keyset_info))


# The rows of docs/encoding.md's tables, and each limit and rule at its edge.
FIXED = {
    "KeyData": ["0a0161120200011801", "0a00", "1200", "1800", "0a0120", "0a0121", "0a017e", "0a017f", "0a40" + 64 * "61",
                "0a41" + 65 * "61", "128001" + 128 * "00", "128101" + 129 * "00", "120101" + "0a0161"],
    "KeyTemplate": ["0a40" + 64 * "61", "0a41" + 65 * "61", "0a0120", "0a017f", "128001" + 128 * "00", "128101" + 129 * "00"],
    "Key": ["0a00", "0a000a00", "0a020a00", "1009", "10ffffffffffffffffff01", "1080808080f8ffffffff01", "10ffffffff07",
            "108080808008", "10ffffffff0f", "10fffffff7ffffffffff01", "18ffffffff0f", "188080808010"],
    "Keyset": ["089601", "1200", "0800", "08070807", "08070808", "12000807", "088700", "880007", "088080808010",
               "08ffffffffffffffffff02", "0880808080808080808080808001", "08", "0807120218", "080712021800", "12ffffffffffffffffff01",
               "1200120412020a01", "12000a00", "08071a00", "1a00", "0a00", "1001", "0007", "0200", "0d00000000",
               "090000000000000000", "0b0c", "0e", "0f", 16 * "1200", 17 * "1200"],
    "KeyInfo": ["0a40" + 64 * "61", "0a41" + 65 * "61", "0a0120", "0a017f", "0a00"],
    "KeysetInfo": [16 * "1200", 17 * "1200"],
    "EncryptedKeyset": ["1a00", "1a001a00", "1200", "0801", "12c020" + 4160 * "00", "12c120" + 4161 * "00"],
}


def encoding(pb, name, data):
    """Are these bytes the encoding of a record within the limits?"""
    m = getattr(pb, name)()
    try:
        m.ParseFromString(data)
    except DecodeError:
        return False
    m.DiscardUnknownFields()
    return fits(name, m) and m.SerializeToString() == data


def answer(pb, name, data):
    if encoding(pb, name, data):
        return "ok"
    return f"23 C {next(n for n in range(len(data), -1, -1) if encoding(pb, name, data[:n]))}"


def some_url(rng):
    n = rng.choice([0, 1, 16, 63, 64, 65]) if rng.random() < 0.1 else rng.choice([0, 1, 16, 64])
    low = 0x20 if rng.random() < 0.05 else 0x21
    return "".join(chr(rng.randint(low, 0x7E)) for _ in range(n))


def some_bytes(rng, sizes):
    return bytes(rng.getrandbits(8) for _ in range(rng.choice(sizes)))


def number(rng, values):
    return rng.choice(values) if rng.random() < 0.7 else rng.choice([0, rng.choice(values)])


def some(pb, rng, name):
    """A record, most often within the limits."""
    m = getattr(pb, name)()
    if name in ("KeyData", "KeyTemplate"):
        m.type_url = some_url(rng)
        m.value = some_bytes(rng, [0, 1, 16, 127, 128] + ([129] if rng.random() < 0.1 else []))
        if name == "KeyData":
            m.key_material_type = number(rng, INT32)
        else:
            m.output_prefix_type = number(rng, INT32)
    elif name in ("Key", "KeyInfo"):
        if name == "KeyInfo":
            m.type_url = some_url(rng)
        elif rng.random() < 0.8:
            m.key_data.CopyFrom(some(pb, rng, "KeyData"))
        m.status = number(rng, INT32)
        m.key_id = number(rng, UINT32)
        m.output_prefix_type = number(rng, INT32)
    elif name in ("Keyset", "KeysetInfo"):
        m.primary_key_id = number(rng, UINT32)
        many, inner = (m.key, "Key") if name == "Keyset" else (m.key_info, "KeyInfo")
        for _ in range(rng.choice([0, 1, 1, 2, 3] + ([16, 17] if rng.random() < 0.05 else []))):
            many.add().CopyFrom(some(pb, rng, inner))
    else:
        m.encrypted_keyset = some_bytes(rng, [0, 1, 20, 128])
        if rng.random() < 0.7:
            m.keyset_info.CopyFrom(some(pb, rng, "KeysetInfo"))
    return m


def largest(pb, name, past=0):
    """The record with the most bytes; with `past` one item or byte more than the limit."""
    m = getattr(pb, name)()
    if name in ("KeyData", "KeyTemplate", "KeyInfo"):
        m.type_url = "~" * (64 + past if name == "KeyInfo" else 64)
    if name in ("KeyData", "KeyTemplate"):
        m.value = b"\xff" * (128 + past)
    if name == "KeyData":
        m.key_material_type = -1
    if name in ("KeyTemplate", "Key", "KeyInfo"):
        m.output_prefix_type = -1
    if name == "Key":
        m.key_data.CopyFrom(largest(pb, "KeyData", past))
    if name in ("Key", "KeyInfo"):
        m.status = -1
        m.key_id = 2**32 - 1
    if name in ("Keyset", "KeysetInfo"):
        m.primary_key_id = 2**32 - 1
        many, inner = (m.key, "Key") if name == "Keyset" else (m.key_info, "KeyInfo")
        for _ in range(16 + past):
            many.add().CopyFrom(largest(pb, inner))
    if name == "EncryptedKeyset":
        m.encrypted_keyset = b"\xff" * (4160 + past)
        m.keyset_info.CopyFrom(largest(pb, "KeysetInfo"))
    return m


def varint(v, longer=0):
    out = []
    while v >= 128:
        out.append(v % 128 + 128)
        v //= 128
    out.append(v)
    if longer:
        out[-1] += 128
        out += [128] * (longer - 1) + [0]
    return bytes(out)


def fields(data):
    """The fields of well-formed bytes, each whole."""
    out, at = [], 0

    def number_at(at):
        v, shift = 0, 0
        while True:
            b = data[at]
            v += (b & 127) << shift
            at, shift = at + 1, shift + 7
            if b < 128:
                return v, at

    while at < len(data):
        start = at
        key, at = number_at(at)
        value, at = number_at(at)
        if key % 8 == 2:
            at += value
        out.append(data[start:at])
    return out


def other_form(rng, data):
    """Bytes that mean the same or nearly so, in a form that is not the encoding's."""
    parts = fields(data)
    what = rng.randrange(7)
    if what == 0 and len(parts) > 1:
        rng.shuffle(parts)
    elif what == 1 and parts:
        parts.append(rng.choice(parts))
    elif what == 2:
        extra = rng.choice([varint(8 * rng.choice([0, 5, 9, 16, 1000])) + varint(rng.choice([0, 1, 300])),
                            varint(8 * 7 + 2) + b"\x01a", varint(8 * 6 + 1) + bytes(8), varint(8 * 6 + 5) + bytes(4)])
        parts.insert(rng.randint(0, len(parts)), extra)
    elif what == 3:
        parts.insert(rng.randint(0, len(parts)), varint(8 * rng.randint(1, 4)) + b"\x00")
    elif what == 4:
        parts.insert(rng.randint(0, len(parts)), varint(8 * rng.randint(1, 4) + 2) + b"\x00")
    elif what == 5 and parts:
        i = rng.randrange(len(parts))
        p = parts[i]
        if p[0] % 8 == 0:
            v = sum((b & 127) << (7 * j) for j, b in enumerate(p[1:]))
            parts[i] = p[:1] + (varint(v, 1) if len(p) < 11 else p[1:])
        else:
            parts[i] = varint(p[0], 1) + p[1:]
    elif what == 6 and parts:
        i = rng.randrange(len(parts))
        parts[i] = parts[i][:1] + varint(rng.choice([2**32, 2**32 + 7, 2**31, 2**63, 2**64 - 2**31 - 1])) if parts[i][0] % 8 == 0 else parts[i]
    return b"".join(parts)


def damaged(rng, data):
    b = bytearray(data)
    for _ in range(rng.randint(1, 2)):
        at = rng.randrange(len(b) + 1)
        what = rng.randrange(4)
        if what == 0:
            del b[at:at + rng.randint(1, 3)]
        elif what == 1:
            b[at:at] = bytes([rng.getrandbits(8)])
        elif what == 2 and at < len(b):
            b[at] = rng.getrandbits(8)
        elif what == 3:
            del b[at:]
    return bytes(b)


def cases(pb, seed, count):
    yield "Keyset", bytes.fromhex("08071206100318072001")
    for name in NAMES:
        yield name, b""
        yield name, largest(pb, name).SerializeToString()
        yield name, largest(pb, name, 1).SerializeToString()
    for name, inputs in FIXED.items():
        for data in inputs:
            yield name, bytes.fromhex(data)
    for i in range(count):
        rng = random.Random(f"{seed}/{i}")
        name = NAMES[i % 7]
        data = some(pb, rng, name).SerializeToString()
        kind = i // 7 % 3
        if kind == 1:
            data = other_form(rng, data)
        elif kind == 2:
            data = damaged(rng, data)
        yield name, data


def main():
    seed = sys.argv[1] if len(sys.argv) > 1 else "1"
    count = int(sys.argv[2]) if len(sys.argv) > 2 else 600
    with tempfile.TemporaryDirectory() as tmp:
        subprocess.run(["protoc", f"-I{HERE}", f"--python_out={tmp}", "records.proto"], check=True)
        sys.path.insert(0, tmp)
        pb = importlib.import_module("records_pb2")
        sys.dont_write_bytecode = True
        null = os.open(os.devnull, os.O_WRONLY)
        os.dup2(null, 2)  # Google's reader complains of damaged bytes
        for name, data in cases(pb, seed, count):
            print(name, data.hex() or "-", answer(pb, name, data))


if __name__ == "__main__":
    main()
