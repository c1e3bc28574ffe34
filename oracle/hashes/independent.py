#!/usr/bin/env python3
"""Goes over the oracle's hash lines with Python's hashlib and hmac, and over the published vectors.

Reads lines of `oracle vectors`; prints how many agree, and fails on the first that does not.
"""

import hashlib
import hmac
import sys

DIGEST = 48


def sha384(message):
    return hashlib.sha384(message).digest()


def mac(key, message):
    return hmac.new(key, message, hashlib.sha384).digest()


def hkdf(ikm, salt, info, length):
    prk = mac(salt or bytes(DIGEST), ikm)
    output, block = b"", b""
    for counter in range(1, -(-length // DIGEST) + 1):
        block = mac(prk, block + info + bytes([counter]))
        output += block
    return output[:length]


def labelled(label):
    whole = b"cairn-r1 " + label
    return len(whole).to_bytes(2, "big") + whole


def leb128(value):
    output = bytearray()
    while True:
        low, value = value & 0x7F, value >> 7
        output.append(low | (0x80 if value else 0))
        if not value:
            return bytes(output)


def unhex(text):
    return b"" if text == "-" else bytes.fromhex(text)


def expected(kind, fields):
    if kind == "sha384":
        return sha384(unhex(fields[0]))
    if kind == "hmac":
        return mac(unhex(fields[0]), unhex(fields[1]))
    if kind == "hkdf":
        return hkdf(unhex(fields[0]), unhex(fields[1]), unhex(fields[2]), int(fields[3]))
    if kind == "route":
        message = labelled(b"route") + fields[1].encode() + bytes([int(fields[2])]) + leb128(int(fields[3]))
        return mac(unhex(fields[0]), message)[:16]
    if kind == "commitment":
        return sha384(labelled(b"delivered") + unhex(fields[0]))[:16]
    if kind == "delivered":
        return hkdf(unhex(fields[0]), b"", labelled(b"delivered"), 16)
    raise SystemExit(f"independent: a line of another kind: {kind}")


def published():
    """FIPS 180-4's examples and RFC 4231's second test, so that this side is known to be right as well."""
    abc = "cb00753f45a35e8bb5a03d699ac65007272c32ab0eded1631a8b605a43ff5bed8086072ba1e7cc2358baeca134c825a7"
    two = "09330c33f71147e83d192fc782cd1b4753111b173b3b05d22fa08086e3b0f712fcc7c71a557e2db966c3e9fa91746039"
    message = b"abcdefghbcdefghicdefghijdefghijkefghijklfghijklmghijklmnhijklmnoijklmnopjklmnopqklmnopqrlmnopqrsmnopqrstnopqrstu"
    jefe = "af45d2e376484031617f78d2b58a6b1b9c7ef464f5a01b47e42ec3736322445e8e2240ca5e69e2c78b3239ecfab21649"
    assert sha384(b"abc").hex() == abc
    assert sha384(message).hex() == two
    assert mac(b"Jefe", b"what do ya want for nothing?").hex() == jefe


def main():
    published()
    counts = {}
    for number, line in enumerate(sys.stdin, 1):
        kind, *fields = line.split()
        if expected(kind, fields) != unhex(fields[-1]):
            raise SystemExit(f"independent: line {number} differs: {line[:200]}")
        counts[kind] = counts.get(kind, 0) + 1
    if set(counts) != {"sha384", "hmac", "hkdf", "route", "commitment", "delivered"}:
        raise SystemExit("independent: a kind of line is missing")
    shown = ", ".join(f"{kind} {count}" for kind, count in counts.items())
    print(f"ok: hashes agree with an independent implementation: {shown}")


main()
