"""A certificate that vouches for itself, for servers of HTTPS on the loopback interface.

The standard library makes none, so this spells one (RFC 5280) and signs it by ECDSA (FIPS 186-4) on the curve P-256. It is for tests alone.
"""

from __future__ import annotations

import base64
import hashlib
import secrets
import ssl
from pathlib import Path

# The curve P-256 of FIPS 186-4, D.1.2.3: y^2 = x^3 - 3x + b over the field of PRIME, and a point G of the order ORDER.
PRIME = 2**256 - 2**224 + 2**192 + 2**96 - 1
ORDER = 0xFFFFFFFF00000000FFFFFFFFFFFFFFFFBCE6FAADA7179E84F3B9CAC2FC632551
G = (0x6B17D1F2E12C4247F8BCE6E563A440F277037D812DEB33A0F4A13945D898C296, 0x4FE342E2FE1A7F9B8EE7EB4A7C0F9E162BCE33576B315ECECBB6406837BF51F5)
Point = tuple[int, int] | None  # None is the point at infinity

INTEGER, BITS, OCTETS, OID, TEXT, TIME, SEQUENCE, SET = 2, 3, 4, 6, 12, 24, 48, 49
PUBLIC_KEY, P_256, ECDSA_SHA_256 = "2a8648ce3d0201", "2a8648ce3d030107", "2a8648ce3d040302"
COMMON_NAME, OTHER_NAMES, CONSTRAINTS = "550403", "551d11", "551d13"
YES = bytes.fromhex("0101ff")


def add(one: Point, other: Point) -> Point:
    """The sum of two points."""
    if one is None or other is None:
        return one or other
    if one[0] == other[0]:
        if (one[1] + other[1]) % PRIME == 0:
            return None
        slope = (3 * one[0] * one[0] - 3) * pow(2 * one[1], -1, PRIME)
    else:
        slope = (other[1] - one[1]) * pow(other[0] - one[0], -1, PRIME)
    x = (slope * slope - one[0] - other[0]) % PRIME
    return x, (slope * (one[0] - x) - one[1]) % PRIME


def times(count: int, point: Point) -> tuple[int, int]:
    """The point so many times, which isn't the one at infinity for counts below the order."""
    total: Point = None
    while count:
        if count & 1:
            total = add(total, point)
        point = add(point, point)
        count >>= 1
    assert total
    return total


def spell(tag: int, *parts: bytes) -> bytes:
    """A value by the rules of DER (X.690)."""
    body = b"".join(parts)
    if len(body) < 0x80:
        return bytes([tag, len(body)]) + body
    length = len(body).to_bytes((len(body).bit_length() + 7) // 8, "big")
    return bytes([tag, 0x80 | len(length)]) + length + body


def number(value: int) -> bytes:
    """An integer that isn't negative."""
    return spell(INTEGER, value.to_bytes(value.bit_length() // 8 + 1, "big"))


def named(text: str) -> bytes:
    """What a number in base 16 stands for, as a name of X.660."""
    return spell(OID, bytes.fromhex(text))


def sign(secret: int, data: bytes) -> bytes:
    """A signature of these bytes (FIPS 186-4, 6.4)."""
    once = 1 + secrets.randbelow(ORDER - 1)
    first = times(once, G)[0] % ORDER
    second = pow(once, -1, ORDER) * (int.from_bytes(hashlib.sha256(data).digest(), "big") + first * secret) % ORDER
    return spell(SEQUENCE, number(first), number(second))


def _as_text(kind: str, data: bytes) -> str:
    """As files have it (RFC 7468)."""
    return f"-----BEGIN {kind}-----\n{base64.encodebytes(data).decode()}-----END {kind}-----\n"


def make() -> tuple[str, str]:
    """A certificate for 127.0.0.1, which is its own authority, and its key."""
    secret = 1 + secrets.randbelow(ORDER - 1)
    x, y = times(secret, G)
    point = spell(BITS, b"\0\4" + x.to_bytes(32, "big") + y.to_bytes(32, "big"))
    algorithm, name = spell(SEQUENCE, named(ECDSA_SHA_256)), spell(SEQUENCE, spell(SET, spell(SEQUENCE, named(COMMON_NAME), spell(TEXT, b"test"))))
    address = spell(SEQUENCE, spell(0x87, bytes([127, 0, 0, 1])))
    extensions = spell(
        SEQUENCE, spell(SEQUENCE, named(OTHER_NAMES), spell(OCTETS, address)),
        spell(SEQUENCE, named(CONSTRAINTS), YES, spell(OCTETS, spell(SEQUENCE, YES))),
    )  # fmt: skip
    body = spell(
        SEQUENCE, spell(0xA0, number(2)), number(1 + secrets.randbits(64)), algorithm, name,
        spell(SEQUENCE, spell(TIME, b"20200101000000Z"), spell(TIME, b"21200101000000Z")), name,
        spell(SEQUENCE, spell(SEQUENCE, named(PUBLIC_KEY), named(P_256)), point), spell(0xA3, extensions),
    )  # fmt: skip
    certificate = spell(SEQUENCE, body, algorithm, spell(BITS, b"\0", sign(secret, body)))
    key = spell(SEQUENCE, number(1), spell(OCTETS, secret.to_bytes(32, "big")), spell(0xA0, named(P_256)), spell(0xA1, point))
    return _as_text("CERTIFICATE", certificate), _as_text("EC PRIVATE KEY", key)


def secured(folder: Path) -> tuple[ssl.SSLContext, Path]:
    """What a server needs, and the file by which others trust it."""
    certificate, key = make()
    path, with_key = folder / "certificate.pem", folder / "key.pem"
    path.write_text(certificate, encoding="ascii")
    with_key.write_text(key + certificate, encoding="ascii")
    context = ssl.SSLContext(ssl.PROTOCOL_TLS_SERVER)
    context.load_cert_chain(with_key)
    return context, path
