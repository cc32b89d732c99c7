#!/usr/bin/env python3
"""make.py: writes the sample messages beside it, the same each time."""
import os
import struct

HERE = os.path.dirname(os.path.abspath(__file__))
# The rooms are numbered 1 to 40; room n is record n - 1.
ROOMS = range(1, 41)
# The rooms whose alert mark is set.
ALERTS = (4, 18, 19, 32)


def key(name):
    return b"U" + bytes([len(name)]) + name


def schema(*fields):
    return b"{" + b"".join(key(name) + kind for name, kind in fields) + b"}"


def temperature(room):
    """A quarter of a degree is a power of two, so that each is a single exactly; room 18 has a tenth, which is none."""
    return struct.pack("<f", 28.1 if room == 18 else 20.25 + 0.25 * ((room - 1) % 9))


def alert(room):
    return b"T" if room in ALERTS else b"F"


# The first time, in seconds since 1970: 16 November 2026, 00:00.
START = 1_794_787_200


def time(room):
    return struct.pack("<I", START + 60 * (room - 1))


FIELDS = schema((b"temperature", b"d"), (b"alert", b"T"), (b"time", b"m"))
COLUMNS = (temperature, alert, time)
PLACES = schema((b"name", b"SU\x06"), (b"at", schema((b"x", b"h"), (b"y", b"h"))), (b"beds", b"[UUC]"), (b"free", b"Z"))


def floor_rows():
    return b"[$" + FIELDS + b"#U" + bytes([len(ROOMS)]) + b"".join(column(room) for room in ROOMS for column in COLUMNS)


def floor_columns():
    return b"{$" + FIELDS + b"#U" + bytes([len(ROOMS)]) + b"".join(column(room) for column in COLUMNS for room in ROOMS)


def place(name, x, y, beds):
    return name, struct.pack("<ee", x, y), bytes(beds) + b"W"


PLACED = [place("Küche".encode(), 1.5, -2.25, (0, 1)), place(b"Flur 2", 65504.0, 0.0, (2, 3)), place(b'"A"\\\n\x00', float("-inf"), float("nan"), (4, 5))]


def report():
    """One of everything: an object of scalars, texts, packed arrays of both orders and tables, with no-ops between."""
    grid = b"[$U#[[U\x02U\x03]]" + bytes(range(1, 7))
    rows = b"[$" + PLACES + b"#[U\x01U\x03]" + b"".join(name + at + beds for name, at, beds in PLACED)
    columns = b"{$" + PLACES + b"#U\x03" + b"".join(name for name, _, _ in PLACED) + b"".join(at for _, at, _ in PLACED) + b"".join(beds for _, _, beds in PLACED)
    scalars = b"[ZTFi\x80U\xffI\x00\x80u\xff\xffl\x00\x00\x00\x80m\xff\xff\xff\xffN" + b"L" + struct.pack("<q", -(2**63)) + b"M" + struct.pack("<Q", 2**64 - 1)
    floats = b"h\x01\x00h\x00~d" + struct.pack("<f", -0.1) + b"D" + struct.pack("<d", 21.6) + b"D" + struct.pack("<d", 1e300) + b"D" + struct.pack("<d", -0.0) + b"C'B\xab]"
    texts = b"[#U\x03" + b"SU\x07ward\n\t\x1b" + b"HU\x07-1.5e10" + b"Su" + struct.pack("<H", 300) + b"long " * 60
    typed = b"{$u#U\x02" + key(b"a") + b"\x01\x00" + key(b"b") + b"\x02\x01"
    members = [
        (b"scalars", scalars + floats), (b"texts", texts), (b"typed", typed), (b"grid", grid),
        (b"shape", b"[$I#[$U#U\x02\x02\x02" + struct.pack("<4h", 1, -2, 3, -4)), (b"rows", rows), (b"columns", columns), (b"", b"[]"), (b"none", b"{}"),
    ]
    return b"N{" + b"".join(key(name) + b"N" + value for name, value in members) + b"N}N"


WIDTHS = {b"U": 1, b"u": 2, b"m": 4, b"L": 8}


def integer(mark, n):
    return mark + n.to_bytes(WIDTHS[mark], "little")


def extension(number, payload, id_mark=b"U", length_mark=b"U"):
    return b"E" + integer(id_mark, number) + integer(length_mark, len(payload)) + payload


def microseconds(n):
    return struct.pack("<q", n)


UUID = bytes.fromhex("6f1c2b0a9d3e4c5781b24e6a7f9018cd")
# A payload for each id that has a name, from 1 on.
NAMED = [
    struct.pack("<I", START), microseconds(START * 1_000_000), struct.pack("<qI", START, 250_000_000), struct.pack("<hBB", 2026, 11, 16),
    bytes([6, 30, 15, 0]), microseconds(START * 1_000_000 + 250_000), microseconds(-90_000_000), struct.pack("<ff", 1.5, -2.25), struct.pack("<dd", 0.5, 2.0), UUID,
]


def extensions():
    """From a controller of the new series: extensions of all ids that have a name and of opaque ones, in arrays and objects, beside a table."""
    named = b"[#U" + bytes([len(NAMED)]) + b"".join(extension(number, payload) for number, payload in enumerate(NAMED, 1))
    opaque = b"[" + extension(0, b"") + extension(255, b"\x07") + b"N" + extension(256, b"ward 3", b"u") + extension(4_294_967_295, b"E", b"m") + b"NN]"
    wide = b"[" + extension(5, NAMED[4], b"L") + extension(4096, bytes(range(40)), b"u", b"m") + b"]"
    beds = b"[$" + schema((b"bed", b"U"), (b"alert", b"T")) + b"#U\x02\x01F\x02T"
    reading = b"{" + key(b"at") + extension(1, time(4)) + key(b"temperature") + b"d" + temperature(4) + b"}"
    members = [
        (b"controller", extension(10, UUID)), (b"sent", extension(2, NAMED[1])), (b"named", named), (b"opaque", opaque), (b"wide", wide),
        (b"beds", beds), (b"readings", b"[" + reading + b"]"),
    ]
    return b"{" + b"".join(key(name) + value for name, value in members) + b"}"


# For each number that reading answers, a message that is refused with it. 1 and 8 need large ones, which `check` makes. 3 and 4 have
# a second message, for the mark of an extension that begins no value, and for a size that is not its id's.
REFUSED = {
    2: b"[$U#U\x05\x01\x02",
    3: b"[$d]",
    4: b"{U\x04nameSU\x03a\xffb}",
    5: b"[$U#m\x01\x00\x10\x00",
    6: b"[$U#[U\x01U\x01U\x01U\x01U\x01U\x01U\x01U\x01U\x01]\x07",
    7: b"[" * 33,
    9: b"{U\x01aU\x05}NU\x06",
    13: b"[${U\x01aHU\x01}#U\x00",
    "3-extension": b"[$E#U\x01" + extension(1, NAMED[0])[1:],
    "4-extension": b"{" + key(b"sent") + extension(2, NAMED[0]) + b"}",
}


def stored():
    yield "floor-rows", floor_rows()
    yield "floor-columns", floor_columns()
    yield "report", report()
    yield "extensions", extensions()
    for number, message in REFUSED.items():
        yield f"refused-{number}", message


if __name__ == "__main__":
    for name, message in stored():
        with open(os.path.join(HERE, name + ".bjd"), "wb") as file:
            file.write(message)
