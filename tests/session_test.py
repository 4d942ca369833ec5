#!/usr/bin/env python3
"""Feeds the built session program inputs and compares whole outputs with tests/reference.py, which was written from documents 01 and 02 alone.

usage: session_test.py [--seed N] [--random N] COMMAND..     (COMMAND runs the program on standard input)
Its last line is 'N passed, M failed'; a failure leaves its input in a file that it names.
"""
import argparse
import math
import random
import struct
import subprocess
import sys
import tempfile

from reference import transcript

A = [(10, 0), (10, 1), (20, 0xFF), (30, 2**64 - 1), (40, 0x0101010101010101)]


def record(kind, body, length=None):
    return struct.pack("<HH", len(body) if length is None else length, kind) + body


def head(w=1, s=8):
    return record(1, bytes([w, s]))


def tables(w, m):
    return record(7, bytes([w, m]))


def code(value, w=1):
    return value.to_bytes(8 * w, "little")


def entry(star, value, w=1):
    return record(2, struct.pack("<I", star) + code(value, w))


def nearest(k, value, w=1):
    return record(3, struct.pack("<H", k) + code(value, w))


def within(r, value, w=1):
    return record(4, struct.pack("<H", r) + code(value, w))


def verdict(t, g, value, w=1):
    return record(5, struct.pack("<HH", t, g) + code(value, w))


def sky(unit, stars):
    return record(6, bytes([unit]) + b"".join(struct.pack("<dd", *star) for star in stars))


def float_of(bits):
    return struct.unpack("<d", struct.pack("<Q", bits))[0]


CATALOGUE = head() + b"".join(entry(*e) for e in A)
EXAMPLE = CATALOGUE + nearest(2, 3) + verdict(4, 3, 3) + within(1, 3)


def bad_records():
    """Every kind of record that breaks the rules, before and after a question."""
    wrong = {
        "kind 0": record(0, b""),
        "kind 8": record(8, bytes([1, 8])),
        "kind 65535": record(65535, b""),
        "second head": head(),
        "entry too short": record(2, b"\0" * 11),
        "entry too long": record(2, b"\0" * 13),
        "nearest too short": record(3, b"\0" * 9),
        "nearest too long": record(3, b"\0" * 11),
        "within too short": record(4, b"\0" * 9),
        "verdict too long": record(5, b"\0" * 13),
        "sky without unit": record(6, b""),
        "sky unit 0": sky(0, []),
        "sky unit 3": sky(3, [(0.0, 0.0)]),
        "sky half a star": record(6, bytes([1]) + b"\0" * 8),
        "body of 8,194": record(6, b"\1" + b"\0" * 8193),
        "length 65535": record(6, b"\1" + b"\0" * 100, length=65535),
        "cut in the front": b"\x0a\0\3",
        "cut in the body": nearest(2, 3)[:-1],
    }
    for name, bad in wrong.items():
        yield f"bad first: {name}", bad
        yield f"bad after entries: {name}", CATALOGUE + bad + nearest(1, 3)
        yield f"bad after a question: {name}", EXAMPLE + bad + nearest(1, 3)
    for name, first in {"w 0": head(0), "w 3": head(3), "w 4": head(4), "s 4": head(1, 4), "s 16": head(1, 16), "head of 1": record(1, b"\1"), "head of 3": record(1, b"\1\x08\0")}.items():
        yield f"head: {name}", first
    yield "entry first", entry(1, 2)
    yield "question first", nearest(1, 3)
    yield "entry after a question", CATALOGUE + nearest(1, 3) + entry(5, 6)


def limits():
    yield "empty", b""
    yield "a lone head", head()
    yield "entries only", CATALOGUE
    yield "the example", EXAMPLE
    for cut in range(1, len(EXAMPLE)):
        yield f"the example cut at {cut}", EXAMPLE[:cut]
    many = [entry(i, (i * 0x9E3779B97F4A7C15) % 2**64) for i in range(513)]
    for n in (511, 512, 513):
        yield f"{n} entries", head() + b"".join(many[:n]) + nearest(3, 5) + within(30, 5)
    yield "all 512 listed", head() + b"".join(many[:512]) + nearest(65535, 0) + within(64, 0) + nearest(512, 1)
    full = head() + entry(7, 9) + nearest(1, 9) * 65533
    yield "65,535 records", full
    yield "65,536 records", full + nearest(1, 9)
    yield "65,535 records and two bytes", full + b"\0\0"
    for w in (1, 2):
        q = 64 * w
        few = head(w) + b"".join(entry(s, c * (1 if w == 1 else 2**64 + 1), w) for s, c in A)
        for limit in (0, 1, q - 1, q, q + 1, 65535):
            yield f"w {w}, limits {limit}", few + within(limit, 3, w) + verdict(limit, 0, 3, w) + verdict(0, limit, 3, w) + verdict(q, limit, 3, w)
        for k in (0, 1, 4, 5, 6, 65535):
            yield f"w {w}, k {k}", few + nearest(k, 3, w)
        yield f"w {w}, no entries", head(w) + nearest(0, 3, w) + nearest(9, 3, w) + within(0, 3, w) + within(q, 3, w) + verdict(q, q, 3, w) + verdict(q + 1, 0, 3, w)
        yield f"w {w}, sky", head(w) + sky(1, [(0.5, -1.25), (2.0, 3.0)])
        for m in (0, *range(8 * w - 1, 16 * w + 2), 255):
            cut = tables(w, m) + few[len(head(w)) :]
            asked = [nearest(k, 3, w) for k in (1, 2, 4, 5)] + [within(r, 3, w) for r in (0, 1, m, q - 1, q, q + 1)] + [verdict(4, 3, 3, w)]
            yield f"w {w}, m {m}", cut + b"".join(asked)
    for name, first in {"w 0": tables(0, 8), "w 3": tables(3, 24), "w 4": tables(4, 32), "of 1": record(7, b"\1"), "of 3": record(7, b"\1\x08\0")}.items():
        yield f"head by tables: {name}", first
    yield "two heads", tables(1, 8) + head()
    yield "head by tables after a head", head() + tables(1, 8)
    yield "head by tables after entries", CATALOGUE + tables(1, 8)
    yield "512 entries in 32 tables", tables(2, 32) + b"".join(entry(i, i * 0x9E3779B97F4A7C15F39CC0605CEDC835 % 2**128, 2) for i in range(512)) + nearest(512, 5, 2)
    yield "equal codes", head() + entry(1, 5) + entry(1, 5) + entry(2, 5) + nearest(2, 5) + verdict(0, 0, 5) + verdict(0, 1, 5) + within(0, 5)
    yield "one entry", head() + entry(1, 5) + nearest(9, 0) + verdict(2, 64, 0) + verdict(1, 0, 0)
    for stars in ((5, 5, 6, 7), (5, 5, 7, 6), (6, 5, 5, 7), (5, 5, 5, 6), (5, 5, 5, 5), (5, 6, 7, 8)):
        exposures = head() + b"".join(entry(star, c) for star, c in zip(stars, (0, 3, 0xF0, 0xF000)))
        yield f"exposures of stars {stars}", exposures + b"".join(verdict(t, g, c) for t in (0, 1, 64) for g in (0, 2, 3, 4, 5, 64) for c in (0, 3, 0xF0F0))


def skies():
    edges = [-4.0, -0.0, 0.0, 4.0, 0.06, 0.07, 1e308, -1e308, 5e-324, -5e-324, math.inf, -math.inf, math.nan, float_of(0x7FF0000000000001), float_of(0xFFF8000000C0FFEE)]
    edges += [math.nextafter(x, y) for x in (-4.0, 4.0, 0.0, -1.0, 3.0) for y in (-math.inf, math.inf)]
    edges += [float(i) for i in range(-5, 6)]
    edges += [i / 57.29577951308232 for i in range(-4, 5)]
    edges += [math.nextafter(i / 57.29577951308232, y) for i in range(-4, 5) for y in (-math.inf, math.inf)]
    for unit in (1, 2):
        yield f"angles, unit {unit}", head() + b"".join(sky(unit, [(x, 0.0)]) + sky(unit, [(0.0, x)]) for x in edges)
        yield f"two refusals, unit {unit}", head() + b"".join(sky(unit, [(0.0, 0.0), (x, y)]) for x in (9.0, math.nan, 0.0) for y in (9.0, math.inf, 0.0))
        yield f"no stars, unit {unit}", head() + sky(unit, [])
        stars = [((i % 64) / 8 - 4, (i // 8) / 8 - 4) for i in range(512)]
        scale = 1 if unit == 1 else 1 / 57.29577951308232
        yield f"512 stars, unit {unit}", head() + sky(unit, [(x * scale, y * scale) for x, y in stars])


def random_input(rng):
    """A session, half the time damaged on purpose."""
    w = rng.choice((1, 1, 2))
    q = 64 * w
    centre = rng.getrandbits(q)

    def near(value, flips):
        for _ in range(rng.randrange(flips + 1)):
            value ^= 1 << rng.randrange(q)
        return value

    codes = [near(centre, rng.choice((0, 3, 12, q))) for _ in range(rng.choice((0, 1, 2, 5, 20, 60)))]
    stars = rng.choice((1, 2, 2, 3, 4, 2**32))  # few, so that many entries have the same one
    first = rng.choice((head(w), tables(w, rng.randrange(8 * w - 1, 16 * w + 2))))
    parts = [first] + [entry(rng.randrange(stars), c, w) for c in codes]
    for _ in range(rng.randrange(6)):
        value = near(rng.choice(codes) if codes and rng.random() < 0.8 else centre, rng.choice((0, 2, 6, q)))
        limit = lambda: rng.choice((0, 1, 2, 5, rng.randrange(q + 1), q, q + 1, rng.getrandbits(16)))
        angle = lambda: rng.choice((rng.uniform(-4, 4), rng.uniform(-0.07, 0.07), rng.uniform(-5, 5), float(rng.randrange(-4, 4)), float_of(rng.getrandbits(64))))
        question = rng.choice((0, 1, 2, 2, 3))
        if question == 0:
            parts.append(nearest(rng.choice((0, 1, 2, 3, len(codes), rng.getrandbits(16))), value, w))
        elif question == 1:
            parts.append(within(limit(), value, w))
        elif question == 2:
            parts.append(verdict(rng.choice((limit(), 8, q)), rng.choice((limit(), 3, 12)), value, w))
        else:
            parts.append(sky(rng.choice((1, 2)), [(angle(), angle()) for _ in range(rng.randrange(4))]))
    if rng.random() < 0.5:
        return b"".join(parts)
    damage = rng.randrange(5)
    if damage == 0:
        rng.shuffle(parts)
    elif damage == 1:
        parts.insert(rng.randrange(len(parts) + 1), rng.choice(list(bad_records()))[1][:200])
    data = bytearray(b"".join(parts))
    if damage == 2:
        del data[rng.randrange(len(data)) :]
    elif damage == 3:
        data[rng.randrange(len(data))] = rng.getrandbits(8)
    elif damage == 4:
        data[rng.randrange(len(data)) : 0] = rng.randbytes(rng.randrange(1, 9))
    return bytes(data)


def main():
    options = argparse.ArgumentParser()
    options.add_argument("--seed", type=int, default=2014)
    options.add_argument("--random", type=int, default=600)
    options.add_argument("command", nargs="+")
    chosen = options.parse_args()
    rng = random.Random(chosen.seed)
    cases = [*bad_records(), *limits(), *skies()]
    cases += [(f"seed {chosen.seed}, input {i}", random_input(rng)) for i in range(chosen.random)]
    failed = 0
    for name, data in cases:
        expected = transcript(data)
        ran = subprocess.run(chosen.command, input=data, capture_output=True, timeout=120)
        if ran.stdout != expected or ran.returncode != 0:
            failed += 1
            with tempfile.NamedTemporaryFile(prefix="session-", suffix=".bin", delete=False) as kept:
                kept.write(data)
            print(f"FAILED {name} (input kept in {kept.name}, exit {ran.returncode})", file=sys.stderr)
            if failed <= 3:
                print(f"  expected {expected[:300]!r}\n  printed  {ran.stdout[:300]!r}", file=sys.stderr)
    print(f"{len(cases) - failed} passed, {failed} failed")
    sys.exit(1 if failed else 0)


if __name__ == "__main__":
    main()
