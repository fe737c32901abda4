#!/usr/bin/env python3
"""Requests off the wire against a second reading of documents 01 and 02: random wholes, sound and spoilt, in random cuts.

    oracle/wire.py SEED COUNT     after bindings/test; on machines other than x86-64 with target/python-x86-64/python3

Of each whole it holds the answer, the closed dates, the buffer behind each part, and the repeated answers to what `decode` and
`bodies` below say. It prints how many wholes of each kind there were, and stops at the first difference.
"""
import collections
import os
import random
import sys

ROOT = os.path.dirname(os.path.dirname(os.path.abspath(__file__)))
sys.path.insert(0, os.path.join(ROOT, "bindings", "python"))
import heronspan as h

DATES, BELOW = (1, 2, 8, 9), {4: 10, 5: 5, 6: 5, 7: 2, 10: 128}
LEFT_OUT = {3: b"D\x00\x00", 4: b"\x01", 5: b"\x00", 6: b"\x00", 7: b"\x00", 8: b"\x00" * 4, 9: b"\x00" * 4, 10: b"\x00", 11: b""}


def number(body):
    return int.from_bytes(body, "big")


def body_ok(tag, body):
    if tag in DATES:
        return len(body) == 4
    if tag == 3:
        return len(body) == 3 and body[:1] in (b"D", b"W", b"M", b"Y")
    if tag in BELOW:
        return len(body) == 1 and body[0] < BELOW[tag]
    return tag == 11 and len(body) <= 16384 and len(body) % 4 == 0


def decode(whole, room):
    """The request in the words of heronspan.Request, or the number of the refusal."""
    if len(whole) > 20000:
        return 17
    fields, last, at = {}, 0, 0
    while True:
        if at + 3 > len(whole):
            return 17
        tag, size = whole[at], number(whole[at + 1 : at + 3])
        body, at = whole[at + 3 : at + 3 + size], at + 3 + size
        if at > len(whole) or tag <= last:
            return 17
        if tag == 255:
            break
        if not body_ok(tag, body):
            return 17
        fields[tag], last = body, tag
    if size or at != len(whole) or 1 not in fields or 2 not in fields:
        return 17
    body = {**LEFT_OUT, **fields}
    closed = tuple(number(body[11][i : i + 4]) for i in range(0, len(body[11]), 4))
    if len(closed) > room:
        return 14
    return h.Request(
        effective=number(body[1]), termination=number(body[2]), tenor=int.from_bytes(body[3][1:], "big", signed=True),
        unit=h.Unit("DWMY".index(chr(body[3][0]))), rule=h.Rule(body[4][0]), convention=h.Convention(body[5][0]),
        terminal=h.Convention(body[6][0]), monthend=body[7] == b"\x01", first=number(body[8]), penultimate=number(body[9]),
        mask=body[10][0], closed=closed,
    )


def bodies(whole):
    whole, out = whole[:20000], b""
    while len(whole) >= 3:
        size = number(whole[1:3])
        out += whole[3 : 3 + size]
        if whole[0] == 255:
            break
        whole = whole[3 + size :]
    return out


def drawn(draw):
    """A whole: a request with some of the fields, and often a fault."""
    out = []
    for tag in range(1, 12):
        if tag > 2 and draw.random() < 0.5 or tag <= 2 and draw.random() < 0.03:
            continue
        if tag in DATES:
            body = draw.randbytes(4) if draw.random() < 0.3 else draw.randrange(738000, 739000).to_bytes(4, "big")
        elif tag == 3:
            body = bytes([draw.choice(b"DWMYDWMYdZ")]) + draw.randbytes(2)
        elif tag == 11:
            body = draw.randbytes(4 * draw.choice((0, 1, 3, 40, 4096)) + (draw.random() < 0.05))
        else:
            body = bytes([draw.randrange(BELOW[tag] + (draw.random() < 0.1))])
        out.append(bytes([tag]) + len(body).to_bytes(2, "big") + body)
    out.append(b"\xff\x00\x00")
    fault = draw.randrange(8)
    if fault == 0:
        draw.shuffle(out)
    if fault == 1:
        out.insert(draw.randrange(len(out) + 1), bytes([draw.randrange(256), 0, 2]) + draw.randbytes(2))
    whole = bytearray(b"".join(out))
    if fault == 2 and whole:
        whole[draw.randrange(len(whole))] = draw.randrange(256)
    if fault == 3:
        whole += draw.randbytes(draw.choice((1, 5, 20000)))
    if fault == 4:
        del whole[draw.randrange(len(whole) + 1) :]
    return bytes(whole)


def answered(call):
    try:
        return call()
    except h.Refused as refused:
        return refused.number


def same(what, ours, theirs, whole, parts):
    if ours != theirs:
        sys.exit(f"{what}: {ours!r}, the second reading {theirs!r}; {whole.hex()} in {[len(part) for part in parts]}")


def asked(draw):
    whole, room = drawn(draw), draw.choice((0, 3, 4096, 4096, 4096))
    if draw.random() < 0.2:
        parts = [whole[i : i + 1] for i in range(len(whole))]
    else:
        cuts = sorted(draw.randrange(len(whole) + 1) for _ in range(draw.randrange(12)))
        parts = [whole[a:b] for a, b in zip([0, *cuts], [*cuts, len(whole)])]
    reader = h.Reader(buffer=20000 + draw.randrange(3), closed=room)
    before = draw.randbytes(len(reader.buffer))
    reader.buffer[:] = before
    fed = b""
    for part in parts:
        same("feed", reader.feed(part), None, whole, parts)
        fed += part
        if len(parts) < 20:
            stored = bodies(fed)
            same("buffer", bytes(reader.buffer), stored + before[len(stored) :], whole, parts)
    due = decode(whole, room)
    for call in (reader.finish, lambda: reader.feed(whole), reader.finish):
        same("answer", answered(call), due, whole, parts)
        stored = bodies(whole)
        same("buffer", bytes(reader.buffer), stored + before[len(stored) :], whole, parts)
    return due if isinstance(due, int) else 0


def main():
    draw, kinds = random.Random(int(sys.argv[1])), collections.Counter()
    for _ in range(int(sys.argv[2])):
        kinds[asked(draw)] += 1
    print(f"{sum(kinds.values())} wholes alike: {kinds[0]} requests, {kinds[17]} refused 17, {kinds[14]} refused 14")


main()
