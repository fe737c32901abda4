#!/usr/bin/env python3
"""Random books against single calls: what request L4 says a book comes to, by its own framing and `heronspan_build_bytes`.

    oracle/books.py SEED COUNT     after bindings/test; on machines other than x86-64 with target/python-x86-64/python3

Of each book it holds the answer and every place of the four lists, which are filled with a pattern before. It prints how many books and
requests of each kind there were, and stops at the first difference.
"""
import collections
import ctypes
import os
import random
import sys

ROOT = os.path.dirname(os.path.dirname(os.path.abspath(__file__)))
sys.path.insert(0, os.path.join(ROOT, "bindings", "python"))
import heronspan as h

LIBRARY, DATES, FLAG, BEFORE, ANSWER = h._library, 0xD47E, 0xF1, 0xBEF, 0xA45


def field(tag, body):
    return bytes([tag]) + len(body).to_bytes(2, "big") + body


def drawn(draw):
    """A request, small mostly, and at times bytes that are none."""
    start = draw.randrange(738000, 739000)
    end = start + draw.choice((0, 30, 200, 400, 3000, -50))
    out = field(1, start.to_bytes(4, "big")) + field(2, end.to_bytes(4, "big"))
    out += field(3, bytes([draw.choice(b"DWMYMM")]) + draw.choice((1, 1, 2, 3, 6, 400)).to_bytes(2, "big"))
    for tag, below in ((4, 10), (5, 5), (6, 5), (7, 2)):
        if draw.random() < 0.4:
            out += field(tag, bytes([draw.randrange(below)]))
    if draw.random() < 0.2:
        out += field(8, (start + 20).to_bytes(4, "big"))
    if draw.random() < 0.4:
        out += field(10, bytes([draw.choice((96, 96, 64, 127))]))
    if draw.random() < 0.3:
        out += field(11, b"".join(day.to_bytes(4, "big") for day in sorted(draw.sample(range(start, start + 400), draw.randrange(40)))))
    out += b"\xff\x00\x00"
    fault = draw.randrange(12)
    if fault == 0:
        return b""
    if fault == 1:
        return out[: draw.randrange(len(out))]
    if fault == 2:
        return out + bytes(draw.choice((1, 20000)))
    return out


def parted(whole):
    """The requests of a book, or None."""
    out, at = [], 0
    while at < len(whole):
        size = int.from_bytes(whole[at : at + 2], "big")
        if at + 2 + size > len(whole) or at + 1 == len(whole):
            return None
        out.append(whole[at + 2 : at + 2 + size])
        at += 2 + size
    return out if len(out) <= 64 else None


def filled(kind, places, value):
    return (kind * places)(*[value] * places)


def lent(room, places):
    return [filled(ctypes.c_uint32, room + 2, DATES), filled(ctypes.c_uint8, room + 2, FLAG), filled(ctypes.c_uint32, room + 2, BEFORE), filled(ctypes.c_uint32, places + 2, ANSWER)]


def by_single_calls(whole, lengths, places, lists):
    """What the book should answer, and the lists as it should leave them."""
    if len(set(lengths)) > 1:
        return -1, []
    requests = parted(whole)
    if requests is None or places // 4 < len(requests):
        return -20, []
    dates, flags, unadjusted, answers = lists
    start, numbers, record = 0, [], (ctypes.c_uint32 * 7)()
    for i, request in enumerate(requests):
        room = lengths[0] - start
        count = LIBRARY.heronspan_build_bytes(
            request, len(request), ctypes.cast(ctypes.byref(dates, 4 * start), ctypes.POINTER(ctypes.c_uint32)), room,
            ctypes.cast(ctypes.byref(flags, start), ctypes.POINTER(ctypes.c_uint8)), room,
            ctypes.cast(ctypes.byref(unadjusted, 4 * start), ctypes.POINTER(ctypes.c_uint32)), room, record, 7)
        answers[4 * i : 4 * i + 4] = [0, 0, 0, -count] if count < 0 else [count, start, record[2], 0]
        numbers.append(max(-count, 0))
        start += max(count, 0)
    return len(requests), numbers


def asked(draw):
    requests = [drawn(draw) for _ in range(draw.choice((0, 1, 2, 3, 5, 8, 64, 65)))]
    whole = b"".join(len(request).to_bytes(2, "big") + request for request in requests)
    fault = draw.randrange(12)
    if fault == 0:
        whole = whole[: draw.randrange(len(whole) + 1)]
    if fault == 1:
        whole += bytes([draw.randrange(3)])
    room, places = draw.choice((0, 3, 20, 60, 200, 2000)), 4 * len(requests) + draw.choice((-1, 0, 0, 0, 0, 3))
    lengths, places = [room] * 3, max(places, 0)
    if draw.random() < 0.05:
        lengths[draw.randrange(3)] += 1
    own, due = lent(room, places), lent(room, places)
    n = LIBRARY.heronspan_book(whole, len(whole), own[0], lengths[0], own[1], lengths[1], own[2], lengths[2], own[3], places)
    m, numbers = by_single_calls(whole, lengths, places, due)
    if n != m or any(bytes(a) != bytes(b) for a, b in zip(own, due)):
        sys.exit(f"answered {n}, by single calls {m}; lengths {lengths}, {places} places, {whole.hex()}")
    return m, numbers


def main():
    draw, books, requests = random.Random(int(sys.argv[1])), collections.Counter(), collections.Counter()
    for _ in range(int(sys.argv[2])):
        answer, numbers = asked(draw)
        books[min(answer, 0)] += 1
        requests.update(numbers)
    print(f"{sum(books.values())} books alike: {books[0]} answered, {books[-1]} refused 1, {books[-20]} refused 20")
    print(f"{sum(requests.values())} requests: " + ", ".join(f"{requests[k]} {'built' if k == 0 else f'refused {k}'}" for k in sorted(requests)))


main()
