"""Requests that come in parts: every cut of some, random cuts through a socket, what is stored, and what is refused."""

import io
import random
import socket
import threading
import unittest

import heronspan as h


def field(tag: int, body: bytes) -> bytes:
    return bytes([tag]) + len(body).to_bytes(2, "big") + body


def day(number: int) -> bytes:
    return number.to_bytes(4, "big")


END = field(0xFF, b"")
R = field(1, day(0x000B436C)) + field(2, day(0x000B4403)) + END
MONTHLY = R[:14] + field(3, b"M\x00\x01") + END
FULL = (
    R[:14] + field(3, b"M\x00\x01") + field(4, b"\x02") + field(5, b"\x01") + field(6, b"\x01") + field(7, b"\x00")
    + field(8, day(0)) + field(9, day(0)) + field(10, b"\x60") + field(11, day(738158) + day(738190)) + END
)
BAD = [
    b"", b"\x00", R[:-1], R + b"\x00", R + R, END, R[7:14] + R[:7] + END, R[:14] + R[7:14] + END, R[:14] + field(3, b"m\x00\x01") + END,
    R[:14] + field(4, b"\x0a") + END, R[:14] + field(10, b"\x80") + END, R[:14] + field(11, b"12345") + END, R[:14] + field(0xFF, b"\x00"),
    R[:14] + field(12, b"") + END, bytes.fromhex("630002AABB010003CCDDEE"), bytes.fromhex("FF0002AABBCC"), b"\x63\xff\xff" + b"\xaa" * 20_100,
]


def bodies(whole: bytes) -> bytes:
    """The bodies by the format, read a second time."""
    whole, out = whole[:20_000], b""
    while len(whole) >= 3:
        size = int.from_bytes(whole[1:3], "big")
        out += whole[3 : 3 + size]
        if whole[0] == 0xFF:
            break
        whole = whole[3 + size :]
    return out


def told(reader: h.Reader) -> bytes:
    """What the reader's numbers are, without the bytes between them."""
    raw = bytes(reader._reader)
    return raw[:5] + raw[6:38] + raw[40:]


def outcome(call):
    try:
        return call()
    except h.Refused as refused:
        return refused.number


def fed(parts) -> tuple:
    """The answer, its schedule, and the buffer that was full of 9."""
    reader = h.Reader(buffer=20_003)
    reader.buffer[:] = b"\x09" * 20_003
    for part in parts:
        assert reader.feed(part) is None
    answer = outcome(reader.finish)
    assert outcome(lambda: reader.feed(R)) == answer and outcome(reader.finish) == answer
    return answer, answer if isinstance(answer, int) else outcome(answer.build), bytes(reader.buffer)


class Wire(unittest.TestCase):
    def check(self, whole: bytes, parts) -> None:
        answer, built, buffer = fed(parts)
        self.assertEqual(built, outcome(lambda: h.build_bytes(whole)))
        stored = bodies(whole)
        self.assertEqual(buffer, stored + b"\x09" * (20_003 - len(stored)))

    def test_every_cut_in_two(self) -> None:
        for whole in (R, MONTHLY, FULL, *BAD[:-1]):
            for cut in range(len(whole) + 1):
                self.check(whole, [whole[:cut], b"", whole[cut:]])

    def test_byte_by_byte(self) -> None:
        for whole in (R, MONTHLY, FULL, *BAD[:-1]):
            self.check(whole, [whole[i : i + 1] for i in range(len(whole))])

    def test_random_cuts(self) -> None:
        draw = random.Random(1101)
        closed = b"".join(day(657_072 + 40 * i) for i in range(4096))
        for whole in (R, FULL, R[:14] + field(11, closed) + END, BAD[-1]):
            for _ in range(20):
                places = sorted(draw.randrange(len(whole) + 1) for _ in range(draw.randrange(40)))
                self.check(whole, [whole[a:b] for a, b in zip([0, *places], [*places, len(whole)])])

    def test_a_socket_and_a_file(self) -> None:
        draw = random.Random(1102)
        closed = b"".join(day(657_072 + 40 * i) for i in range(4096))
        for whole in (R, FULL, R[:14] + field(11, closed) + END, *BAD):
            ours, theirs = socket.socketpair()

            def send(whole=whole, theirs=theirs) -> None:
                at = 0
                while at < len(whole):
                    at += theirs.send(whole[at : at + draw.randrange(1, 2000)])
                theirs.close()

            sender = threading.Thread(target=send)
            sender.start()
            reader = h.Reader()
            built = outcome(lambda: reader.read(ours, draw.randrange(1, 1500)).build())
            sender.join()
            ours.close()
            self.assertEqual(built, outcome(lambda: h.build_bytes(whole)))
            self.assertEqual(outcome(lambda: h.Reader().read(io.BytesIO(whole), 7).build()), outcome(lambda: h.build_bytes(whole)))

    def test_as_fed(self) -> None:
        reader = h.Reader()
        reader.feed(bytes.fromhex("010004000B"))
        self.assertEqual(bytes(reader.buffer[:4]), b"\x00\x0b\x00\x00")

    def test_a_short_buffer_changes_nothing(self) -> None:
        reader = h.Reader(buffer=19_999)
        before = told(reader)
        for call in (lambda: reader.feed(R), lambda: reader.feed(b""), reader.finish):
            self.assertEqual(outcome(call), 18)
            self.assertEqual(told(reader), before)
        reader.buffer = (h._u8 * 20_000)()
        reader.feed(R)
        self.assertEqual(reader.finish().effective, 0x000B436C)
        reader.buffer = (h._u8 * 0)()
        self.assertEqual(outcome(lambda: reader.feed(R)), 18)

    def test_room_for_closed_dates(self) -> None:
        reader = h.Reader(closed=1)
        reader.feed(FULL)
        self.assertEqual(outcome(reader.finish), 14)
        reader._closed = (h._u32 * 2)()
        self.assertEqual(reader.finish().closed, (738158, 738190))

    def test_a_reset_starts_anew(self) -> None:
        new = told(h.Reader())
        reader = h.Reader()
        for parts in ([FULL[:20]], [R], [b"\x00"]):
            for part in parts:
                reader.feed(part)
            outcome(reader.finish)
            reader.reset()
            self.assertEqual(told(reader), new)
        reader.feed(R)
        self.assertEqual(reader.finish().build(), h.build_bytes(R))


if __name__ == "__main__":
    unittest.main()
