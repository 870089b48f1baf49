"""Reads a capture and its truth again, from the bytes alone, and holds them against each other.

It shares only the groups and ports with the generator. What it sees to: the records' times rise; checksums are right; each packet of the
four groups that reads well is true (data its number's message, a refresh the book as of its number, a range and a reset as the truth has
them); each number's fate is what the capture shows; the stream's deltas fit the books (volumes, orders, executed quantity, depth); the
stream leads from start.csv to books.csv and tally.csv; and a receiver with room for everything reaches the end of each segment."""
from __future__ import annotations

import struct
import sys
from dataclasses import dataclass
from pathlib import Path
from typing import Iterator

from .frames import GROUPS, checksum

ORDERS = {b"\xd4\xc3\xb2\xa1": ("<", 1000), b"\xa1\xb2\xc3\xd4": (">", 1000), b"\x4d\x3c\xb2\xa1": ("<", 1), b"\xa1\xb2\x3c\x4d": (">", 1)}
LINES = {(bytes(map(int, group.split("."))), port): line for line, (_, group, port) in GROUPS.items()}
Levels = dict[tuple[str, int], tuple[int, int]]


@dataclass
class Row:
    segment: int
    number: int
    rest: str
    fate: str


class Broken(Exception):
    pass


def demand(holds: bool, text: str) -> None:
    if not holds:
        raise Broken(text)


def records(data: bytes) -> Iterator[tuple[int, int, bytes]]:
    """Link type, original length and frame of each record, while the times rise."""
    mark, unit = ORDERS[data[:4]]
    link = struct.unpack(mark + "I", data[20:24])[0]
    place, before = 24, -1
    while place < len(data):
        seconds, fraction, captured, original = struct.unpack(mark + "IIII", data[place : place + 16])
        now = seconds * 1_000_000_000 + fraction * unit
        demand(now > before and fraction * unit < 1_000_000_000, f"the time of the record at byte {place}")
        before = now
        frame = data[place + 16 : place + 16 + captured]
        demand(len(frame) == captured <= original, f"the lengths of the record at byte {place}")
        place += 16 + captured
        yield link, original, frame


def network(link: int, frame: bytes) -> tuple[int, bytes]:
    """The type of what a frame carries, and that."""
    if link == 1:
        demand(len(frame) >= 60, "a frame below 60 bytes")
        place = 12
        while frame[place : place + 2] in (b"\x81\x00", b"\x88\xa8"):
            place += 4
        return int.from_bytes(frame[place : place + 2], "big"), frame[place + 2 :]
    if link in (113, 276):
        at, size = (14, 16) if link == 113 else (0, 20)
        return int.from_bytes(frame[at : at + 2], "big"), frame[size:]
    return 0x0800 if frame[0] >> 4 == 4 else 0, frame


def payload(link: int, original: int, frame: bytes) -> tuple[str, bytes] | None:
    """The line and the payload, where a frame carries a whole datagram of the four groups."""
    if len(frame) < original:
        return None
    kind, packet = network(link, frame)
    if kind != 0x0800:
        return None
    head = 4 * (packet[0] & 15)
    total, _, fragment = struct.unpack(">HHH", packet[2:8])
    demand(checksum(packet[:head]) == 0, "the checksum of an IP header")
    if packet[9] != 17 or fragment & 0x3FFF:
        return None
    made = packet[head:total]
    port, length, told = struct.unpack(">HHH", made[2:8])
    demand(length == len(made), "the length of a datagram")
    pseudo = packet[12:20] + struct.pack(">BBH", 0, 17, length)
    demand(told == 0 or checksum(pseudo + made) == 0, "the checksum of a datagram")
    line = LINES.get((packet[16:20], port))
    return (line, made[8:]) if line else None


def price_text(numerator: int, scale: int) -> str:
    digits = str(numerator * 10 ** (9 - scale)).rjust(10, "0")
    return digits[:-9] + "." + digits[-9:]


def point_text(kind: int, scale: int, body: bytes) -> str:
    if kind == 230:
        numerator, volume, orders, side = struct.unpack(">IIHcx", body)
        return f"{'buy' if side == b'B' else 'sell'} {price_text(numerator, scale)} {volume} {orders}"
    numerator, volume, changed, orders, side, reason, link = struct.unpack(">IIIHccI8x", body)
    return f"{'buy' if side == b'B' else 'sell'} {price_text(numerator, scale)} {volume} {orders} {reason.decode()} {changed} {link}"


def points_right(packet: bytes, fixed: int, size: int, scale_at: int) -> bool:
    """Whether length, scale, sides and reasons are right. A delta has a point at least."""
    if len(packet) < fixed or (len(packet) - fixed) % size or packet[scale_at] > 9:
        return False
    if size == 28 and len(packet) == fixed:
        return False
    for place in range(fixed, len(packet), size):
        side = place + (10 if size == 12 else 14)
        if packet[side] not in b"BS" or size == 28 and packet[side + 1] not in b"OCEX":
            return False
    return True


def row_text(packet: bytes) -> str | None:
    """type,index,points of a packet that reads well and is data or a refresh."""
    kind = int.from_bytes(packet[2:4], "big")
    if kind == 35:
        return "mapping,," if len(packet) == 30 else None
    fixed, size, scale_at = (46, 12, 42) if kind == 230 else (34, 28, 33)
    if kind not in (230, 231) or not points_right(packet, fixed, size, scale_at):
        return None
    points = [point_text(kind, packet[scale_at], packet[place : place + size]) for place in range(fixed, len(packet), size)]
    return f"{'full' if kind == 230 else 'delta'},{int.from_bytes(packet[18:20], 'big')},{';'.join(points)}"


def header_right(packet: bytes) -> bool:
    if not 16 <= len(packet) <= 1500 or int.from_bytes(packet[:2], "big") + 2 != len(packet) or packet[12] != 115:
        return False
    return packet[13] in (1, 2) or packet[13] in (5, 6) and packet[2:4] == b"\0\xe6"


def read_levels(path: Path) -> dict[int, Levels]:
    books: dict[int, Levels] = {}
    for line in path.read_text().splitlines()[1:]:
        index, _, side, _, price, volume, orders = line.split(",")
        book = books.setdefault(int(index), {})
        if side:
            book[side, int(price.replace(".", ""))] = (int(volume), int(orders))
    return books


def read_rows(path: Path) -> list[Row]:
    rows = []
    for line in path.read_text().splitlines()[1:]:
        segment, number, rest = line.split(",", 2)
        rest, _, fate = rest.rpartition(",")
        rows.append(Row(int(segment), int(number), rest, fate))
    return rows


def words_of(rest: str) -> tuple[str, int, list[list[str]]]:
    kind, index, points = rest.split(",")
    return kind, int(index or 0), [point.split(" ") for point in points.split(";")] if points else []


def enter(book: Levels, points: list[list[str]]) -> None:
    for point in points:
        key = point[0], int(point[1].replace(".", ""))
        if point[2] == "0":
            book.pop(key, None)
        else:
            book[key] = (int(point[2]), int(point[3]))


def hold_delta(book: Levels, points: list[list[str]], most: int, here: str) -> None:
    """A delta's points make sense one after the other."""
    for point in points:
        key = point[0], int(point[1].replace(".", ""))
        before, volume, orders, changed = book.get(key, (0, 0))[0], int(point[2]), int(point[3]), int(point[5])
        after = {"O": before + changed, "C": before - changed, "E": before - changed}.get(point[4], volume)
        demand(volume == after and abs(volume - before) == changed, f"{here}: the quantity of {' '.join(point)} from {before}")
        demand((volume == 0) == (orders == 0) and orders <= max(volume, 0), f"{here}: the orders of {' '.join(point)}")
        demand((point[4] == "E") == (point[6] != "0"), f"{here}: the link of {' '.join(point)}")
        enter(book, [point])
        demand(sum(side == point[0] for side, _ in book) <= most, f"{here}: more than {most} levels")


class Stream:
    """The truth's rows; the books as of any number are worked out where a refresh asks for them."""

    def __init__(self, truth: Path):
        self.truth = truth
        self.rows = read_rows(truth / "stream.csv")
        self.by_number = {(row.segment, row.number): row for row in self.rows}
        self.halted = {row.segment for row in self.rows if row.fate == "never"}
        self.firsts: dict[int, int] = {}
        self.lasts: dict[int, int] = {}
        for row in self.rows:
            self.firsts.setdefault(row.segment, row.number)
            self.lasts[row.segment] = row.number

    def hold(self, refreshes: dict[tuple[int, int], list[str]], depth: int, deep: int, deepest: int) -> None:
        """Leads the books from start.csv through the stream to books.csv and tally.csv, past each refresh."""
        books, executed = read_levels(self.truth / "start.csv"), {}
        for row in self.rows:
            kind, index, points = words_of(row.rest)
            here = f"number {row.number} of segment {row.segment}"
            if kind == "full":
                books[index] = {}
                enter(books[index], points)
            elif kind == "delta":
                hold_delta(books[index], points, deepest if index <= deep else depth, here)
                for point in points:
                    if point[4] == "E":
                        executed[index] = executed.get(index, 0) + int(point[5])
            for rest in refreshes.get((row.segment, row.number), []):
                _, shown, levels = words_of(rest)
                book: Levels = {}
                enter(book, levels)
                demand(book == books[shown] and len(book) == len(levels), f"the refresh of {shown} as of {here}")
        demand(books == read_levels(self.truth / "books.csv"), "books.csv is not where the stream leads")
        told = [line.split(",") for line in (self.truth / "tally.csv").read_text().splitlines()[1:]]
        demand({int(index): int(volume) for index, volume in told} == executed, "tally.csv is not what the stream executed")


class Receiver:
    """What a receiver with room for everything makes of the capture, and what the capture shows of each number."""

    def __init__(self, stream: Stream):
        self.stream = stream
        self.segment, self.last = 1, stream.firsts[1] - 1
        self.reset: tuple[int, int, int] | None = None
        self.held: set[int] = set()
        self.carried: set[tuple[int, int]] = set()
        self.declared: set[tuple[int, int]] = set()
        self.refreshes: dict[tuple[int, int], list[str]] = {}
        self.counts = {"data": 0, "resent": 0, "ranges": 0, "refreshes": 0, "resets": 0, "not read": 0}

    def offer(self, line: str, packet: bytes) -> None:
        if not header_right(packet):
            self.counts["not read"] += 1
            return
        kind, number = struct.unpack(">HI", packet[2:8])
        if kind == 1 and len(packet) == 20:
            self.take_reset(struct.unpack(">IIxxxxI", packet[4:20]))
        elif kind == 5 and len(packet) == 24:
            self.take_range(*struct.unpack(">II", packet[16:24]))
        elif (rest := row_text(packet)) is None:
            self.counts["not read"] += 1
        elif packet[13] >= 5:
            self.take_refresh(line, packet, number, rest)
        else:
            self.take_data(line, packet[13], number, rest)

    def take_reset(self, reset: tuple[int, int, int]) -> None:
        if reset == self.reset:
            return
        self.reset = reset
        self.counts["resets"] += 1
        if self.segment not in self.stream.halted:
            demand(self.last == self.stream.lasts[self.segment], f"segment {self.segment} is reached up to {self.last}")
        self.segment += 1
        demand(self.stream.firsts.get(self.segment) == reset[2], f"the reset to {reset[2]}")
        self.last, self.held = reset[2] - 1, set()

    def take_range(self, begin: int, end: int) -> None:
        if begin == 0 or end < begin:
            self.counts["not read"] += 1
            return
        self.counts["ranges"] += 1
        demand(end - begin < 1000 and end <= self.stream.lasts[self.segment], f"the range {begin} to {end}")
        self.declared.update((self.segment, number) for number in range(begin, end + 1))
        if begin <= self.last + 1:
            self.last = max(self.last, end)
            self.drain()

    def drain(self) -> None:
        while self.last + 1 in self.held:
            self.last += 1
            self.held.discard(self.last)

    def take_data(self, line: str, flag: int, number: int, rest: str) -> None:
        row = self.stream.by_number.get((self.segment, number))
        demand(row is not None and row.rest == rest, f"number {number} of segment {self.segment} on the {line} line is not true")
        demand((flag == 2) == (line == "retransmission"), f"number {number} on the {line} line has flag {flag}")
        self.counts["resent" if flag == 2 else "data"] += 1
        self.carried.add((self.segment, number))
        self.held.add(number)
        self.drain()

    def take_refresh(self, line: str, packet: bytes, number: int, rest: str) -> None:
        if (packet[13], packet[15]) != (6, 1):
            self.counts["not read"] += 1
            return
        self.counts["refreshes"] += 1
        demand(line == "refresh" and number <= self.stream.lasts[self.segment], f"a refresh as of {number}")
        self.refreshes.setdefault((self.segment, number), []).append(rest)

    def close(self) -> None:
        rows, stream = self.stream.rows, self.stream
        end = max(stream.lasts)
        demand(self.segment == end and (end in stream.halted or self.last == stream.lasts[end]), f"the end: segment {self.segment}, number {self.last}")
        for row in rows:
            key = row.segment, row.number
            fate = {(True, True): "both", (True, False): "sent", (False, True): "unavailable", (False, False): "never"}
            demand(row.fate == fate[key in self.carried, key in self.declared], f"the fate of {row.number} of segment {row.segment} is {row.fate}")


def check(capture: Path, truth: Path, depth: int, deep: int, deepest: int = 60) -> int:
    """Prints a line of counts and answers 0, or prints what is broken and answers 1."""
    try:
        stream = Stream(truth)
        receiver = Receiver(stream)
        for link, original, frame in records(capture.read_bytes()):
            found = payload(link, original, frame)
            if found is not None:
                receiver.offer(*found)
        receiver.close()
        stream.hold(receiver.refreshes, depth, deep, deepest)
    except Broken as broken:
        print(f"{capture}: broken: {broken}", file=sys.stderr)
        return 1
    print("checked: " + " ".join(f"{name.replace(' ', '-')}={count}" for name, count in receiver.counts.items()))
    return 0
