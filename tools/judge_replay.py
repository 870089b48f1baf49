#!/usr/bin/env python3
"""Judges what a replay of a capture wrote, against the truth that came with the capture.

usage: judge_replay.py [--service lines|books|tally] [--books N] [--depth D] [--complete] TRUTH_DIR OUT_DIR

It shares no code with the generator or the handler. From stream.csv and run.csv it follows the true books to the last number of each
segment and holds against them: the run (each number once and rising, each data row the true message, each loss one that was declared,
each refresh true), every level of every whole book, that a book is whole only where a full update or a refresh that counts came after
the last restart or loss, the executed volumes, and the gap log (losses as in the run, claims one at a time, settled once, above what
was handed on). It prints what differs and ends with 1, or prints one line of figures:

  last=L segments=S reached=R/T losses=X refreshes=F whole=W/N known=K executed=E claims=C

reached counts the numbers that had their turn out of those of the stream; whole the books that the day book marks whole, out of all;
known those that could be whole by what the run told (a book that went over the keeper's depth is no longer whole).

  --service   which files are owed (default tally: all)
  --books N   the day book has the books 1 to N; without it, 1 to any number
  --depth D   the keeper's levels a side: then each book that could be whole must be
  --complete  each segment must have reached its end
"""
from __future__ import annotations

import argparse
import sys
from dataclasses import dataclass, field
from pathlib import Path

RUN_HEADER = "number,event,type,index,points"
GAP_HEADER = "event,channel,serial,begin,end,time,missing,request"
BOOK_HEADER = "index,state,side,level,price,volume,orders"
TALLY_HEADER = "index,executed"
RESET_HEADER = "segment,time"
STREAM_HEADER = "segment,number,type,index,points,fate"
MOST_SHOWN = 20
MOST_CLAIMS = 500
LONGEST_CLAIM = 1000

Side = dict[int, tuple[int, int]]


@dataclass
class Book:
    """A true book, and what a keeper may know of it: whole, and the number that last touched it."""

    sides: dict[str, Side] = field(default_factory=lambda: {"buy": {}, "sell": {}})
    known: bool = False
    touched: int = 0


@dataclass
class Truth:
    number: int
    kind: str
    index: int
    points: str
    fate: str


@dataclass
class Row:
    line: int
    number: int
    event: str
    rest: str  # type,index,points


@dataclass
class Claim:
    channel: str
    serial: int
    begin: int
    end: int


class Faults:
    def __init__(self) -> None:
        self.found: list[str] = []

    def tell(self, text: str) -> None:
        self.found.append(text)

    def show(self) -> None:
        for text in self.found[:MOST_SHOWN]:
            print(text)
        if len(self.found) > MOST_SHOWN:
            print(f"and {len(self.found) - MOST_SHOWN} more")


# Reading


def lines_of(path: Path, header: str) -> list[str]:
    text = path.read_text()
    if not text.endswith("\n"):
        raise ValueError(f"{path.name}: its last line has no end")
    lines = text[:-1].split("\n")
    if lines[0] != header:
        raise ValueError(f"{path.name}: the header is {lines[0]!r}")
    return lines[1:]


def price_of(text: str) -> int:
    dollars, point, rest = text.partition(".")
    if point != "." or len(rest) != 9 or not (dollars + rest).isdigit():
        raise ValueError(f"no price: {text!r}")
    return int(dollars) * 1_000_000_000 + int(rest)


def points_of(text: str) -> list[list[str]]:
    return [point.split(" ") for point in text.split(";")] if text else []


def read_stream(path: Path) -> list[list[Truth]]:
    segments: list[list[Truth]] = []
    for line in lines_of(path, STREAM_HEADER):
        segment, number, kind, index, points, fate = line.split(",")
        if int(segment) > len(segments):
            segments.append([])
        segments[int(segment) - 1].append(Truth(int(number), kind, int(index or 0), points, fate))
    return segments


def read_resets(path: Path) -> list[int]:
    return [int(line.split(",")[1]) for line in lines_of(path, RESET_HEADER)]


def read_run(path: Path) -> list[Row]:
    rows = []
    for line, text in enumerate(lines_of(path, RUN_HEADER), 2):
        parts = text.split(",", 2)
        if len(parts) != 3 or text.count(",") != 4:
            raise ValueError(f"run.csv:{line}: no row: {text[:80]!r}")
        rows.append(Row(line, int(parts[0]), parts[1], parts[2]))
    return rows


def segments_of(rows: list[Row]) -> list[list[Row]]:
    segments: list[list[Row]] = []
    for row in rows:
        if row.event == "restart":
            segments.append([])
        if not segments:
            raise ValueError("run.csv: it begins without a restart")
        segments[-1].append(row)
    return segments


def read_books(path: Path, faults: Faults) -> dict[int, tuple[str, dict[str, Side]]]:
    """The books of a day book or a truth, whose rows stand in order: the best level first, buys before sells."""
    books: dict[int, tuple[str, dict[str, Side]]] = {}
    for line, text in enumerate(lines_of(path, BOOK_HEADER), 2):
        index, state, side, level, price, volume, orders = text.split(",")
        here = f"{path.name}:{line}"
        if int(index) not in books:
            if books and int(index) <= max(books):
                faults.tell(f"{here}: index {index} does not rise")
            books[int(index)] = (state, {"buy": {}, "sell": {}})
        if state not in ("whole", "partial") or books[int(index)][0] != state:
            faults.tell(f"{here}: book {index} is {state}")
        if side == "":
            if (level, price, volume, orders) != ("", "", "", ""):
                faults.tell(f"{here}: a level without a side")
            continue
        enter_row(books[int(index)][1], here, side, int(level), price_of(price), (int(volume), int(orders)), faults)
    return books


def enter_row(sides: dict[str, Side], here: str, side: str, level: int, price: int, rest: tuple[int, int], faults: Faults) -> None:
    levels = sides[side]
    if side == "buy" and sides["sell"]:
        faults.tell(f"{here}: a buy behind a sell")
    if level != len(levels) + 1:
        faults.tell(f"{here}: level {level} where {len(levels) + 1} is next")
    if levels:
        before = next(reversed(levels))
        if price >= before if side == "buy" else price <= before:
            faults.tell(f"{here}: the best level does not come first")
    levels[price] = rest


def read_tally(path: Path, faults: Faults) -> dict[int, int]:
    executed: dict[int, int] = {}
    for text in lines_of(path, TALLY_HEADER):
        index, volume = map(int, text.split(","))
        if executed and index <= max(executed):
            faults.tell(f"{path.name}: index {index} does not rise")
        executed[index] = volume
    return executed


# The true books, and what a keeper may know


def enter(sides: dict[str, Side], points: list[list[str]], depth: int | None) -> bool:
    """Enters points in order; answers whether no side went over the depth on the way."""
    fits = True
    for point in points:
        levels, price, volume = sides[point[0]], price_of(point[1]), int(point[2])
        if volume == 0:
            levels.pop(price, None)
        else:
            levels[price] = (volume, int(point[3]))
            fits = fits and (depth is None or len(levels) <= depth)
    return fits


def book_of(points: list[list[str]]) -> dict[str, Side]:
    sides: dict[str, Side] = {"buy": {}, "sell": {}}
    enter(sides, points, None)
    return sides


class Judge:
    def __init__(self, faults: Faults, stream: list[list[Truth]], start: dict[int, tuple[str, dict[str, Side]]], depth: int | None):
        self.faults = faults
        self.stream = stream
        self.depth = depth
        self.books = {index: Book(sides=sides) for index, (_, sides) in start.items()}
        self.mark = 0
        self.executed: dict[int, int] = {}
        self.lasts: list[int] = []
        self.losses: list[tuple[int, int]] = []  # segment, number
        self.refreshes = 0

    def book(self, index: int) -> Book:
        return self.books.setdefault(index, Book())

    def forget(self, mark: int) -> None:
        """After a restart or a loss no book is known."""
        self.mark = mark
        for book in self.books.values():
            book.known, book.touched = False, 0

    def follow(self, run: list[list[Row]]) -> None:
        if len(run) != len(self.stream):
            self.faults.tell(f"run.csv has {len(run)} restarts, the stream {len(self.stream)} segments")
        for place, truths in enumerate(self.stream):
            if place < len(run):
                self.follow_segment(place + 1, truths, run[place], place + 1 == len(self.stream) or place + 1 == len(run))

    def follow_segment(self, segment: int, truths: list[Truth], rows: list[Row], final: bool) -> None:
        """The rows of one segment; behind its last number the exchange's books go on to its end, unless the run ends there."""
        first = truths[0].number
        if rows[0].number != first or rows[0].rest != ",,":
            self.faults.tell(f"run.csv:{rows[0].line}: a restart at {rows[0].number}, where the stream has {first}")
        self.forget(max(0, first - 1))
        refreshed = self.refreshes_by_number(rows, first - 1)
        self.hold_refreshes(first - 1, refreshed)
        last = first - 1
        for row in rows[1:]:
            if row.event == "refresh":
                self.use_refresh(row, last)
            elif row.event not in ("data", "loss") or row.number != last + 1:
                self.faults.tell(f"run.csv:{row.line}: {row.number},{row.event} where {last + 1} is next")
            elif last + 1 - first >= len(truths):
                self.faults.tell(f"run.csv:{row.line}: {row.number} is behind the stream's end")
            else:
                last = row.number
                self.follow_row(segment, row, truths[last - first])
                self.hold_refreshes(last, refreshed)
        self.lasts.append(last)
        for truth in [] if final else truths[last + 1 - first :]:
            self.apply(truth)

    def follow_row(self, segment: int, row: Row, truth: Truth) -> None:
        declared = "unavailable", "both"
        if row.event == "loss":
            self.losses.append((segment, row.number))
            if truth.fate not in declared or row.rest != ",,":
                self.faults.tell(f"run.csv:{row.line}: {row.number} is lost, its fate was {truth.fate}")
            self.apply(truth)
            self.forget(row.number)
            return
        told = f"{truth.kind},{truth.index or ''},{truth.points}"
        if truth.fate not in ("sent", "both"):
            self.faults.tell(f"run.csv:{row.line}: {row.number} is data, its fate was {truth.fate}")
        if row.rest != told:
            self.faults.tell(f"run.csv:{row.line}: {row.number} is {row.rest[:90]}; true is {told[:90]}")
        self.know(row.number, truth)
        self.count(truth)

    def apply(self, truth: Truth) -> bool:
        """A true message enters its true book; answers whether it stayed within the depth."""
        if truth.kind == "mapping":
            return True
        book = self.book(truth.index)
        if truth.kind == "full":
            book.sides = {"buy": {}, "sell": {}}
        return enter(book.sides, points_of(truth.points), self.depth)

    def know(self, number: int, truth: Truth) -> None:
        fits = self.apply(truth)
        if truth.kind == "mapping":
            return
        book = self.book(truth.index)
        book.known = fits and (book.known or truth.kind == "full")
        book.touched = number

    def count(self, truth: Truth) -> None:
        for point in points_of(truth.points) if truth.kind == "delta" else []:
            if point[4] == "E":
                self.executed[truth.index] = self.executed.get(truth.index, 0) + int(point[5])

    def refreshes_by_number(self, rows: list[Row], before: int) -> dict[int, list[Row]]:
        """The refreshes of a segment by the number as of which they are. One as of a number before the segment's shows no book of it."""
        found: dict[int, list[Row]] = {}
        for row in rows:
            if row.event == "refresh" and row.number >= before:
                found.setdefault(row.number, []).append(row)
        return found

    def hold_refreshes(self, number: int, refreshed: dict[int, list[Row]]) -> None:
        """Each refresh as of this number shows the true book after it."""
        for row in refreshed.get(number, []):
            kind, index, points = row.rest.split(",")
            if kind != "full" or book_of(points_of(points)) != self.book(int(index)).sides:
                self.faults.tell(f"run.csv:{row.line}: the refresh as of {number} is not the true book of {index}")

    def use_refresh(self, row: Row, last: int) -> None:
        self.refreshes += 1
        if row.number > last:
            self.faults.tell(f"run.csv:{row.line}: a refresh as of {row.number}, where last is {last}")
            return
        _, index, points = row.rest.split(",")
        book = self.book(int(index))
        if self.mark <= row.number and book.touched <= row.number:
            book.known = enter({"buy": {}, "sell": {}}, points_of(points), self.depth)

    # What was written at the end

    def judge_books(self, told: dict[int, tuple[str, dict[str, Side]]], owed: int | None) -> int:
        whole = 0
        if set(told) != set(range(1, (owed or len(told)) + 1)):
            self.faults.tell(f"day-book.csv: its {len(told)} books are not those from 1 to {owed or len(told)}")
        for index, (state, sides) in told.items():
            book = self.book(index)
            if state == "partial":
                if sides["buy"] or sides["sell"]:
                    self.faults.tell(f"day-book.csv: book {index} is partial and has levels")
                if book.known and self.depth is not None:
                    self.faults.tell(f"day-book.csv: book {index} is partial, though the run told all of it")
                continue
            whole += 1
            if not book.known:
                self.faults.tell(f"day-book.csv: book {index} is whole, though nothing told all of it since the last restart or loss")
            for side in ("buy", "sell"):
                self.judge_side(index, side, sides[side], book.sides[side])
        return whole

    def judge_side(self, index: int, side: str, told: Side, true: Side) -> None:
        for price in sorted(told.keys() | true.keys()):
            if told.get(price) != true.get(price):
                self.faults.tell(f"day-book.csv: book {index} {side} at {price} billionths is {told.get(price)}; true is {true.get(price)}")

    def judge_tally(self, told: dict[int, int]) -> None:
        for index in sorted(told.keys() | self.executed.keys()):
            if told.get(index) != self.executed.get(index):
                self.faults.tell(f"tally.csv: {index} executed {told.get(index)}; the run's data has {self.executed.get(index)}")

    def reached(self) -> int:
        return sum(last - truths[0].number + 1 for last, truths in zip(self.lasts, self.stream))

    def all_reached(self) -> bool:
        return self.reached() == sum(map(len, self.stream))

    def judge_end(self, truth_dir: Path) -> None:
        """Where all was reached, books and volumes are those that the generator kept beside the stream."""
        if not self.all_reached():
            return
        for index, (_, sides) in read_books(truth_dir / "books.csv", self.faults).items():
            if self.book(index).sides != sides:
                self.faults.tell(f"the truth's books.csv is not where its stream leads: book {index}")
        if not self.losses and read_tally(truth_dir / "tally.csv", self.faults) != self.executed:
            self.faults.tell("nothing was lost, and the executed volume is not the truth's tally.csv")


# The gap log


class GapJudge:
    """Follows the rows of a gap log. A claim belongs to the segment of its time; where that is the millisecond of a reset, to the first
    of the two that it can belong to."""

    def __init__(self, judge: Judge, resets: list[int], faults: Faults):
        self.judge = judge
        self.resets = resets
        self.faults = faults
        self.segment = 1
        self.floor = self.first(1) - 1  # all numbers up to it are known to have been handed on
        self.out: Claim | None = None
        self.claims = 0
        self.time = 0
        self.left_open = False  # a claim was settled with numbers missing, so its segment has ended
        self.losses = 0

    def first(self, segment: int) -> int:
        return self.judge.stream[segment - 1][0].number

    def last(self, segment: int) -> int:
        return self.judge.lasts[segment - 1]

    def advance(self) -> None:
        self.segment += 1
        self.left_open = False
        if self.segment <= len(self.judge.lasts):
            self.floor = self.first(self.segment) - 1

    def follow(self, lines: list[str]) -> None:
        for line, text in enumerate(lines, 2):
            here = f"gap-log.csv:{line}"
            event, channel, serial, begin, end, time, missing, request = text.split(",")
            if event == "loss":
                self.loss(here, (channel, serial, time, missing, request), int(begin), int(end))
                continue
            claim = Claim(channel, int(serial), int(begin), int(end))
            if int(time) < self.time:
                self.faults.tell(f"{here}: the time {time} is before {self.time}")
            self.time = int(time)
            if event == "requested" and missing == "":
                self.requested(here, claim, int(time), bytes.fromhex(request))
            elif event == "settled" and request == "":
                self.settled(here, claim, int(missing))
            else:
                self.faults.tell(f"{here}: no row of a claim: {event}")
        if self.out is not None:
            self.faults.tell(f"gap-log.csv: claim {self.out.serial} is never settled")
        if self.losses != len(self.judge.losses):
            self.faults.tell(f"gap-log.csv has {self.losses} losses, run.csv {len(self.judge.losses)}")

    def loss(self, here: str, empty: tuple[str, ...], begin: int, end: int) -> None:
        if any(empty) or begin != end:
            self.faults.tell(f"{here}: no row of a loss")
        if self.losses >= len(self.judge.losses) or self.judge.losses[self.losses][1] != begin:
            self.faults.tell(f"{here}: the loss of {begin} is not the run's next")
            return
        segment = self.judge.losses[self.losses][0]
        self.losses += 1
        while self.segment < segment:
            self.advance()
        if self.segment > segment or begin <= self.floor:
            self.faults.tell(f"{here}: the loss of {begin}, which a claim before takes for handed on")
        self.floor = max(self.floor, begin)

    def requested(self, here: str, claim: Claim, time: int, request: bytes) -> None:
        self.claims += 1
        if self.out is not None:
            self.faults.tell(f"{here}: claim {claim.serial} while {self.out.serial} is out")
        if claim.serial != self.claims or claim.serial > MOST_CLAIMS:
            self.faults.tell(f"{here}: claim {claim.serial}, where {self.claims} is next")
        if not claim.begin <= claim.end < claim.begin + LONGEST_CLAIM:
            self.faults.tell(f"{here}: the range {claim.begin} to {claim.end}")
        self.judge_request(here, claim, time, request)
        least, most = self.segments_at(time)
        while self.segment < least:
            self.advance()
        while self.segment <= most and not self.may_ask(claim):
            self.advance()
        if self.segment > most:
            self.faults.tell(f"{here}: claim {claim.serial} asks for {claim.begin} at {time}, which was handed on, or was not next")
            raise ValueError("the claims can't be followed further")
        self.out, self.floor = claim, claim.begin - 1

    def segments_at(self, time: int) -> tuple[int, int]:
        """The first and the last segment that a time may belong to."""
        before = sum(reset < time for reset in self.resets)
        until = sum(reset <= time for reset in self.resets)
        return min(before + 1, len(self.judge.lasts)), min(until + 1, len(self.judge.lasts))

    def may_ask(self, claim: Claim) -> bool:
        """Whether the claim's range begins above what was handed on, and at a number that was next in this segment."""
        return not self.left_open and self.floor < claim.begin <= self.last(self.segment) + 1

    def judge_request(self, here: str, claim: Claim, time: int, request: bytes) -> None:
        number = lambda start, end: int.from_bytes(request[start:end], "big")
        fields = len(request), number(0, 2), number(2, 4), number(4, 8), number(8, 12), request[12:16], number(16, 20), number(20, 24)
        if fields != (44, 42, 20, 0, time, bytes([115, 1, 1, 0]), claim.begin, claim.end) or request[24:25] in (b"", b"\0"):
            self.faults.tell(f"{here}: the request does not ask for {claim.begin} to {claim.end} at {time}: {request.hex()}")

    def settled(self, here: str, claim: Claim, missing: int) -> None:
        if self.out != claim:
            self.faults.tell(f"{here}: claim {claim.serial} is settled, out is {self.out}")
            return
        self.out = None
        last = self.last(self.segment)
        if missing == 0:
            self.floor = claim.end
            if claim.end > last:
                self.faults.tell(f"{here}: claim {claim.serial} is settled with nothing missing, where last was never above {last}")
            return
        self.left_open = True
        if not 1 <= missing <= claim.end - max(last, claim.begin - 1):
            self.faults.tell(f"{here}: {missing} of {claim.begin} to {claim.end} are missing, where last was {last} at the segment's end")


def figures(judge: Judge, whole: int | None, books: int, claims: int, service: str) -> str:
    total = sum(map(len, judge.stream))
    parts = [f"last={judge.lasts[-1]} segments={len(judge.lasts)} reached={judge.reached()}/{total} losses={len(judge.losses)}"]
    parts.append(f"refreshes={judge.refreshes}")
    if whole is not None:
        parts.append(f"whole={whole}/{books} known={sum(book.known for book in judge.books.values())}")
    if service == "tally":
        parts.append(f"executed={sum(judge.executed.values())}")
    return " ".join(parts + [f"claims={claims}"])


def judge_replay(options: argparse.Namespace, faults: Faults) -> str:
    truth_dir, out_dir = options.truth, options.out
    start = read_books(truth_dir / "start.csv", faults)
    judge = Judge(faults, read_stream(truth_dir / "stream.csv"), start, options.depth)
    judge.follow(segments_of(read_run(out_dir / "run.csv")))
    if options.complete and not judge.all_reached():
        faults.tell(f"{judge.reached()} numbers were reached, not all")
    gaps = GapJudge(judge, read_resets(truth_dir / "resets.csv"), faults)
    gaps.follow(lines_of(out_dir / "gap-log.csv", GAP_HEADER))
    whole, books = None, 0
    if options.service != "lines":
        told = read_books(out_dir / "day-book.csv", faults)
        whole, books = judge.judge_books(told, options.books), len(told)
    if options.service == "tally":
        judge.judge_tally(read_tally(out_dir / "tally.csv", faults))
    judge.judge_end(truth_dir)
    return figures(judge, whole, books, gaps.claims, options.service)


def main() -> int:
    parser = argparse.ArgumentParser(description=__doc__, formatter_class=argparse.RawDescriptionHelpFormatter)
    parser.add_argument("truth", type=Path, metavar="TRUTH_DIR")
    parser.add_argument("out", type=Path, metavar="OUT_DIR")
    parser.add_argument("--service", choices=("lines", "books", "tally"), default="tally")
    parser.add_argument("--books", type=int)
    parser.add_argument("--depth", type=int)
    parser.add_argument("--complete", action="store_true")
    options = parser.parse_args()
    faults = Faults()
    told = ""
    try:
        told = judge_replay(options, faults)
    except (ValueError, OSError, KeyError, IndexError) as error:
        faults.tell(f"{type(error).__name__}: {error}")
    faults.show()
    if not faults.found:
        print(told)
    return 1 if faults.found else 0


if __name__ == "__main__":
    sys.exit(main())
