"""How the true stream reaches a receiver: two lines, resends, unavailable ranges, refreshes and resets, in the order of their arrival."""
from __future__ import annotations

from dataclasses import dataclass, field
from random import Random

from . import messages
from .market import Market
from .messages import LONGEST_RANGE, Message

PRIMARY, SECONDARY, RETRANSMISSION, REFRESH = "primary", "secondary", "retransmission", "refresh"
LINES = (PRIMARY, SECONDARY)
BURST = 3  # mean length of a run of packets that a line loses
DELAYED = 0.1  # share of packets that are delayed by up to --reorder places
TWICE = 0.2  # share of resends that come twice
WIDENED = 0.3  # share of unavailable ranges that cover numbers beside them, which a line carried


@dataclass(slots=True)
class Arrival:
    nanos: int  # time of day
    line: str
    payload: bytes
    number: int  # of data and refreshes, else 0


@dataclass(slots=True)
class TrueRow:
    """A number of the true stream, its message, and what the lines made of it: sent, unavailable, both or never."""

    segment: int
    number: int
    message: Message
    fate: str


@dataclass
class Settings:
    loss_a: float
    loss_b: float
    reorder: float
    lag: float
    resend: float
    delay: float
    late: float
    unavailable: float
    longest: int
    silent: float
    refresh: float
    recover: float
    replay: int
    gap_micros: int


@dataclass
class Plan:
    """What the lines do with the numbers of one segment, by their place in it."""

    lost: dict[str, list[bool]]
    withheld: list[bool]  # declared unavailable, and on no line
    silent: list[bool]  # on no line, and never declared
    resent: list[bool]
    ranges: list[tuple[int, int]] = field(default_factory=list)  # first and last place that is declared
    covered: list[bool] = field(default_factory=list)


def bursts(rng: Random, count: int, share: float, mean: float) -> list[bool]:
    """A run of flags, a share of them set, in bursts."""
    flags = [False] * count
    place = 0
    start = share / mean / max(1e-9, 1 - share)
    while place < count:
        if rng.random() < start:
            while place < count:
                flags[place] = True
                place += 1
                if rng.random() < 1 / mean:
                    break
        place += 1
    return flags


def withheld_places(rng: Random, count: int, settings: Settings) -> list[bool]:
    flags = [False] * count
    place = 0
    while place < count:
        if rng.random() < settings.unavailable:
            length = 1 + rng.randrange(settings.longest) if rng.random() < 0.3 else 1 + rng.randrange(min(5, settings.longest))
            for covered in range(place, min(count, place + length)):
                flags[covered] = True
            place += length
        place += 1
    return flags


def plan(rng: Random, count: int, settings: Settings) -> Plan:
    withheld = withheld_places(rng, count, settings)
    lost = {PRIMARY: bursts(rng, count, settings.loss_a, BURST), SECONDARY: bursts(rng, count, settings.loss_b, BURST)}
    resent = [False] * count
    silent = [False] * count
    for place in range(count):
        if withheld[place] or not (lost[PRIMARY][place] and lost[SECONDARY][place]):
            continue
        silent[place] = rng.random() < settings.silent
        resent[place] = not silent[place] and rng.random() < settings.resend
        withheld[place] = not silent[place] and not resent[place]
    made = Plan(lost, withheld, silent, resent)
    made.ranges = declared_ranges(rng, made, count)
    made.covered = [False] * count
    for first, last in made.ranges:
        for place in range(first, last + 1):
            made.covered[place] = True
    return made


def declared_ranges(rng: Random, made: Plan, count: int) -> list[tuple[int, int]]:
    ranges = []
    place = 0
    while place < count:
        if not made.withheld[place]:
            place += 1
            continue
        first = place
        while place < count and made.withheld[place] and place - first < LONGEST_RANGE:
            place += 1
        last = place - 1
        if last - first < LONGEST_RANGE - 4 and rng.random() < WIDENED:
            first, last = max(0, first - rng.randrange(3)), min(count - 1, last + rng.randrange(3))
        ranges.append((first, last))
    return [pair for pair in ranges if not any(made.silent[pair[0] : pair[1] + 1])]


def fate(made: Plan, place: int) -> str:
    if made.silent[place]:
        return "never"
    if made.withheld[place]:
        return "unavailable" if made.covered[place] else "never"
    return "both" if made.covered[place] else "sent"


class Segment:
    """One run of numbers from a first one, and its arrivals."""

    def __init__(self, rng: Random, market: Market, settings: Settings, serial: int, first: int, count: int, start_nanos: int):
        self.rng = rng
        self.market = market
        self.settings = settings
        self.serial = serial
        self.first = first
        self.count = count
        self.gap = settings.gap_micros * 1000
        self.plan = plan(rng, count, settings)
        self.times = self.send_times(start_nanos)
        self.packets: list[bytes] = []
        self.rows: list[TrueRow] = []
        self.arrivals: list[Arrival] = []
        self.refreshes = self.refresh_places()

    def send_times(self, start: int) -> list[int]:
        times, now = [], start
        for _ in range(self.count):
            now += int(self.gap * (0.5 + self.rng.random()))
            times.append(now)
        return times

    def refresh_places(self) -> dict[int, list[int]]:
        """The symbols that are refreshed, by the place as of which they are."""
        rng, found = self.rng, {}
        symbols = len(self.market.symbols)
        for place in range(self.count):
            if rng.random() < self.settings.refresh:
                found.setdefault(place, []).append(1 + rng.randrange(symbols))
        for _, last in self.plan.ranges:
            for index in range(1, symbols + 1):
                if rng.random() < self.settings.recover:
                    place = min(self.count - 1, last + int(2 * self.settings.delay) + rng.randrange(60))
                    found.setdefault(place, []).append(index)
        return found

    def millis(self, nanos: int) -> int:
        return nanos // 1_000_000

    def add(self, nanos: float, line: str, payload: bytes, number: int = 0) -> None:
        self.arrivals.append(Arrival(int(nanos), line, payload, number))

    def jitter(self) -> float:
        rng = self.rng
        return self.gap * (rng.random() * self.settings.reorder if rng.random() < DELAYED else rng.random() * 0.3)

    def run(self) -> None:
        self.market.open_segment()
        for place in range(self.count):
            self.send(place)
        for first, last in self.plan.ranges:
            self.declare(first, last)
        if self.settings.replay:
            for last in range(self.settings.replay - 1, self.count, self.settings.replay):
                self.replay(last - self.settings.replay + 1, last, self.times[last] + 3 * self.gap)
        self.close()

    def send(self, place: int) -> None:
        """One true message, its copies on the lines, its resends, and the refreshes as of it."""
        rng, now, number = self.rng, self.times[place], self.first + place
        message = self.market.next_message(now // 1000)
        self.rows.append(TrueRow(self.serial, number, message, fate(self.plan, place)))
        packet = messages.data_packet(message, number, self.millis(now))
        self.packets.append(packet)
        for index in self.refreshes.get(place, []):
            self.refresh(index, place)
        if self.plan.withheld[place] or self.plan.silent[place]:
            return
        for line, lag in ((PRIMARY, 0.0), (SECONDARY, self.settings.lag)):
            if not self.plan.lost[line][place]:
                self.add(now + lag * self.gap + self.jitter(), line, packet, number)
        if self.plan.resent[place]:
            self.resend(packet, number, now + self.gap * self.settings.delay * (0.5 + 0.5 * rng.random()))
        elif rng.random() < self.settings.late:
            behind = self.settings.lag + self.settings.reorder + 1 + 8 * rng.random()
            self.resend(packet, number, now + self.gap * behind)

    def resend(self, packet: bytes, number: int, nanos: float) -> None:
        resent = messages.with_flags(packet, messages.RESENT)
        self.add(nanos, RETRANSMISSION, resent, number)
        if self.rng.random() < TWICE:
            self.add(nanos + self.gap * (0.1 + 5 * self.rng.random()), RETRANSMISSION, resent, number)

    def refresh(self, index: int, place: int) -> None:
        now, symbol = self.times[place], self.market.symbols[index - 1]
        message = self.market.full_of(symbol, symbol.levels(), now // 1000, self.rng)
        packet = messages.data_packet(message, self.first + place, self.millis(now))
        packet = messages.with_flags(packet, messages.REFRESH_END, 1)
        behind = 0.2 + (self.settings.lag + self.settings.reorder) * self.rng.random()
        self.add(now + self.gap * behind, REFRESH, packet, self.first + place)

    def unavailable(self, first: int, last: int, nanos: float, flag: int) -> bytes:
        number = min(self.first + last + 1, messages.LARGEST)
        return messages.unavailable_packet(number, self.first + first, self.first + last, self.millis(int(nanos)), flag)

    def declare(self, first: int, last: int) -> None:
        """A range that can't be sent again, told on both lines and repeated."""
        for delay in (self.settings.delay, 2.5 * self.settings.delay, 6 * self.settings.delay):
            told = self.times[last] + self.gap * delay * (0.5 + 0.5 * self.rng.random())
            packet = self.unavailable(first, last, told, messages.ORIGINAL)
            for line, lag in ((PRIMARY, 0.0), (SECONDARY, self.settings.lag)):
                self.add(told + lag * self.gap + self.jitter(), line, packet)

    def replay(self, first: int, last: int, nanos: float) -> None:
        """Everything of the places from first to last once more, in order, on the retransmission line."""
        step = self.gap // 20
        ranges = {begin: end for begin, end in self.plan.ranges}
        for place in range(first, last + 1):
            nanos += step
            if place in ranges:
                self.add(nanos, RETRANSMISSION, self.unavailable(place, ranges[place], nanos, messages.RESENT))
                nanos += step
            if not self.plan.withheld[place] and not self.plan.silent[place]:
                self.add(nanos, RETRANSMISSION, messages.with_flags(self.packets[place], messages.RESENT), self.first + place)

    def close(self) -> None:
        """At the end each range is told once more, in order, so that no receiver is left waiting for it."""
        end = max((arrival.nanos for arrival in self.arrivals), default=self.times[-1]) + self.gap
        for first, last in self.plan.ranges:
            packet = self.unavailable(first, last, end, messages.ORIGINAL)
            self.add(end, PRIMARY, packet)
            self.add(end + self.gap // 4, SECONDARY, packet)
            end += self.gap // 2
        if self.settings.replay:
            self.replay(max(0, self.count - 2 * self.settings.replay), self.count - 1, end)

    def last_nanos(self) -> int:
        return max(self.times[-1], max((arrival.nanos for arrival in self.arrivals), default=0))


def reset_arrivals(rng: Random, nanos: int, gap: int, next_number: int) -> list[Arrival]:
    """Both copies of a reset. The second may come after the first data of the new run."""
    packet = messages.reset_packet(max(1, next_number - 1), next_number, nanos // 1_000_000)
    second = nanos + int(gap * (0.2 + 3 * rng.random()))
    return [Arrival(nanos, PRIMARY, packet, 0), Arrival(second, SECONDARY, packet, 0)]


@dataclass
class RunDay:
    """All segments of a day: the true rows, the arrivals in order of their time, and when each segment but the first began."""

    rows: list[TrueRow] = field(default_factory=list)
    arrivals: list[Arrival] = field(default_factory=list)
    resets: list[int] = field(default_factory=list)


def run_day(seed: int, market: Market, settings: Settings, packets: int, resets: int, first: int, start_nanos: int) -> RunDay:
    rng, day = Random(f"{seed}/lines"), RunDay()
    share, now = packets // (resets + 1), start_nanos
    for serial in range(1, resets + 2):
        count = share if serial <= resets else packets - share * resets
        segment = Segment(rng, market, settings, serial, first, max(1, count), now)
        segment.run()
        day.rows.extend(segment.rows)
        day.arrivals.extend(segment.arrivals)
        now = segment.last_nanos() + 50 * segment.gap
        if serial <= resets:
            first = (1, 2, 1, 5001)[rng.randrange(4)]
            day.arrivals.extend(reset_arrivals(rng, now, segment.gap, first))
            day.resets.append(now)
            now += segment.gap
    day.arrivals.sort(key=lambda arrival: arrival.nanos)
    return day
