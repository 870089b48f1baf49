"""The channel's messages, as bytes (docs/PACKETS.md) and as rows of a run."""
from __future__ import annotations

import struct
from dataclasses import dataclass, field

BILLION = 1_000_000_000
LARGEST = 2**32 - 1

ORIGINAL, RESENT, REFRESH_PART, REFRESH_END = 1, 2, 5, 6
RESET, UNAVAILABLE, MAPPING, FULL, DELTA = 1, 5, 35, 230, 231
PRODUCT = 115
LONGEST_RANGE = 1000
MOST_FULL_POINTS = 121
MOST_DELTA_POINTS = 52

# side, price in billionths, volume, orders; a delta's point has reason, changed quantity and link behind them
FullPoint = tuple[str, int, int, int]
DeltaPoint = tuple[str, int, int, int, str, int, int]


@dataclass(slots=True)
class Message:
    """A data message of the true stream, without its number."""

    kind: str
    index: int
    scale: int = 0
    points: list = field(default_factory=list)
    body: bytes = b""


def price_text(price: int) -> str:
    return f"{price // BILLION}.{price % BILLION:09d}"


def point_text(point: tuple) -> str:
    side = "buy" if point[0] == "B" else "sell"
    return " ".join([side, price_text(point[1]), *map(str, point[2:])])


def row_text(message: Message) -> str:
    """The columns type, index and points."""
    if message.kind == "mapping":
        return "mapping,,"
    return f"{message.kind},{message.index}," + ";".join(map(point_text, message.points))


def scales_for(prices: list[int]) -> list[int]:
    """The scales at which every one of the prices has a numerator of 32 bits."""
    fitting = []
    for scale in range(10):
        unit = 10 ** (9 - scale)
        if all(price % unit == 0 and price // unit <= LARGEST for price in prices):
            fitting.append(scale)
    return fitting


def header(size: int, kind: int, number: int, millis: int, flag: int, entries: int, link_flag: int) -> bytes:
    return struct.pack(">HHIIBBBB", size - 2, kind, number, millis, PRODUCT, flag, entries, link_flag)


def full_body(index: int, symbol: bytes, scale: int, points: list[FullPoint], micros: int, serial: int) -> bytes:
    unit = 10 ** (9 - scale)
    size = 30 + 12 * len(points)
    fixed = struct.pack(">HHIHIB11sBBBB", size, index, micros // 1000, micros % 1000, serial, 1, symbol, scale, 0x20, 0x4F, 0)
    return fixed + b"".join(
        struct.pack(">IIHcB", price // unit, volume, orders, side.encode(), 0) for side, price, volume, orders in points
    )


def delta_body(index: int, scale: int, points: list[DeltaPoint], micros: int, serial: int) -> bytes:
    unit = 10 ** (9 - scale)
    size = 18 + 28 * len(points)
    fixed = struct.pack(">HHIHIBBBB", size, index, micros // 1000, micros % 1000, serial, 1, 0x20, 0x4F, scale)
    return fixed + b"".join(
        struct.pack(">IIIHccIII", price // unit, volume, changed, orders, side.encode(), reason.encode(), link, 0, 0)
        for side, price, volume, orders, reason, changed, link in points
    )


def mapping_body(index: int, symbol: bytes) -> bytes:
    return struct.pack(">H11sB", index, symbol, 0)


def data_packet(message: Message, number: int, millis: int) -> bytes:
    kind = {"mapping": MAPPING, "full": FULL, "delta": DELTA}[message.kind]
    return header(16 + len(message.body), kind, number, millis, ORIGINAL, max(1, len(message.points)), 0) + message.body


def with_flags(packet: bytes, flag: int, link_flag: int = 0) -> bytes:
    return packet[:13] + bytes([flag, packet[14], link_flag]) + packet[16:]


def reset_packet(number: int, next_number: int, millis: int) -> bytes:
    return header(20, RESET, number, millis, ORIGINAL, 1, 0) + struct.pack(">I", next_number)


def unavailable_packet(number: int, begin: int, end: int, millis: int, flag: int = ORIGINAL) -> bytes:
    return header(24, UNAVAILABLE, number, millis, flag, 1, 0) + struct.pack(">II", begin, end)
