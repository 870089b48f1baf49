"""A pcap file and the frames in it: link layer, IPv4 and UDP, with right checksums."""
from __future__ import annotations

import struct
from random import Random
from typing import BinaryIO

from .lines import PRIMARY, REFRESH, RETRANSMISSION, SECONDARY

# line: source address, multicast group, port
GROUPS: dict[str, tuple[str, str, int]] = {
    PRIMARY: ("198.140.33.1", "224.0.59.76", 11076),
    SECONDARY: ("198.140.33.2", "224.0.59.204", 11204),
    RETRANSMISSION: ("198.140.33.3", "224.0.60.1", 11301),
    REFRESH: ("198.140.33.4", "224.0.60.2", 11302),
}
OTHER_GROUP = ("198.140.33.9", "224.0.61.7", 12007)
SOURCE_PORT = 41_000
LINKS = {"ethernet": 1, "vlan": 1, "ipv4": 228, "raw": 101, "cooked": 113, "cooked2": 276}
SNAP = 262_144
SMALLEST_ETHERNET = 60
IPV4, IPV6, ARP = 0x0800, 0x86DD, 0x0806
TCP, UDP = 6, 17
MORE_FRAGMENTS = 0x2000


def packed_address(text: str) -> bytes:
    return bytes(map(int, text.split(".")))


def checksum(data: bytes) -> int:
    """The internet checksum: the sum of the 16-bit words is the number itself modulo 65,535."""
    if len(data) % 2:
        data += b"\0"
    total = int.from_bytes(data, "big")
    rest = total % 65_535
    return 65_535 - (65_535 if rest == 0 and total else rest)


def udp(source: bytes, group: bytes, port: int, payload: bytes, with_sum: bool) -> bytes:
    length = 8 + len(payload)
    made = struct.pack(">HHHH", SOURCE_PORT, port, length, 0) + payload
    if not with_sum:
        return made
    pseudo = source + group + struct.pack(">BBH", 0, UDP, length)
    return made[:6] + struct.pack(">H", checksum(pseudo + made) or 65_535) + made[8:]


def ipv4(source: bytes, group: bytes, protocol: int, body: bytes, serial: int, fragment: int = 0, options: bytes = b"") -> bytes:
    words = 5 + len(options) // 4
    head = struct.pack(">BBHHHBBH", 0x40 + words, 0, 4 * words + len(body), serial & 0xFFFF, fragment, 16, protocol, 0) + source + group + options
    return head[:10] + struct.pack(">H", checksum(head)) + head[12:] + body


def multicast_mac(group: bytes) -> bytes:
    return bytes([1, 0, 0x5E, group[1] & 0x7F, group[2], group[3]])


class Framer:
    """Puts IP packets into frames of one link type."""

    def __init__(self, link: str, rng: Random):
        self.link = link
        self.rng = rng
        self.serial = 0

    def datagram(self, place: tuple[str, str, int], payload: bytes, fragment: int = 0, options: bytes = b"", trailer: bytes = b"") -> bytes:
        source, group = packed_address(place[0]), packed_address(place[1])
        self.serial += 1
        body = udp(source, group, place[2], payload, self.rng.random() < 0.9)
        return self.frame(IPV4, ipv4(source, group, UDP, body, self.serial, fragment, options), group, source, trailer)

    def frame(self, kind: int, packet: bytes, group: bytes, source: bytes, trailer: bytes = b"") -> bytes:
        mac = b"\x02\x00" + source
        if self.link in ("ethernet", "vlan"):
            made = multicast_mac(group) + mac + self.tags() + struct.pack(">H", kind) + packet
            made += bytes(max(0, SMALLEST_ETHERNET - len(made)))
            return made + trailer
        if self.link == "cooked":
            return struct.pack(">HHH6sHH", 2, 1, 6, mac, 0, kind) + packet
        if self.link == "cooked2":
            return struct.pack(">HHIHBB6sH", kind, 0, 3, 1, 2, 6, mac, 0) + packet
        return packet

    def tags(self) -> bytes:
        if self.link != "vlan":
            return b""
        outer = struct.pack(">HH", 0x88A8, 7) if self.rng.random() < 0.1 else b""
        return outer + struct.pack(">HH", 0x8100, 0x6000 | 76)


class CaptureFile:
    """Writes records with rising times."""

    def __init__(self, out: BinaryIO, order: str, unit: str, link: str, midnight: int):
        self.out = out
        self.nanos = unit == "nanos"
        self.least = 1 if self.nanos else 1000
        self.midnight = midnight
        self.before = -1
        self.records = 0
        mark = ">" if order == "big" else "<"
        self.head = struct.Struct(mark + "IIII")
        magic = 0xA1B23C4D if self.nanos else 0xA1B2C3D4
        out.write(struct.pack(mark + "IHHiIII", magic, 2, 4, 0, 0, SNAP, LINKS[link]))

    def write(self, nanos: int, frame: bytes, original: int | None = None) -> None:
        """A record at a time of day; where `original` is given, the frame was cut when it was captured."""
        nanos = max(nanos - nanos % self.least, self.before + self.least)
        self.before = nanos
        seconds, rest = divmod(nanos, 1_000_000_000)
        fraction = rest if self.nanos else rest // 1000
        self.out.write(self.head.pack(self.midnight + seconds, fraction, len(frame), len(frame) if original is None else original))
        self.out.write(frame)
        self.records += 1
