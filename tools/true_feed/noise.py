"""What a capture has beside the channel's packets. None of it may change what a receiver makes of the channel:
frames that carry no whole UDP datagram, some with a false packet inside, and datagrams that the reader or the channel refuses."""
from __future__ import annotations

import struct
from random import Random
from typing import Callable

from . import messages
from .frames import ARP, GROUPS, IPV4, IPV6, MORE_FRAGMENTS, OTHER_GROUP, TCP, UDP, CaptureFile, Framer, checksum, ipv4, packed_address, udp
from .lines import Arrival

ROUTER_ALERT = b"\x94\x04\x00\x00"


def falsified(packet: bytes, rng: Random) -> bytes:
    """A packet that reads well and is false: were it taken, the run would show it."""
    kind = struct.unpack(">H", packet[2:4])[0]
    if kind == messages.DELTA:
        return packet[:38] + struct.pack(">I", 1 + rng.randrange(9999)) + packet[42:]
    if kind == messages.FULL and len(packet) > 46:
        return packet[:50] + struct.pack(">I", 1 + rng.randrange(9999)) + packet[54:]
    return packet


def put(packet: bytes, offset: int, data: bytes) -> bytes:
    return packet[:offset] + data + packet[offset + len(data) :]


def damaged(packet: bytes, rng: Random) -> bytes:
    """A copy that the reader refuses, or the channel in any state."""
    kind = struct.unpack(">H", packet[2:4])[0]
    ways: list[Callable[[], bytes]] = [
        lambda: packet[: rng.randrange(len(packet))],
        lambda: packet + rng.randbytes(1 + rng.randrange(20)),
        lambda: packet + bytes(messages_too_long(packet)),
        lambda: put(packet, 12, bytes([(115, 116, 0, 130)[1 + rng.randrange(3)]])),
        lambda: put(packet, 2, struct.pack(">H", (2, 10, 24, 229, 999)[rng.randrange(5)])),
        lambda: put(packet, 13, bytes([(0, 3, 4, 7, 129, 255)[rng.randrange(6)]])),
        lambda: messages.header(16, 2, 0, 34_200_000, 1, 0, 0),
    ]
    if kind == messages.DELTA:
        ways += [lambda: put(packet, 33, b"\x0a"), lambda: put(packet, 48, b"b"), lambda: put(packet, 49, b"Q")]
    if kind == messages.FULL:
        ways += [lambda: put(packet, 42, b"\xff"), lambda: messages.with_flags(packet, messages.REFRESH_PART, 2)]
    if kind == messages.UNAVAILABLE:
        ways += [lambda: put(packet, 16, bytes(4)), lambda: put(packet, 20, bytes(4))]
    return ways[rng.randrange(len(ways))]()


def messages_too_long(packet: bytes) -> int:
    return 1501 - len(packet) + 7


class Noise:
    """Writes a record of noise at a time, made from a packet that is near."""

    def __init__(self, rng: Random, framer: Framer, file: CaptureFile, link: str):
        self.rng = rng
        self.framer = framer
        self.file = file
        self.kinds = [self.damaged, self.rubbish, self.tcp, self.fragment, self.last_fragment, self.truncated, self.short_udp]
        if link not in ("ipv4", "raw"):
            self.kinds.append(self.arp)
        if link != "ipv4":
            self.kinds.append(self.ipv6)
        self.kinds += [self.damaged, self.damaged]

    def write(self, nanos: int, near: Arrival) -> None:
        self.kinds[self.rng.randrange(len(self.kinds))](nanos, near)

    def damaged(self, nanos: int, near: Arrival) -> None:
        self.file.write(nanos, self.framer.datagram(GROUPS[near.line], damaged(near.payload, self.rng)))

    def rubbish(self, nanos: int, near: Arrival) -> None:
        """A datagram to another group, that is no packet of the feed."""
        payload = bytearray(self.rng.randbytes(self.rng.randrange(300)))
        payload[12:13] = b"\x00"[: len(payload[12:13])]
        self.file.write(nanos, self.framer.datagram(OTHER_GROUP, bytes(payload)))

    def tcp(self, nanos: int, near: Arrival) -> None:
        source, target = packed_address("198.140.33.20"), packed_address("198.140.33.3")
        made = struct.pack(">HHIIHHHH", 41_500, 5_100, self.rng.getrandbits(32), self.rng.getrandbits(32), 0x5018, 8_192, 0, 0) + near.payload
        summed = checksum(source + target + struct.pack(">BBH", 0, TCP, len(made)) + made)
        made = made[:16] + struct.pack(">H", summed) + made[18:]
        self.framer.serial += 1
        packet = ipv4(source, target, TCP, made, self.framer.serial)
        self.file.write(nanos, self.framer.frame(IPV4, packet, target, source))

    def fragment(self, nanos: int, near: Arrival) -> None:
        """A first fragment that has a whole datagram of a false packet in it."""
        source, group, port = GROUPS[near.line]
        addresses = packed_address(source), packed_address(group)
        made = udp(*addresses, port, falsified(near.payload, self.rng), False)
        made += bytes(-len(made) % 8)
        self.framer.serial += 1
        packet = ipv4(*addresses, UDP, made, self.framer.serial, MORE_FRAGMENTS)
        self.file.write(nanos, self.framer.frame(IPV4, packet, addresses[1], addresses[0]))

    def last_fragment(self, nanos: int, near: Arrival) -> None:
        """A later fragment, whose bytes look like a datagram of a false packet."""
        self.file.write(nanos, self.framer.datagram(GROUPS[near.line], falsified(near.payload, self.rng), fragment=0x00B9))

    def truncated(self, nanos: int, near: Arrival) -> None:
        """A record that was cut when it was captured: of the frame, or of what came behind a false packet."""
        frame = self.framer.datagram(GROUPS[near.line], falsified(near.payload, self.rng))
        kept = len(frame) if self.rng.random() < 0.3 else 20 + self.rng.randrange(len(frame) - 20)
        self.file.write(nanos, frame[:kept], len(frame) + (4 if kept == len(frame) else 0))

    def short_udp(self, nanos: int, near: Arrival) -> None:
        """A datagram without a payload."""
        self.file.write(nanos, self.framer.datagram(GROUPS[near.line], b""))

    def arp(self, nanos: int, near: Arrival) -> None:
        source, target = packed_address("198.140.33.20"), packed_address("198.140.33.3")
        mac = b"\x02\x00" + source
        packet = struct.pack(">HHBBH", 1, IPV4, 6, 4, 1) + mac + source + bytes(6) + target
        self.file.write(nanos, self.framer.frame(ARP, packet, target, source))

    def ipv6(self, nanos: int, near: Arrival) -> None:
        """The same payload in UDP over IPv6."""
        source = bytes.fromhex("20010db8000000000000000000000001")
        target = bytes.fromhex("ff0e0000000000000000000000000076")
        payload = falsified(near.payload, self.rng)
        length = 8 + len(payload)
        made = struct.pack(">HHHH", 41_000, 11_076, length, 0) + payload
        summed = checksum(source + target + struct.pack(">IHBB", length, 0, 0, 17) + made) or 65_535
        made = made[:6] + struct.pack(">H", summed) + made[8:]
        packet = struct.pack(">IHBB", 6 << 28, length, 17, 16) + source + target + made
        self.file.write(nanos, self.framer.frame(IPV6, packet, target[-4:], source[-4:]))

    def other(self, nanos: int, near: Arrival) -> None:
        """A packet that reads well and is not this channel's: to another group, or to another port of a group."""
        source, group, port = GROUPS[near.line]
        place = (source, OTHER_GROUP[1], port) if self.rng.random() < 0.5 else (source, group, OTHER_GROUP[2])
        self.file.write(nanos, self.framer.datagram(place, falsified(near.payload, self.rng)))

    def dressing(self) -> dict[str, bytes]:
        """Options and a trailer that some of the true frames have in a noisy capture."""
        if self.rng.random() >= 0.1:
            return {}
        if self.rng.random() < 0.5:
            return {"options": ROUTER_ALERT}
        return {"trailer": self.rng.randbytes(4)} if self.framer.link in ("ethernet", "vlan") else {}
