#!/usr/bin/env python3
"""Writes a capture of one channel's day, from a seed, and the truth beside it.

The channel's four groups, mixed as they came:
  primary         224.0.59.76:11076   every packet, flag 1, unless the line lost it
  secondary       224.0.59.204:11204  the same packets a little later, with losses of its own
  retransmission  224.0.60.1:11301    resends, flag 2
  refresh         224.0.60.2:11302    refreshes, flag 6 and link flag 1, as of a number not after the last one sent
Noise goes to these groups, to 224.0.61.7:12007 and to hosts; what --others adds, to that group or that port. The clock of the capture stands at the exchange's time.

The true stream (symbols, books, messages) follows from --seed, --packets, --symbols, --depth, --deep, --full, --mapping, --first,
--resets and --gap; the lines from the seed and their own options.

The truth directory gets
  stream.csv  segment,number,type,index,points,fate: the true message of every number, as in run.csv, and its fate: `sent` (by a line or
              a resend), `unavailable` (declared, and on no line), `both` (declared, and sent too), `never` (neither: the run ends there)
  start.csv   the true books before the first number, in the columns of day-book.csv
  books.csv   the true books at the end; a reset leaves the exchange's books as they are
  tally.csv   index,executed over all true messages
  resets.csv  segment,time: when the first copy of the reset came that begins a segment, in milliseconds since midnight
"""
from __future__ import annotations

import argparse
import sys
from datetime import datetime, timezone
from pathlib import Path
from random import Random

sys.path.insert(0, str(Path(__file__).resolve().parent))

from true_feed.frames import GROUPS, LINKS, CaptureFile, Framer
from true_feed.lines import Arrival, Settings, run_day
from true_feed.market import Market
from true_feed.noise import Noise
from true_feed.truth import books_text, write_truth

MOST_LEVELS = 60  # a full update has at most 121 points


def share(text: str) -> float:
    value = float(text)
    if not 0 <= value < 1:
        raise argparse.ArgumentTypeError("a share lies from 0 to below 1")
    return value


def parser() -> argparse.ArgumentParser:
    made = argparse.ArgumentParser(description=__doc__, formatter_class=argparse.RawDescriptionHelpFormatter)
    add = made.add_argument
    add("--seed", type=int, default=1, metavar="N", help="the capture follows from it (default %(default)s)")
    add("--out", type=Path, metavar="FILE.pcap", help="the capture")
    add("--truth", type=Path, metavar="DIR", help="the truth directory")
    add("--packets", type=int, default=2000, metavar="N", help="numbers of the true stream, all segments (default %(default)s)")
    add("--symbols", type=int, default=20, metavar="N", help="indices 1 to N (default %(default)s)")
    add("--depth", type=int, default=40, metavar="N", help=f"most levels of a side, up to {MOST_LEVELS} (default %(default)s)")
    add("--deep", type=int, default=0, metavar="N", help=f"the first N symbols go up to {MOST_LEVELS} levels, over a depth of fewer (default %(default)s)")
    add("--full", type=share, default=0.05, metavar="P", help="share of full updates (default %(default)s)")
    add("--mapping", type=share, default=0.01, metavar="P", help="share of symbol mappings (default %(default)s)")
    add("--first", type=int, default=1, metavar="N", help="first number (default %(default)s)")
    add("--resets", type=int, default=0, metavar="N", help="resets, after which numbers begin again (default %(default)s)")
    add("--gap", type=int, default=1500, metavar="MICROS", help="mean time from one number to the next (default %(default)s)")
    add("--start", default="09:30:00", metavar="TIME", help="time of day of the start (default %(default)s)")
    add("--day", default="2024-03-04", metavar="DAY", help="the day (default %(default)s)")
    lines = made.add_argument_group("lines; places are counted in numbers of the stream")
    add = lines.add_argument
    add("--loss-a", type=share, default=0.08, metavar="P", help="share that the primary line loses, in bursts of 3 (default %(default)s)")
    add("--loss-b", type=share, default=0.08, metavar="P", help="share that the secondary line loses (default %(default)s)")
    add("--lag", type=float, default=1.4, metavar="PLACES", help="how far the secondary line is behind (default %(default)s)")
    add("--reorder", type=float, default=3, metavar="W", help="a tenth of the packets is delayed by up to W places (default %(default)s)")
    add("--resend", type=share, default=0.9, metavar="P", help="share of the numbers lost on both lines that is resent; the others are declared unavailable (default %(default)s)")
    add("--delay", type=float, default=8, metavar="PLACES", help="until a resend or a declaration comes (default %(default)s)")
    add("--late", type=share, default=0.03, metavar="P", help="share of numbers with a resend after both lines brought them (default %(default)s)")
    add("--unavailable", type=share, default=0.001, metavar="P", help="how often a range begins that no line carries (default %(default)s)")
    add("--longest", type=int, default=12, metavar="N", help="longest of these ranges; above 1,000 it is declared in parts (default %(default)s)")
    add("--silent", type=share, default=0.0, metavar="P", help="share of the numbers lost on both lines that never come and are never declared: the run ends there (default %(default)s)")
    add("--refresh", type=share, default=0.02, metavar="P", help="refreshes as of a number (default %(default)s)")
    add("--recover", type=share, default=0.7, metavar="P", help="share of the symbols refreshed after an unavailable range (default %(default)s)")
    add("--replay", type=int, default=0, metavar="N", help="after every N numbers those N are resent in order, which helps a receiver whose shelf was full (default: never)")
    files = made.add_argument_group("file")
    add = files.add_argument
    add("--noise", type=share, default=0.0, metavar="P", help="records of noise to a packet: TCP, ARP, IPv6, fragments, cut records, rubbish to another group, damaged copies; and IP options and trailers (default %(default)s)")
    add("--others", type=share, default=0.0, metavar="P", help="packets of another channel to a packet, which a receiver tells by their group and port alone (default %(default)s)")
    add("--order", choices=("big", "little"), default="little", help="byte order of the file's headers (default %(default)s)")
    add("--unit", choices=("micros", "nanos"), default="micros", help="unit of a time's fraction (default %(default)s)")
    add("--link", choices=tuple(LINKS), default="ethernet", help="link layer; ipv4 is type 228 and raw 101 (default %(default)s)")
    add("--check", action="store_true", help="read capture and truth again and hold them against each other")
    return made


def settings_of(options: argparse.Namespace) -> Settings:
    return Settings(
        loss_a=options.loss_a,
        loss_b=options.loss_b,
        reorder=options.reorder,
        lag=options.lag,
        resend=options.resend,
        delay=options.delay,
        late=options.late,
        unavailable=options.unavailable,
        longest=options.longest,
        silent=options.silent,
        refresh=options.refresh,
        recover=options.recover,
        replay=options.replay,
        gap_micros=options.gap,
    )


def write_capture(options: argparse.Namespace, arrivals: list[Arrival]) -> int:
    """The file with its noise; answers how many records it has."""
    midnight = int(datetime.fromisoformat(options.day).replace(tzinfo=timezone.utc).timestamp())
    rng = Random(f"{options.seed}/frames")
    framer = Framer(options.link, rng)
    options.out.parent.mkdir(parents=True, exist_ok=True)
    with open(options.out, "wb") as out:
        file = CaptureFile(out, options.order, options.unit, options.link, midnight)
        noise = Noise(rng, framer, file, options.link)
        for arrival in arrivals:
            while rng.random() < options.noise:
                noise.write(arrival.nanos - 10_000, arrival)
            if options.others and rng.random() < options.others:
                noise.other(arrival.nanos - 5_000, arrival)
            dressing = noise.dressing() if options.noise else {}
            file.write(arrival.nanos, framer.datagram(GROUPS[arrival.line], arrival.payload, **dressing))
        return file.records


def fault_of(options: argparse.Namespace) -> str | None:
    if options.out is None or options.truth is None:
        return "--out and --truth are needed"
    if not 1 <= options.depth <= MOST_LEVELS:
        return f"--depth lies from 1 to {MOST_LEVELS}"
    if options.packets <= options.resets or options.symbols < 1 or options.symbols > 65_535 or options.longest < 1 or options.gap < 1:
        return "--packets lies above --resets, --symbols from 1 to 65535, --longest and --gap from 1"
    if options.first < 1 or max(options.first, 5001) + options.packets > 2**32:
        return "the numbers fit 32 bits and begin at 1 or above"
    return None


def generate(options: argparse.Namespace) -> str:
    """Capture and truth; answers a line of figures."""
    hours, minutes, seconds = map(int, options.start.split(":"))
    start_nanos = ((hours * 60 + minutes) * 60 + seconds) * 1_000_000_000
    market = Market(Random(f"{options.seed}/market"), options.symbols, options.depth, options.deep, MOST_LEVELS, options.full, options.mapping)
    start = books_text(market.symbols)
    day = run_day(options.seed, market, settings_of(options), options.packets, options.resets, options.first, start_nanos)
    records = write_capture(options, day.arrivals)
    write_truth(options.truth, start, day, market.symbols, market.executed)
    fates = {fate: sum(row.fate == fate for row in day.rows) for fate in ("sent", "unavailable", "both", "never")}
    return f"numbers={len(day.rows)} records={records} " + " ".join(f"{fate}={count}" for fate, count in fates.items())


def main() -> int:
    made = parser()
    options = made.parse_args()
    fault = fault_of(options)
    if fault:
        made.error(fault)
    print(generate(options))
    if options.check:
        from true_feed.check import check

        return check(options.out, options.truth, options.depth, options.deep)
    return 0


if __name__ == "__main__":
    sys.exit(main())
