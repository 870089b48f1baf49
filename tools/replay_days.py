#!/usr/bin/env python3
"""Generates twenty captures with their truths, replays each over four shelves, and judges every replay.

It stands outside the gate. The program is crates/replay/out/replay, where `rt run` puts it; if it is not there it is built first
(`cd crates/replay && rt run -- --help`). It is run with 256 books of 64 levels a side, or of the depth that the capture is about. A table is printed, a row for each replay:

  capture, shelf, records, last, reached (numbers that had their turn, out of all), losses, whole books out of the symbols, executed, verdict

The exit status is 1 if one fails. Over the widest shelf each capture must be reached to its end, unless it has numbers that never come.
Verdicts: ok; FAILED with what the judge says below the row.
"""
from __future__ import annotations

import argparse
import shlex
import subprocess
import sys
import tempfile
from dataclasses import dataclass
from pathlib import Path

ROOT = Path(__file__).resolve().parent.parent
PROGRAM = ROOT / "crates/replay/out/replay"
GROUPS = "--group 224.0.59.76 --group 224.0.59.204 --group 224.0.60.1 --group 224.0.60.2 --port 11076 --port 11204 --port 11301 --port 11302"
WIDEST = "chain=65535"
SHELVES = {
    "slots": "--shelf slots",
    WIDEST: "--shelf chain=65535",
    "chain=300": "--shelf chain=300",
    "chain=2000 quotas": "--shelf chain=2000 --quota 500 --quota 100",
}
BOOKS, DEPTH = 256, 64
SLOW = "--delay 60 --replay 150 --reorder 12"  # shelves fill, and resends in order help on
READERS = ["tcpdump -n -r", "tshark -n -q -z io,phs -r"]
# What they tell of every file: tcpdump names the interfaces of a `cooked2` file by those of the machine it runs on, and says so.
QUIET = ("reading from file", "Running as user", "Warning: interface names might be incorrect")


@dataclass
class Day:
    name: str
    generator: str
    replay: str = ""
    depth: int = DEPTH
    ends: bool = True  # nothing is silent, so a wide shelf reaches the end

    def symbols(self) -> int:
        words = self.generator.split()
        return int(words[words.index("--symbols") + 1]) if "--symbols" in words else 20


DAYS = [
    Day("calm", "--loss-a 0 --loss-b 0 --unavailable 0 --reorder 0 --late 0"),
    Day("one-line", "--loss-a 0 --loss-b 0.9 --unavailable 0 --order big"),
    Day("losses", "--loss-a 0.2 --loss-b 0.2 --unavailable 0.003 --unit nanos --delay 25"),
    Day("unavailable", "--unavailable 0.01 --longest 30 --order big --unit nanos"),
    Day("late", "--late 0.6 --loss-a 0.15 --loss-b 0.15"),
    Day("vlan", "--link vlan --noise 0.1"),
    Day("ipv4", "--link ipv4 --noise 0.1 --order big"),
    Day("raw", "--link raw --noise 0.1 --unit nanos"),
    Day("cooked", "--link cooked --noise 0.1 --order big --unit nanos"),
    Day("cooked2", "--link cooked2 --noise 0.1"),
    Day("noise", f"{SLOW} --noise 0.5 --packets 3000"),
    Day("others", "--others 0.3 --noise 0.1", GROUPS),
    Day("resets", "--resets 5 --packets 4000 --unavailable 0.002"),
    Day("reset-noise", "--resets 3 --noise 0.2 --link vlan --order big --unit nanos --unavailable 0.003 --delay 20"),
    Day("deep", "--deep 8 --packets 6000 --full 0.02 --unavailable 0.0003", depth=40),
    Day("shallow", "--depth 4 --symbols 200 --packets 8000", depth=4),
    Day("outages", "--unavailable 0.0005 --longest 4000 --packets 14000 --refresh 0.1 --recover 0.95"),
    Day("slow", f"{SLOW} --loss-a 0.15 --loss-b 0.15 --unavailable 0.002 --packets 6000"),
    Day("silent", "--silent 0.3 --loss-a 0.15 --loss-b 0.15 --resets 6 --packets 3000", ends=False),
    Day("largest", "--first 4294959296 --packets 8000 --symbols 3 --loss-a 0.12 --loss-b 0.12", "--first 4294959296"),
]


def run(words: list[str]) -> subprocess.CompletedProcess[str]:
    return subprocess.run(words, capture_output=True, text=True, errors="replace")


def program(given: Path | None) -> Path:
    """The replay's program, built where it is not there."""
    found = given or PROGRAM
    if given is None and not found.exists():
        subprocess.run(["nice", "-n", "10", "rt", "run", "--", "--help"], cwd=ROOT / "crates/replay", stdout=subprocess.DEVNULL)
    if not found.exists():
        sys.exit(f"there is no program {found}")
    return found.resolve()


def generate(day: Day, seed: int, folder: Path) -> str:
    """The capture and its truth; answers how many records it has."""
    words = [sys.executable, str(ROOT / "tools/generate_capture.py"), "--seed", str(seed), "--check"]
    made = run([*words, "--out", str(folder / f"{day.name}.pcap"), "--truth", str(folder / day.name), *shlex.split(day.generator)])
    if made.returncode != 0:
        sys.exit(f"{day.name}: the capture was not made\n{made.stdout}{made.stderr}")
    return figure(made.stdout, "records")


def figure(text: str, name: str) -> str:
    for word in text.split():
        if word.startswith(name + "="):
            return word.partition("=")[2]
    return "-"


def read_by_others(day: Day, folder: Path) -> list[str]:
    """What tcpdump and tshark complain of."""
    complaints = []
    for reader in READERS:
        done = run([*shlex.split(reader), str(folder / f"{day.name}.pcap")])
        told = [line for line in done.stderr.splitlines() if line and not line.startswith(QUIET)]
        if done.returncode != 0 or told:
            complaints.append(f"{reader}: status {done.returncode} {told}")
    return complaints


def replay(day: Day, shelf: str, binary: Path, folder: Path) -> tuple[str, str]:
    """The judge's figures, and what is wrong."""
    out = folder / f"{day.name}.{shelf.replace(' ', '-')}"
    out.mkdir(exist_ok=True)
    sizes = ["--books", str(BOOKS), "--depth", str(day.depth)]
    options = [*shlex.split(SHELVES[shelf]), *shlex.split(day.replay), *sizes]
    done = run([str(binary), *options, "--out", str(out), str(folder / f"{day.name}.pcap")])
    if done.returncode != 0:
        return "", f"replay ended with {done.returncode}\n{done.stdout[-500:]}{done.stderr[-500:]}"
    words = [sys.executable, str(ROOT / "tools/judge_replay.py"), *sizes, str(folder / day.name), str(out)]
    if shelf == WIDEST and day.ends:
        words.append("--complete")
    judged = run(words)
    return (judged.stdout, "") if judged.returncode == 0 else ("", judged.stdout + judged.stderr)


def row(*columns: str) -> str:
    widths = (12, 18, 8, 11, 12, 7, 8, 15, 8)
    return "".join(text.ljust(width) if place < 2 else text.rjust(width) + " " for place, (text, width) in enumerate(zip(columns, widths))).rstrip()


def run_day(day: Day, seed: int, binary: Path, folder: Path, readers: bool) -> int:
    records, failed = generate(day, seed, folder), 0
    for complaint in read_by_others(day, folder) if readers else []:
        print(f"{day.name}: {complaint}")
        failed += 1
    for shelf in SHELVES:
        told, wrong = replay(day, shelf, binary, folder)
        failed += wrong != ""
        whole = figure(told, "whole").partition("/")[0] + f"/{day.symbols()}"
        last, reached, losses, executed = (figure(told, name) for name in ("last", "reached", "losses", "executed"))
        print(row(day.name, shelf, records, last, reached, losses, whole, executed, "FAILED" if wrong else "ok"), flush=True)
        if wrong:
            print(wrong)
    return failed


def main() -> int:
    parser = argparse.ArgumentParser(description=__doc__, formatter_class=argparse.RawDescriptionHelpFormatter)
    parser.add_argument("--replay", type=Path, metavar="PATH", help="the program (default: crates/replay/out/replay)")
    parser.add_argument("--seed", type=int, default=1, metavar="N", help="of the first capture, the others count on (default 1)")
    parser.add_argument("--only", action="append", metavar="CAPTURE", help="this capture alone; may be given again")
    parser.add_argument("--keep", type=Path, metavar="DIR", help="keep captures, truths and what was written in this directory")
    parser.add_argument("--readers", action="store_true", help="see too that tcpdump and tshark read each capture without a complaint")
    options = parser.parse_args()
    binary, failed = program(options.replay), 0
    print(row("capture", "shelf", "records", "last", "reached", "losses", "whole", "executed", "verdict"))
    with tempfile.TemporaryDirectory() as temporary:
        folder = options.keep or Path(temporary)
        folder.mkdir(parents=True, exist_ok=True)
        for place, day in enumerate(DAYS):
            if not options.only or day.name in options.only:
                failed += run_day(day, options.seed + place, binary, folder, options.readers)
    print(f"{failed} failed" if failed else "all as owed")
    return 1 if failed else 0


if __name__ == "__main__":
    sys.exit(main())
