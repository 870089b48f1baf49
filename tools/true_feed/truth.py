"""The truth beside a capture, as CSV files."""
from __future__ import annotations

from pathlib import Path

from .lines import RunDay, TrueRow
from .market import Symbol
from .messages import price_text, row_text

STREAM_HEADER = "segment,number,type,index,points,fate\n"
BOOK_HEADER = "index,state,side,level,price,volume,orders\n"
TALLY_HEADER = "index,executed\n"
RESET_HEADER = "segment,time\n"


def stream_text(rows: list[TrueRow]) -> str:
    return STREAM_HEADER + "".join(f"{row.segment},{row.number},{row_text(row.message)},{row.fate}\n" for row in rows)


def book_text(symbol: Symbol) -> str:
    lines = []
    for side, word in (("B", "buy"), ("S", "sell")):
        for level, price in enumerate(symbol.best_first(side), 1):
            volume, orders = symbol.sides[side][price]
            lines.append(f"{symbol.index},whole,{word},{level},{price_text(price)},{volume},{orders}\n")
    return "".join(lines) or f"{symbol.index},whole,,,,,\n"


def books_text(symbols: list[Symbol]) -> str:
    return BOOK_HEADER + "".join(map(book_text, symbols))


def tally_text(executed: dict[int, int]) -> str:
    return TALLY_HEADER + "".join(f"{index},{executed[index]}\n" for index in sorted(executed))


def resets_text(resets: list[int]) -> str:
    return RESET_HEADER + "".join(f"{segment},{nanos // 1_000_000}\n" for segment, nanos in enumerate(resets, 2))


def write_truth(folder: Path, start: str, day: RunDay, symbols: list[Symbol], executed: dict[int, int]) -> None:
    folder.mkdir(parents=True, exist_ok=True)
    (folder / "start.csv").write_text(start)
    (folder / "stream.csv").write_text(stream_text(day.rows))
    (folder / "resets.csv").write_text(resets_text(day.resets))
    (folder / "books.csv").write_text(books_text(symbols))
    (folder / "tally.csv").write_text(tally_text(executed))
