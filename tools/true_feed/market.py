"""The exchange: true books of every symbol and a random true message for each number."""
from __future__ import annotations

from dataclasses import dataclass
from random import Random

from . import messages
from .messages import LARGEST, Message

# tick in billionths, lowest and highest price of a book's middle in ticks. The scales of a message follow from its prices.
GRIDS = [
    (10_000_000, 500, 3_000),  # cents, 5 to 30 dollars: scales 2 to 8
    (10_000_000, 3_000, 90_000),  # cents, 30 to 900 dollars: scales 2 to 6
    (1_000_000_000, 60, 800),  # whole dollars: scales 0 to 6
    (100_000, 9_000, 30_000),  # hundredths of a cent, 0.9 to 3 dollars: scales 4 to 9
    (1, 100_000_000, 3_000_000_000),  # billionths, below 4 dollars: scale 9 alone
    (50_000_000, 300, 2_000),  # five cents, 15 to 100 dollars: scales 2 to 7
]
MOST_ORDERS = 65_535

Side = dict[int, tuple[int, int]]  # volume and orders of each price in billionths


@dataclass(slots=True)
class Symbol:
    index: int
    name: bytes
    tick: int
    middle: int
    lot: int
    target: int
    deepest: int
    sides: dict[str, Side]
    serial: int = 0

    def price(self, side: str, steps: int) -> int:
        return (self.middle - steps if side == "B" else self.middle + steps) * self.tick

    def best_first(self, side: str) -> list[int]:
        return sorted(self.sides[side], reverse=side == "B")

    def levels(self) -> list[messages.FullPoint]:
        """Every level as a full update's point, buys before sells and the best first."""
        return [(side, price, *self.sides[side][price]) for side in "BS" for price in self.best_first(side)]


def enter(symbol: Symbol, point: tuple) -> None:
    """What a point does to the true book."""
    side, price, volume, orders = point[:4]
    if volume == 0:
        symbol.sides[side].pop(price, None)
    else:
        symbol.sides[side][price] = (volume, orders)


class Market:
    """The symbols of one channel. `micros` is the time of day of the message that is made."""

    def __init__(self, rng: Random, symbols: int, depth: int, deep: int, deepest: int, full_share: float, mapping_share: float):
        self.rng = rng
        self.full_share = full_share
        self.mapping_share = mapping_share
        self.link = 900
        self.executed: dict[int, int] = {}
        self.symbols = [self.new_symbol(index, depth, deepest if index <= deep else 0) for index in range(1, symbols + 1)]
        self.owed: list[int] = []

    def new_symbol(self, index: int, depth: int, over: int) -> Symbol:
        """A symbol with books of its own; `over` is above 0 where they go beyond the depth."""
        rng, deepest = self.rng, max(depth, over)
        tick, low, high = GRIDS[(index - 1) % len(GRIDS)]
        name = "".join(chr(65 + rng.randrange(26)) for _ in range(1 + rng.randrange(4))).encode()
        lot = 20_000_000 if index % 9 == 7 else 100
        target = deepest if over or index % 5 == 1 else 1 + rng.randrange(max(1, min(deepest, 12)))
        symbol = Symbol(index, name, tick, rng.randrange(low, high), lot, target, deepest, {"B": {}, "S": {}})
        for side in "BS":
            for _ in range(rng.randrange(symbol.target + 1)):
                self.add_level(symbol, side)
        return symbol

    def quantity(self, symbol: Symbol) -> int:
        return symbol.lot * (1 + self.rng.randrange(12)) - (self.rng.randrange(symbol.lot) if self.rng.random() < 0.3 else 0)

    def add_level(self, symbol: Symbol, side: str) -> tuple | None:
        """A new level at a free price, where the side has room for one."""
        levels = symbol.sides[side]
        if len(levels) >= symbol.deepest:
            return None
        reach = symbol.target * 2 + 4
        steps = 1 + self.rng.randrange(reach)
        while symbol.price(side, steps) in levels:
            steps += 1
        if symbol.price(side, steps) <= 0:
            return None
        quantity = self.quantity(symbol)
        point = (side, symbol.price(side, steps), quantity, 1, "O", quantity, 0)
        enter(symbol, point)
        return point

    def add_order(self, symbol: Symbol, side: str) -> tuple | None:
        levels = symbol.sides[side]
        if not levels:
            return self.add_level(symbol, side)
        price = self.some_price(symbol, side)
        volume, orders = levels[price]
        quantity = self.quantity(symbol)
        if volume + quantity > LARGEST or orders >= MOST_ORDERS:
            return self.cancel(symbol, side)
        return self.change(symbol, side, price, volume + quantity, orders + 1, "O", quantity)

    def cancel(self, symbol: Symbol, side: str) -> tuple | None:
        if not symbol.sides[side]:
            return self.add_level(symbol, side)
        return self.reduce(symbol, side, self.some_price(symbol, side), "C", 0)

    def execute(self, symbol: Symbol, side: str) -> tuple | None:
        if not symbol.sides[side]:
            return self.add_level(symbol, side)
        self.link += 1
        point = self.reduce(symbol, side, symbol.best_first(side)[0], "E", self.link)
        self.executed[symbol.index] = self.executed.get(symbol.index, 0) + point[5]
        return point

    def several(self, symbol: Symbol, side: str) -> tuple | None:
        """Several events at one price: its volume and orders become others."""
        if not symbol.sides[side]:
            return self.add_level(symbol, side)
        price = self.some_price(symbol, side)
        before = symbol.sides[side][price][0]
        volume = self.quantity(symbol)
        return self.change(symbol, side, price, volume, 1 + self.rng.randrange(min(volume, 9)), "X", abs(volume - before))

    def reduce(self, symbol: Symbol, side: str, price: int, reason: str, link: int) -> tuple:
        volume, orders = symbol.sides[side][price]
        whole = self.rng.random() < (0.5 if len(symbol.sides[side]) > symbol.target else 0.2)
        quantity = volume if whole else min(volume, self.quantity(symbol))
        left = volume - quantity
        remaining = 0 if left == 0 else max(1, min(orders, left) - self.rng.randrange(2))
        return self.change(symbol, side, price, left, remaining, reason, quantity, link)

    def change(self, symbol: Symbol, side: str, price: int, volume: int, orders: int, reason: str, quantity: int, link: int = 0) -> tuple:
        point = (side, price, volume, orders, reason, quantity, link)
        enter(symbol, point)
        return point

    def some_price(self, symbol: Symbol, side: str) -> int:
        """A price of the side, the better ones more often."""
        prices = symbol.best_first(side)
        return prices[int(len(prices) * self.rng.random() ** 2)]

    def event(self, symbol: Symbol) -> tuple | None:
        rng = self.rng
        side = "B" if rng.random() < 0.5 else "S"
        if len(symbol.sides[side]) < symbol.target and rng.random() < 0.5:
            return self.add_level(symbol, side)
        chosen = rng.random()
        if chosen < 0.08:
            return self.add_level(symbol, side) or self.cancel(symbol, side)
        if chosen < 0.38:
            return self.add_order(symbol, side)
        if chosen < 0.68:
            return self.cancel(symbol, side)
        if chosen < 0.92:
            return self.execute(symbol, side)
        return self.several(symbol, side)

    def open_segment(self) -> None:
        """Full updates of most symbols are owed soon after a beginning."""
        self.owed = [symbol.index for symbol in self.symbols if self.rng.random() < 0.9]
        self.rng.shuffle(self.owed)

    def next_message(self, micros: int) -> Message:
        rng = self.rng
        symbol = self.symbols[rng.randrange(len(self.symbols))]
        chosen = rng.random()
        if self.owed and rng.random() < 0.4:
            return self.full(self.symbols[self.owed.pop() - 1], micros)
        if chosen < self.full_share:
            return self.changed_full(symbol, micros)
        if chosen < self.full_share + self.mapping_share:
            return Message("mapping", symbol.index, body=messages.mapping_body(symbol.index, symbol.name))
        return self.delta(symbol, micros)

    def delta(self, symbol: Symbol, micros: int) -> Message:
        rng = self.rng
        count = 1 if rng.random() < 0.6 else 2 + rng.randrange(3)
        if rng.random() < 0.01:
            count = 1 + rng.randrange(messages.MOST_DELTA_POINTS)
        points = [point for point in (self.event(symbol) for _ in range(count)) if point is not None]
        if not points:
            return self.full(symbol, micros)
        symbol.serial += 1
        scale = self.scale([point[1] for point in points])
        return Message("delta", symbol.index, scale, points, messages.delta_body(symbol.index, scale, points, micros, symbol.serial))

    def changed_full(self, symbol: Symbol, micros: int) -> Message:
        """A full update; some come with changes that no delta told."""
        if self.rng.random() < 0.3:
            for side in "BS":
                for price in symbol.best_first(side):
                    if self.rng.random() < 0.3:
                        del symbol.sides[side][price]
                    elif self.rng.random() < 0.3:
                        symbol.sides[side][price] = (self.quantity(symbol), 1)
        return self.full(symbol, micros)

    def full(self, symbol: Symbol, micros: int) -> Message:
        points = symbol.levels()
        if self.rng.random() < 0.3:
            self.rng.shuffle(points)
        symbol.serial += 1
        return self.full_of(symbol, points, micros, self.rng)

    def full_of(self, symbol: Symbol, points: list, micros: int, rng: Random) -> Message:
        fitting = messages.scales_for([point[1] for point in points])
        scale = fitting[rng.randrange(len(fitting))]
        body = messages.full_body(symbol.index, symbol.name, scale, points, micros, symbol.serial)
        return Message("full", symbol.index, scale, points, body)

    def scale(self, prices: list[int]) -> int:
        fitting = messages.scales_for(prices)
        return fitting[self.rng.randrange(len(fitting))]
