//! The captures, each by what it puts to the test.

use crate::frames::{Capture, Line, Packets};
use crate::market::{Market, Shape, finish, header};
use crate::mixed::mixed;

pub struct Profile {
    pub name: &'static str,
    pub make: fn() -> Capture,
}

pub const ALL: &[Profile] = &[
    Profile {
        name: "twice",
        make: twice,
    },
    Profile {
        name: "early1",
        make: early1,
    },
    Profile {
        name: "early20",
        make: early20,
    },
    Profile {
        name: "outage10",
        make: || outages(10_000, Lines::One),
    },
    Profile {
        name: "outage20",
        make: || outages(20_000, Lines::One),
    },
    Profile {
        name: "outage30",
        make: || outages(30_000, Lines::One),
    },
    Profile {
        name: "outage10lines",
        make: || outages(10_000, Lines::Both),
    },
    Profile {
        name: "outage10mixed",
        make: || outages(10_000, Lines::Disordered),
    },
    Profile {
        name: "deep",
        make: deep,
    },
    Profile {
        name: "losses",
        make: losses,
    },
    Profile {
        name: "full121",
        make: full121,
    },
    Profile {
        name: "mixed",
        make: mixed,
    },
];

const MODEST: Shape = Shape {
    symbols: 200,
    fewest: 10,
    most: 50,
    near: true,
};

fn stream(seed: u64, count: usize) -> Packets {
    let mut packets = Packets::default();
    let mut market = Market::new(MODEST, seed);
    market.open(&mut packets);
    market.trade(&mut packets, count, 4, 1..=3);
    packets
}

/// The packets in an order, all on one line.
fn in_order(packets: &Packets, order: impl IntoIterator<Item = usize>) -> Capture {
    let mut capture = Capture::new();
    for place in order {
        capture.add(Line::Primary, packets.get(place));
    }
    capture
}

/// Both lines, the second four packets behind.
fn twice() -> Capture {
    const BEHIND: usize = 4;
    let packets = stream(1, 250_000);
    let mut capture = Capture::new();
    for place in 0..packets.len() + BEHIND {
        if place < packets.len() {
            capture.add(Line::Primary, packets.get(place));
        }
        if place >= BEHIND {
            capture.add(Line::Secondary, packets.get(place - BEHIND));
        }
    }
    capture
}

/// One line; one packet in a hundred comes before one that it follows.
fn early1() -> Capture {
    let packets = stream(2, 300_000);
    let mut random = crate::random::Random::new(2);
    let mut order: Vec<usize> = (0..packets.len()).collect();
    let mut place = 200;
    while place + 1_000 < order.len() {
        let further = random.between(1, 4);
        order.swap(place, place + further);
        place += 5 + random.below(2 * 100 * further - 10);
    }
    in_order(&packets, order)
}

/// One line; of every fifty packets one comes ten places late, so that ten are early.
fn early20() -> Capture {
    let packets = stream(3, 300_000);
    let mut order: Vec<usize> = (0..packets.len()).collect();
    for places in order[200..].chunks_exact_mut(50) {
        places[20..31].rotate_left(1);
    }
    in_order(&packets, order)
}

/// How the packets of an outage come.
#[derive(Clone, Copy)]
enum Lines {
    /// On one line, in one outage rising and in the next falling.
    One,
    /// On both lines, each packet twice.
    Both,
    /// On one line, with pairs of neighbours exchanged.
    Disordered,
}

/// A packet is missing, so many behind it come early, and then the missing one; again and again.
fn outages(early: usize, lines: Lines) -> Capture {
    const COUNT: usize = 300_000;
    let mut market = Market::new(MODEST, 4);
    let mut packets = Packets::default();
    market.open(&mut packets);
    let open = packets.len();
    let count = if let Lines::One = lines {
        COUNT
    } else {
        COUNT / 3
    };
    market.trade(
        &mut packets,
        open + count / (early + 1) * (early + 1),
        0,
        1..=2,
    );
    let mut order: Vec<usize> = (0..open).collect();
    for (outage, start) in (open..packets.len()).step_by(early + 1).enumerate() {
        let begin = order.len();
        order.extend(start + 1..start + 1 + early);
        match lines {
            Lines::One if outage % 2 == 1 => order[begin..].reverse(),
            Lines::One => {}
            Lines::Both => {
                order.truncate(begin);
                order.extend((start + 1..start + 1 + early).flat_map(|place| [place, place]));
            }
            Lines::Disordered => order[begin..]
                .chunks_exact_mut(2)
                .for_each(<[usize]>::reverse),
        }
        order.push(start);
    }
    in_order(&packets, order)
}

/// Books of a thousand levels a side, changed anywhere.
fn deep() -> Capture {
    let shape = Shape {
        symbols: 200,
        fewest: 980,
        most: 1_020,
        near: false,
    };
    let mut market = Market::new(shape, 5);
    let mut packets = Packets::default();
    (0..shape.symbols).for_each(|symbol| market.build(&mut packets, symbol));
    market.trade(&mut packets, 300_000, 0, 1..=5);
    in_order(&packets, 0..packets.len())
}

pub fn unavailable(begin: u32, end: u32) -> Vec<u8> {
    let mut packet = header(5, begin, 1, 0);
    packet.extend(begin.to_be_bytes());
    packet.extend(end.to_be_bytes());
    finish(packet)
}

/// A thousand numbers are unavailable, twenty packets come, and so on.
fn losses() -> Capture {
    let shape = Shape {
        symbols: 1_024,
        ..MODEST
    };
    let mut market = Market::new(shape, 6);
    let mut capture = Capture::new();
    let mut number = 1;
    for _ in 0..1_000 {
        capture.add(Line::Primary, &unavailable(number, number + 999));
        number += 1_000;
        for place in 0..20 {
            let symbol = market.random.below(shape.symbols);
            let packet = if place % 4 == 0 {
                market.full(number, 1, symbol)
            } else {
                market.delta(number, symbol, 2)
            };
            capture.add(Line::Primary, &packet);
            number += 1;
        }
    }
    capture
}

/// Full updates of 121 points, and a delta to every nineteen of them.
fn full121() -> Capture {
    let shape = Shape {
        symbols: 200,
        fewest: 60,
        most: 61,
        near: true,
    };
    let mut market = Market::new(shape, 7);
    let mut packets = Packets::default();
    for number in 1..=60_000 {
        let symbol = market.random.below(shape.symbols);
        let packet = if number % 20 == 0 {
            market.delta(number, symbol, 1)
        } else {
            full_of(&mut market, number, symbol)
        };
        packets.push(&packet);
    }
    in_order(&packets, 0..packets.len())
}

/// A full update of 121 points, whatever the symbol's book has.
fn full_of(market: &mut Market, number: u32, symbol: usize) -> Vec<u8> {
    use crate::market::{full_header, full_point};
    let mut packet = full_header(number, 1, symbol + 1, 2, 121);
    for place in 0..121_usize {
        let volume = market.random.between(1, 90) as u32 * 100;
        let (price, side) = if place < 60 {
            (4_999 - place, b'B')
        } else {
            (4_940 + place, b'S')
        };
        full_point(&mut packet, price, volume, place + 1, side);
    }
    finish(packet)
}
