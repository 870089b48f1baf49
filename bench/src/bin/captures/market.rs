//! Symbols with true books, and the packets that tell of their changes.

use crate::frames::Packets;
use crate::random::Random;
use std::ops::RangeInclusive;

/// What the books are like.
#[derive(Clone, Copy)]
pub struct Shape {
    pub symbols: usize,
    /// How many levels a side has at least and at most.
    pub fewest: usize,
    pub most: usize,
    /// Whether most changes are near the best price, or anywhere.
    pub near: bool,
}

/// The volumes of a side by distance from the middle; 0 where there is no level.
struct Side {
    volumes: Vec<u32>,
    count: usize,
}

pub struct Market {
    shape: Shape,
    sides: Vec<[Side; 2]>,
    pub random: Random,
}

const MIDDLE: usize = 5_000;
const UNITS: [usize; 6] = [1, 1, 1, 10, 100, 1_000];

/// The header of a data packet.
pub fn header(kind: u8, number: u32, flag: u8, points: usize) -> Vec<u8> {
    let mut packet = Vec::with_capacity(1_500);
    packet.extend([0, 0, 0, kind]);
    packet.extend(number.to_be_bytes());
    packet.extend(34_200_000_u32.wrapping_add(number / 10).to_be_bytes());
    packet.extend([115, flag, points as u8, 1]);
    packet
}

/// The packet, with its length in front.
pub fn finish(mut packet: Vec<u8>) -> Vec<u8> {
    let size = (packet.len() - 2) as u16;
    packet[..2].copy_from_slice(&size.to_be_bytes());
    packet
}

/// An update's bytes from its header to the given length: its index, and blanks.
fn update_header(
    kind: u8,
    number: u32,
    flag: u8,
    index: usize,
    points: usize,
    length: usize,
) -> Vec<u8> {
    let mut packet = header(kind, number, flag, points);
    packet.extend([0, 0]);
    packet.extend((index as u16).to_be_bytes());
    packet.resize(length, 32);
    packet
}

pub fn full_header(number: u32, flag: u8, index: usize, scale: u8, points: usize) -> Vec<u8> {
    let mut packet = update_header(230, number, flag, index, points, 42);
    packet.extend([scale, 79, 0, 0]);
    packet
}

pub fn delta_header(number: u32, flag: u8, index: usize, scale: u8, points: usize) -> Vec<u8> {
    let mut packet = update_header(231, number, flag, index, points, 33);
    packet.push(scale);
    packet
}

pub fn full_point(packet: &mut Vec<u8>, price: usize, volume: u32, orders: usize, side: u8) {
    packet.extend((price as u32).to_be_bytes());
    packet.extend(volume.to_be_bytes());
    packet.extend((orders as u16).to_be_bytes());
    packet.extend([side, 0]);
}

pub struct Change {
    pub price: usize,
    pub volume: u32,
    pub changed: u32,
    pub orders: usize,
    pub side: u8,
    pub reason: u8,
}

pub fn delta_point(packet: &mut Vec<u8>, change: &Change) {
    packet.extend((change.price as u32).to_be_bytes());
    packet.extend(change.volume.to_be_bytes());
    packet.extend(change.changed.to_be_bytes());
    packet.extend((change.orders as u16).to_be_bytes());
    packet.extend([change.side, change.reason]);
    packet.extend([0; 12]);
}

fn letter(side: usize) -> u8 {
    if side == 0 { b'B' } else { b'S' }
}

/// The price in hundredths of a level at a distance.
fn price(side: usize, distance: usize) -> usize {
    if side == 0 {
        MIDDLE - 1 - distance
    } else {
        MIDDLE + distance
    }
}

impl Market {
    pub fn new(shape: Shape, seed: u64) -> Market {
        let mut random = Random::new(seed);
        let reach = shape.most + shape.most / 4;
        let sides = (0..shape.symbols).map(|_| {
            [0, 1].map(|_| {
                let mut volumes = vec![0; reach];
                let count = shape.fewest.midpoint(shape.most);
                for volume in volumes.iter_mut().take(count) {
                    *volume = random.between(1, 90) as u32 * 100;
                }
                Side { volumes, count }
            })
        });
        let sides = sides.collect();
        Market {
            shape,
            sides,
            random,
        }
    }

    fn scale(&mut self) -> u8 {
        if self.random.percent(80) {
            2
        } else {
            self.random.between(2, 5) as u8
        }
    }

    fn distance(&mut self) -> usize {
        let reach = self.shape.most + self.shape.most / 4;
        let far = self.random.below(reach);
        if self.shape.near {
            far * self.random.below(reach) * self.random.below(reach) / (reach * reach)
        } else {
            far
        }
    }

    /// A change of a symbol's book, which is made.
    fn change(&mut self, symbol: usize) -> Change {
        let which = self.random.below(2);
        let distance = self.distance();
        let choice = self.random.below(100);
        let shares = self.random.between(1, 90) as u32 * 100;
        let orders = self.random.between(1, 20);
        let Shape { fewest, most, .. } = self.shape;
        let side = &mut self.sides[symbol][which];
        let distance = match side.volumes[distance] {
            0 if side.count >= most => side
                .volumes
                .iter()
                .position(|volume| *volume > 0)
                .unwrap_or(0),
            _ => distance,
        };
        let before = side.volumes[distance];
        let (reason, volume, changed) = match (before, choice) {
            (0, _) => (b'O', shares, shares),
            (_, 0..45) if side.count > fewest => (b'C', 0, before),
            (_, 45..55) => (b'E', before - before / 2, before / 2),
            (_, 55..60) if side.count > fewest => (b'E', 0, before),
            (_, 60..65) => (b'X', shares, before.abs_diff(shares)),
            _ => (b'O', before + shares, shares),
        };
        side.volumes[distance] = volume;
        side.count = side.count + usize::from(before == 0) - usize::from(volume == 0);
        let orders = if volume == 0 { 0 } else { orders };
        Change {
            price: price(which, distance),
            volume,
            changed,
            orders,
            side: letter(which),
            reason,
        }
    }

    /// A delta of a symbol, whose index is one higher.
    pub fn delta(&mut self, number: u32, symbol: usize, points: usize) -> Vec<u8> {
        let scale = self.scale();
        let mut packet = delta_header(number, 1, symbol + 1, scale, points);
        for _ in 0..points {
            let mut change = self.change(symbol);
            change.price *= UNITS[usize::from(scale)];
            delta_point(&mut packet, &change);
        }
        finish(packet)
    }

    /// The levels of a symbol: side, distance and volume, buys first and the best first.
    fn levels(&self, symbol: usize) -> Vec<(usize, usize, u32)> {
        let of_side = |which: usize| {
            let volumes = self.sides[symbol][which].volumes.iter().enumerate();
            volumes
                .filter(|(_, volume)| **volume > 0)
                .map(move |(distance, volume)| (which, distance, *volume))
        };
        of_side(0).chain(of_side(1)).collect()
    }

    /// A full update of a symbol, or with flag 6 a refresh.
    pub fn full(&mut self, number: u32, flag: u8, symbol: usize) -> Vec<u8> {
        let scale = self.scale();
        let levels = self.levels(symbol);
        let mut packet = full_header(number, flag, symbol + 1, scale, levels.len());
        for (side, distance, volume) in levels {
            let orders = self.random.between(1, 20);
            full_point(
                &mut packet,
                price(side, distance) * UNITS[usize::from(scale)],
                volume,
                orders,
                letter(side),
            );
        }
        finish(packet)
    }

    /// A full update without points, and deltas of up to 52 points that bring every level, in no order.
    pub fn build(&mut self, packets: &mut Packets, symbol: usize) {
        let number = packets.len() as u32 + 1;
        packets.push(&finish(full_header(number, 1, symbol + 1, 2, 0)));
        let mut levels = self.levels(symbol);
        for place in 1..levels.len() {
            levels.swap(place, self.random.below(place + 1));
        }
        for levels in levels.chunks(52) {
            let number = packets.len() as u32 + 1;
            let mut packet = delta_header(number, 1, symbol + 1, 2, levels.len());
            for (side, distance, volume) in levels {
                let (price, side) = (price(*side, *distance), letter(*side));
                let change = Change {
                    price,
                    volume: *volume,
                    changed: *volume,
                    orders: 1,
                    side,
                    reason: b'O',
                };
                delta_point(&mut packet, &change);
            }
            packets.push(&finish(packet));
        }
    }

    /// Full updates of all symbols.
    pub fn open(&mut self, packets: &mut Packets) {
        for symbol in 0..self.shape.symbols {
            let packet = self.full(packets.len() as u32 + 1, 1, symbol);
            packets.push(&packet);
        }
    }

    /// Data of random symbols until there are so many packets, full updates in so many of a hundred cases.
    pub fn trade(
        &mut self,
        packets: &mut Packets,
        count: usize,
        fulls: usize,
        points: RangeInclusive<usize>,
    ) {
        while packets.len() < count {
            let number = packets.len() as u32 + 1;
            let symbol = self.random.below(self.shape.symbols);
            let packet = if self.random.percent(fulls) {
                self.full(number, 1, symbol)
            } else {
                let points = self.random.between(*points.start(), *points.end());
                self.delta(number, symbol, points)
            };
            packets.push(&packet);
        }
    }
}
