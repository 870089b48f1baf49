//! Everything that a channel can meet, for the digests: losses, copies, disorder, ranges, refreshes, resets, damaged packets, full shelves, books that overflow, more indexes than rows.

use crate::frames::{Capture, Line};
use crate::market::{
    Change, Market, Shape, delta_header, delta_point, finish, full_header, full_point, header,
};
use crate::profiles::unavailable;
use crate::random::Random;

const SHAPE: Shape = Shape {
    symbols: 1_400,
    fewest: 4,
    most: 30,
    near: true,
};
const NUMBERS: u32 = 60_000;

/// A packet, the line it comes on, and when.
struct Sent {
    time: u64,
    line: Line,
    packet: Vec<u8>,
}

/// A segment of the stream, from one reset to the next.
struct Segment {
    first: u32,
    sent: Vec<Sent>,
}

impl Segment {
    fn send(&mut self, time: u64, line: Line, packet: Vec<u8>) {
        self.sent.push(Sent { time, line, packet });
    }
}

fn with_flag(packet: &[u8], flag: u8) -> Vec<u8> {
    let mut copy = packet.to_vec();
    copy[13] = flag;
    copy
}

/// A copy with a byte changed, cut off or added.
fn damaged(random: &mut Random, packet: &[u8]) -> Vec<u8> {
    let mut copy = packet.to_vec();
    match random.below(6) {
        0 => copy.truncate(random.below(copy.len())),
        1 => copy.push(0),
        2 => copy[12] = 0,
        3 => copy[3] = random.below(256) as u8,
        4 => copy[13] = random.below(8) as u8,
        _ => {
            // Where a byte that is not read is changed, the packet is a copy like any other.
            let place = random.between(14, 40).min(copy.len() - 1);
            copy[place] = 0xff;
        }
    }
    copy
}

/// Points in any order, some twice, some without volume, at any scale.
fn wild(random: &mut Random, number: u32, flag: u8) -> Vec<u8> {
    let index = random.below(SHAPE.symbols + 10);
    let points = random.between(0, 40);
    let scale = random.below(10) as u8;
    let full = random.percent(50);
    let mut packet = if full || points == 0 {
        full_header(number, flag, index, scale, points)
    } else {
        delta_header(number, flag.min(2), index, scale, points)
    };
    for _ in 0..points {
        let price = if random.percent(5) {
            u32::MAX as usize
        } else {
            random.between(1, 60)
        };
        let volume = random.below(4) as u32 * 100;
        let side = if random.percent(50) { b'B' } else { b'S' };
        if full || points == 0 {
            full_point(&mut packet, price, volume, 3, side);
        } else {
            let changed = if random.percent(50) { u32::MAX } else { 0 };
            let reason = b"OCEX"[random.below(4)];
            delta_point(
                &mut packet,
                &Change {
                    price,
                    volume,
                    changed,
                    orders: 2,
                    side,
                    reason,
                },
            );
        }
    }
    finish(packet)
}

/// More levels than a book of depth 1,024 holds: full updates can't, so deltas do.
fn overflow(number: u32, index: usize) -> Vec<u8> {
    let mut packet = delta_header(number, 1, index, 2, 52);
    for place in 0..52 {
        let price = 10_000 + (number as usize * 52 + place) % 4_000;
        delta_point(
            &mut packet,
            &Change {
                price,
                volume: 100,
                changed: 0,
                orders: 1,
                side: b'S',
                reason: b'O',
            },
        );
    }
    finish(packet)
}

fn data(market: &mut Market, number: u32) -> Vec<u8> {
    let symbol = market.random.below(SHAPE.symbols);
    match market.random.below(100) {
        0..15 => market.full(number, 1, symbol),
        15..25 => wild(&mut market.random, number, 1),
        25 => {
            let mut packet = header(35, number, 1, 0);
            packet.resize(30, 0);
            finish(packet)
        }
        26..28 => overflow(number, 7),
        28 => finish(full_header(number, 1, 7, 2, 0)),
        _ => {
            let points = market.random.between(1, 6);
            market.delta(number, symbol, points)
        }
    }
}

/// A packet of a number on both lines, each of which may lose it; what both lost comes again later, or is unavailable.
fn send_data(market: &mut Market, segment: &mut Segment, number: u32) {
    let packet = data(market, number);
    let time = u64::from(number - segment.first) * 10;
    let jitter = |random: &mut Random| random.below(30) as u64;
    let mut lost = true;
    for (line, later) in [(Line::Primary, 0), (Line::Secondary, 15)] {
        if !market.random.percent(3) {
            lost = false;
            segment.send(
                time + later + jitter(&mut market.random),
                line,
                packet.clone(),
            );
        }
    }
    if lost && market.random.percent(40) {
        let end = number + market.random.below(3) as u32;
        segment.send(time + 4_000, Line::Primary, unavailable(number, end));
        segment.send(time + 4_020, Line::Secondary, unavailable(number, end));
    } else if lost || market.random.percent(1) {
        segment.send(time + 2_000, Line::Retransmission, with_flag(&packet, 2));
    }
    send_others(market, segment, number, time, &packet);
}

/// Refreshes, damaged copies, numbers and ranges too far ahead.
fn send_others(market: &mut Market, segment: &mut Segment, number: u32, time: u64, packet: &[u8]) {
    let choice = market.random.below(400);
    let symbol = market.random.below(SHAPE.symbols);
    let later = time + market.random.below(4_000) as u64;
    match choice {
        0..20 => segment.send(later, Line::Refresh, market.full(number, 6, symbol)),
        20 => segment.send(later, Line::Refresh, market.full(number, 5, symbol)),
        21..24 => segment.send(later, Line::Refresh, wild(&mut market.random, number, 6)),
        24..30 => segment.send(later, Line::Primary, damaged(&mut market.random, packet)),
        30 => segment.send(later, Line::Primary, unavailable(number, number + 1_000)),
        31 => segment.send(
            later,
            Line::Primary,
            unavailable(number + 5_000, number + 5_001),
        ),
        32 => {
            let far = finish(full_header(number + 80_000, 1, symbol, 2, 0));
            segment.send(later, Line::Primary, far);
        }
        _ => {}
    }
}

/// A number is missing until the shelf is full; then ranges tell that all numbers are unavailable, and those that are held are handed over.
fn send_outage(market: &mut Market, segment: &mut Segment, first: u32) {
    const EARLY: u32 = 40_000;
    let start = u64::from(first - segment.first) * 10;
    for number in first + 1..=first + EARLY {
        let packet = data(market, number);
        segment.send(start + u64::from(number - first), Line::Primary, packet);
    }
    for begin in (first..=first + EARLY).step_by(1_000) {
        segment.send(
            start + 100_000,
            Line::Primary,
            unavailable(begin, (begin + 999).min(first + EARLY)),
        );
    }
}

fn add(capture: &mut Capture, mut segment: Segment) {
    segment.sent.sort_by_key(|sent| sent.time);
    for sent in segment.sent {
        capture.add(sent.line, &sent.packet);
    }
}

fn reset(next: u32) -> Vec<u8> {
    let mut packet = header(1, next, 1, 0);
    packet.extend(next.to_be_bytes());
    finish(packet)
}

pub fn mixed() -> Capture {
    let mut market = Market::new(SHAPE, 8);
    let mut capture = Capture::new();
    for first in [1, 900, u32::MAX - NUMBERS - 41_000] {
        if first > 1 {
            capture.add(Line::Primary, &reset(first));
        }
        let mut segment = Segment {
            first,
            sent: Vec::new(),
        };
        for number in first..first + NUMBERS {
            send_data(&mut market, &mut segment, number);
        }
        add(&mut capture, segment);
        let begin = first + NUMBERS;
        let mut outage = Segment {
            first: begin,
            sent: Vec::new(),
        };
        if first == 900 {
            send_outage(&mut market, &mut outage, begin);
        }
        add(&mut capture, outage);
    }
    capture
}
