//! One channel: each number is handed to books and tally once and in order.

use crate::books::Books;
use crate::early::{Early, Held, Put};
use crate::reader::{Fault, Full, Message, Packet, data_of, read};
use crate::tally::Tally;

/// How far above the last number data may be.
const WINDOW: u64 = 75_000;

/// How many numbers a range may have.
const WIDEST: u64 = 1_000;

#[derive(Clone, Copy, Debug, PartialEq, Eq)]
pub enum Refusal {
    Reader(Fault),
    Reset { next: u32 },
    Parts,
    Ahead,
    Behind,
    Far,
    NoRoom,
    Wide,
}

impl From<Fault> for Refusal {
    fn from(fault: Fault) -> Refusal {
        Refusal::Reader(fault)
    }
}

impl Refusal {
    pub fn number(self) -> u32 {
        match self {
            Refusal::Reader(fault) => fault.number(),
            Refusal::Reset { .. } => 8,
            Refusal::Parts => 9,
            Refusal::Ahead => 10,
            Refusal::Behind => 11,
            Refusal::Far => 12,
            Refusal::NoRoom => 13,
            Refusal::Wide => 14,
        }
    }
}

#[derive(Clone, Copy, Debug, PartialEq, Eq)]
pub struct Taken {
    pub last: u32,
    pub handed: u32,
}

#[derive(Debug)]
pub struct Channel<H> {
    /// The number after the last one; one above all numbers of 32 bits where all had their turn.
    next: u64,
    books: Books,
    tally: Tally,
    early: Early<H>,
}

impl<H: Held> Channel<H> {
    pub fn new(books: Books, tally: Tally, early: Early<H>, first: u32) -> Channel<H> {
        let mut channel = Channel {
            next: 1,
            books,
            tally,
            early,
        };
        channel.restart(first);
        channel
    }

    pub fn last(&self) -> u32 {
        (self.next - 1) as u32
    }

    pub fn books(&self) -> &Books {
        &self.books
    }

    pub fn tally(&self) -> &Tally {
        &self.tally
    }

    pub fn early(&self) -> &Early<H> {
        &self.early
    }

    /// Begins again at a number above zero.
    pub fn restart(&mut self, number: u32) {
        self.early.clear();
        self.books.restart(number);
        self.next = u64::from(number);
    }

    #[inline]
    fn hand_over(&mut self, message: Message<'_>) {
        let number = self.next as u32;
        match message {
            Message::Delta(delta) => {
                self.books.delta(number, &delta);
                self.tally.delta(&delta);
            }
            Message::Full(full) => self.books.full(number, &full),
            _ => {}
        }
        self.next += 1;
    }

    /// Hands over the packet of the next number, if it is held.
    #[inline]
    fn hand_held(&mut self) -> bool {
        let Some(packet) = self.early.take_next(self.next) else {
            return false;
        };
        match data_of(&packet) {
            Some(message) => self.hand_over(message),
            None => self.lose(),
        }
        true
    }

    #[inline]
    fn lose(&mut self) {
        self.books.loss(self.next as u32);
        self.tally.loss();
        self.next += 1;
    }

    #[inline]
    fn drain(&mut self) {
        while self.hand_held() {}
    }

    fn offer_range(&mut self, begin: u32, end: u32) -> Result<(), Refusal> {
        let (begin, end) = (u64::from(begin), u64::from(end));
        if end < self.next {
            return Err(Refusal::Behind);
        }
        if begin > self.next {
            return Err(Refusal::Ahead);
        }
        if end - begin >= WIDEST {
            return Err(Refusal::Wide);
        }
        while self.next <= end {
            if !self.hand_held() {
                self.lose();
            }
        }
        self.drain();
        Ok(())
    }

    fn offer_refresh(&mut self, packet: &Packet<'_>, full: &Full<'_>) -> Result<(), Refusal> {
        if packet.flag != 6 || packet.link != 1 {
            return Err(Refusal::Parts);
        }
        if u64::from(packet.number) >= self.next {
            return Err(Refusal::Ahead);
        }
        self.books.refresh(packet.number, full);
        Ok(())
    }

    #[inline]
    fn offer_data(&mut self, packet: &Packet<'_>, bytes: &[u8]) -> Result<(), Refusal> {
        let number = u64::from(packet.number);
        if number == self.next {
            self.hand_over(packet.message);
            self.drain();
            return Ok(());
        }
        if number < self.next {
            return Err(Refusal::Behind);
        }
        if number >= self.next + WINDOW {
            return Err(Refusal::Far);
        }
        match self.early.put(packet.number, bytes) {
            Put::Done => Ok(()),
            Put::Held => Err(Refusal::Behind),
            Put::NoRoom => Err(Refusal::NoRoom),
        }
    }

    /// Takes a packet in.
    #[inline]
    pub fn offer(&mut self, bytes: &[u8]) -> Result<Taken, Refusal> {
        let before = self.next;
        let packet = read(bytes)?;
        match packet.message {
            Message::Reset { next } => return Err(Refusal::Reset { next }),
            Message::Unavailable { begin, end } => self.offer_range(begin, end)?,
            Message::Full(full) if packet.flag >= 5 => self.offer_refresh(&packet, &full)?,
            _ => self.offer_data(&packet, bytes)?,
        }
        Ok(Taken {
            last: self.last(),
            handed: (self.next - before) as u32,
        })
    }
}
