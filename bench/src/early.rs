//! Packets that came early, until their turn.

use crate::reader::LONGEST;
use std::collections::BTreeMap;
use std::collections::btree_map::Entry;

/// What a packet costs, and how much there is.
#[derive(Clone, Copy, Debug)]
pub struct Room {
    total: u32,
    slots: bool,
}

impl Room {
    /// Sixteen slots, one to a packet.
    pub const SLOTS: Room = Room {
        total: 16,
        slots: true,
    };

    /// Records of 64 bytes, one of which is not for packets.
    pub fn chain(records: u32) -> Option<Room> {
        (26..=65_535).contains(&records).then(|| Room {
            total: records - 1,
            slots: false,
        })
    }

    /// At most the limit, but always room for one packet.
    pub fn limited(self, limit: u32) -> Room {
        Room {
            total: self.total.min(limit.max(self.price(LONGEST))),
            ..self
        }
    }

    #[inline]
    fn price(self, length: usize) -> u32 {
        if self.slots {
            1
        } else {
            1 + (length.saturating_sub(54) as u32).div_ceil(62)
        }
    }
}

#[derive(Clone, Copy, Debug, PartialEq, Eq)]
pub enum Put {
    Done,
    Held,
    NoRoom,
}

/// Packets by number, all above the last number and in a window of 75,000.
pub trait Held: Default {
    /// Puts a packet, if its number is new and it fits.
    fn put(&mut self, number: u32, packet: &[u8], fits: bool) -> Put;

    /// Takes the packet of the number out; no lower one is held.
    fn take_least(&mut self, number: u32) -> Option<Box<[u8]>>;

    fn clear(&mut self);
}

/// A map, as large as what it holds.
pub type Map = BTreeMap<u32, Box<[u8]>>;

impl Held for Map {
    #[inline]
    fn put(&mut self, number: u32, packet: &[u8], fits: bool) -> Put {
        match self.entry(number) {
            Entry::Occupied(_) => Put::Held,
            Entry::Vacant(_) if !fits => Put::NoRoom,
            Entry::Vacant(entry) => {
                entry.insert(packet.into());
                Put::Done
            }
        }
    }

    #[inline]
    fn take_least(&mut self, number: u32) -> Option<Box<[u8]>> {
        let entry = self.first_entry()?;
        (*entry.key() == number).then(|| entry.remove())
    }

    fn clear(&mut self) {
        BTreeMap::clear(self);
    }
}

/// A place for each number of the window, by the number's low bits.
#[derive(Debug)]
pub struct Ring {
    places: Box<[Option<Box<[u8]>>]>,
}

const PLACES: usize = 1 << 17;

impl Default for Ring {
    fn default() -> Ring {
        Ring {
            places: std::iter::repeat_with(|| None).take(PLACES).collect(),
        }
    }
}

impl Held for Ring {
    #[inline]
    fn put(&mut self, number: u32, packet: &[u8], fits: bool) -> Put {
        let place = &mut self.places[number as usize % PLACES];
        if place.is_some() {
            Put::Held
        } else if !fits {
            Put::NoRoom
        } else {
            *place = Some(packet.into());
            Put::Done
        }
    }

    #[inline]
    fn take_least(&mut self, number: u32) -> Option<Box<[u8]>> {
        self.places[number as usize % PLACES].take()
    }

    fn clear(&mut self) {
        self.places.fill(None);
    }
}

/// The packets that came early, with what they cost.
#[derive(Debug)]
pub struct Early<H> {
    held: H,
    room: Room,
    used: u32,
}

impl<H: Held> Early<H> {
    pub fn new(room: Room) -> Early<H> {
        Early {
            held: H::default(),
            room,
            used: 0,
        }
    }

    pub fn used(&self) -> u32 {
        self.used
    }

    pub fn held(&self) -> &H {
        &self.held
    }

    pub fn clear(&mut self) {
        if self.used > 0 {
            self.held.clear();
            self.used = 0;
        }
    }

    #[inline]
    pub fn put(&mut self, number: u32, packet: &[u8]) -> Put {
        let price = self.room.price(packet.len());
        let put = self
            .held
            .put(number, packet, self.used + price <= self.room.total);
        if put == Put::Done {
            self.used += price;
        }
        put
    }

    /// Takes the packet of the number after the last one out, if it is held.
    #[inline]
    pub fn take_next(&mut self, number: u64) -> Option<Box<[u8]>> {
        if self.used == 0 {
            return None;
        }
        let packet = self.held.take_least(u32::try_from(number).ok()?)?;
        self.used -= self.room.price(packet.len());
        Some(packet)
    }
}
