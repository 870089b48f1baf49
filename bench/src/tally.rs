//! Executed volume by index.

use crate::reader::{Delta, four_at};

/// No row yet.
const NONE: u16 = u16::MAX;

#[derive(Debug)]
pub struct Tally {
    /// The row of each index.
    places: Vec<u16>,
    executed: Vec<u64>,
    limit: usize,
    missed: u32,
    losses: u32,
}

impl Tally {
    /// At most as many rows as the limit, and below 65,535.
    pub fn new(limit: usize) -> Tally {
        let places = vec![NONE; 1 << 16];
        Tally {
            places,
            executed: Vec::new(),
            limit: limit.min(usize::from(NONE)),
            missed: 0,
            losses: 0,
        }
    }

    #[inline]
    fn add(&mut self, index: u16, quantity: u32) {
        let place = &mut self.places[usize::from(index)];
        if let Some(executed) = self.executed.get_mut(usize::from(*place)) {
            *executed = executed.saturating_add(u64::from(quantity));
        } else if self.executed.len() < self.limit {
            *place = self.executed.len() as u16;
            self.executed.push(u64::from(quantity));
        } else {
            self.missed = self.missed.saturating_add(1);
        }
    }

    #[inline]
    pub fn delta(&mut self, delta: &Delta<'_>) {
        for point in delta.points {
            if point[15] == b'E' {
                self.add(delta.index, four_at(point, 8));
            }
        }
    }

    #[inline]
    pub fn loss(&mut self) {
        self.losses = self.losses.saturating_add(1);
    }

    pub fn executed(&self, index: u16) -> Option<u64> {
        let place = self.places[usize::from(index)];
        self.executed.get(usize::from(place)).copied()
    }

    /// Index and executed volume, rising by index.
    pub fn rows(&self) -> impl Iterator<Item = (u16, u64)> {
        (0..=u16::MAX).filter_map(|index| Some((index, self.executed(index)?)))
    }

    pub fn missed(&self) -> u32 {
        self.missed
    }

    pub fn losses(&self) -> u32 {
        self.losses
    }
}
