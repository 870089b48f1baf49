//! Order books of full updates, deltas and refreshes.

use crate::reader::{Delta, Full, FullPoint, four_at, two_at, unit};

/// A level. Its rank is higher the better its price is: a buy's rank is the price, a sell's the price with every bit turned.
#[derive(Clone, Copy, Debug, PartialEq, Eq)]
pub struct Level {
    rank: u64,
    pub volume: u32,
    pub orders: u16,
}

#[derive(Clone, Copy, Debug, PartialEq, Eq)]
pub enum Side {
    Buy,
    Sell,
}

impl Side {
    #[inline(always)]
    fn of(letter: u8) -> Side {
        if letter == b'B' {
            Side::Buy
        } else {
            Side::Sell
        }
    }

    /// The rank of a price on this side, and the price of a rank.
    #[inline(always)]
    fn turn(self, price: u64) -> u64 {
        match self {
            Side::Buy => price,
            Side::Sell => !price,
        }
    }
}

/// A book. The best levels are last, where most changes are, so that few levels move.
#[derive(Debug, Default)]
pub struct Book {
    sides: [Vec<Level>; 2],
    era: u64,
    touched: u32,
    whole: bool,
}

/// What a point says of a level.
struct Change {
    side: Side,
    price: u64,
    volume: u32,
    orders: u16,
}

/// How many of the best levels are looked at before the others.
const NEAR: usize = 8;

/// How many levels are worse than a rank.
#[inline]
fn place_of(levels: &[Level], rank: u64) -> usize {
    let (far, near) = levels.split_at(levels.len().saturating_sub(NEAR));
    if near.first().is_some_and(|level| level.rank <= rank) {
        far.len() + near.iter().filter(|level| level.rank < rank).count()
    } else {
        far.partition_point(|level| level.rank < rank)
    }
}

impl Book {
    fn clear(&mut self, whole: bool) {
        self.sides.iter_mut().for_each(Vec::clear);
        self.whole = whole;
    }

    /// Enters a point; false where it would make a level too many.
    #[inline]
    fn enter(&mut self, change: Change, depth: usize) -> bool {
        let levels = &mut self.sides[change.side as usize];
        let rank = change.side.turn(change.price);
        let place = place_of(levels, rank);
        let level = Level {
            rank,
            volume: change.volume,
            orders: change.orders,
        };
        if let Some(found) = levels.get_mut(place)
            && found.rank == rank
        {
            if change.volume == 0 {
                levels.remove(place);
            } else {
                *found = level;
            }
        } else if change.volume != 0 {
            if levels.len() >= depth {
                return false;
            }
            levels.insert(place, level);
        }
        true
    }

    fn delta(&mut self, delta: &Delta<'_>, depth: usize) {
        let unit = unit(delta.scale);
        for point in delta.points {
            let change = Change {
                side: Side::of(point[14]),
                price: u64::from(four_at(point, 0)) * unit,
                volume: four_at(point, 4),
                orders: two_at(point, 12),
            };
            if !self.enter(change, depth) {
                return self.clear(false);
            }
        }
    }

    /// Takes points of one side. False, with levels in no order, where some are of the other side, without volume, or not best first.
    fn fill_side(&mut self, side: Side, points: &[FullPoint], unit: u64) -> bool {
        let levels = &mut self.sides[side as usize];
        let mut right = true;
        levels.clear();
        levels.extend(points.iter().rev().map(|point| {
            let (rank, volume) = (
                side.turn(u64::from(four_at(point, 0)) * unit),
                four_at(point, 4),
            );
            right &= Side::of(point[10]) == side && volume != 0;
            Level {
                rank,
                volume,
                orders: two_at(point, 8),
            }
        }));
        right && levels.is_sorted_by(|worse, better| worse.rank < better.rank)
    }

    /// Takes the points if they are those of one side and then those of the other, the best first, and fit. What the book has where they don't is to be cleared.
    fn fill_in_order(&mut self, full: &Full<'_>, depth: usize) -> bool {
        let unit = unit(full.scale);
        let is_buy = |point: &&FullPoint| point[10] == b'B';
        let buys_first = full.points.first().as_ref().is_none_or(is_buy);
        let count = full
            .points
            .iter()
            .take_while(|point| is_buy(point) == buys_first)
            .count();
        let (first, second) = full.points.split_at(count);
        let (buys, sells) = if buys_first {
            (first, second)
        } else {
            (second, first)
        };
        self.whole = true;
        buys.len() <= depth
            && sells.len() <= depth
            && self.fill_side(Side::Buy, buys, unit)
            && self.fill_side(Side::Sell, sells, unit)
    }

    fn fill(&mut self, full: &Full<'_>, depth: usize) {
        if self.fill_in_order(full, depth) {
            return;
        }
        self.clear(true);
        let unit = unit(full.scale);
        for point in full.points {
            let change = Change {
                side: Side::of(point[10]),
                price: u64::from(four_at(point, 0)) * unit,
                volume: four_at(point, 4),
                orders: two_at(point, 8),
            };
            if !self.enter(change, depth) {
                return self.clear(false);
            }
        }
    }
}

/// What can be read of a book.
#[derive(Clone, Copy, Debug)]
pub struct View<'a> {
    pub whole: bool,
    pub touched: u32,
    sides: [&'a [Level]; 2],
}

impl<'a> View<'a> {
    pub fn count(&self, side: Side) -> usize {
        self.sides[side as usize].len()
    }

    /// Price and level, the best first.
    pub fn levels(&self, side: Side) -> impl Iterator<Item = (u64, &'a Level)> {
        self.sides[side as usize]
            .iter()
            .rev()
            .map(move |level| (side.turn(level.rank), level))
    }
}

/// The books of the indexes from 1 on.
#[derive(Debug)]
pub struct Books {
    books: Vec<Book>,
    depth: usize,
    mark: u32,
    era: u64,
}

impl Books {
    pub fn new(count: usize, depth: usize) -> Books {
        let books = std::iter::repeat_with(Book::default).take(count).collect();
        Books {
            books,
            depth,
            mark: 0,
            era: 0,
        }
    }

    pub fn mark(&self) -> u32 {
        self.mark
    }

    pub fn count(&self) -> usize {
        self.books.len()
    }

    /// A book to be changed. One that was not changed since all were forgotten is emptied first.
    #[inline]
    fn book(&mut self, index: u16) -> Option<&mut Book> {
        let book = self.books.get_mut(usize::from(index).wrapping_sub(1))?;
        if book.era != self.era {
            book.clear(false);
            book.touched = 0;
            book.era = self.era;
        }
        Some(book)
    }

    pub fn view(&self, index: u16) -> Option<View<'_>> {
        let book = self.books.get(usize::from(index).wrapping_sub(1))?;
        if book.era != self.era {
            return Some(View {
                whole: false,
                touched: 0,
                sides: [&[], &[]],
            });
        }
        let sides = [book.sides[0].as_slice(), book.sides[1].as_slice()];
        Some(View {
            whole: book.whole,
            touched: book.touched,
            sides,
        })
    }

    #[inline]
    pub fn delta(&mut self, number: u32, delta: &Delta<'_>) {
        let depth = self.depth;
        if let Some(book) = self.book(delta.index) {
            book.touched = number;
            if book.whole {
                book.delta(delta, depth);
            }
        }
    }

    #[inline]
    pub fn full(&mut self, number: u32, full: &Full<'_>) {
        let depth = self.depth;
        if let Some(book) = self.book(full.index) {
            book.touched = number;
            book.fill(full, depth);
        }
    }

    pub fn refresh(&mut self, number: u32, full: &Full<'_>) {
        let (depth, mark) = (self.depth, self.mark);
        if let Some(book) = self.book(full.index)
            && mark <= number
            && book.touched <= number
        {
            book.fill(full, depth);
        }
    }

    /// Every book becomes unknown, and no refresh from before the mark counts.
    #[inline]
    fn forget(&mut self, mark: u32) {
        self.mark = mark;
        self.era += 1;
    }

    #[inline]
    pub fn loss(&mut self, number: u32) {
        self.forget(number);
    }

    pub fn restart(&mut self, number: u32) {
        self.forget(number.saturating_sub(1));
    }
}
