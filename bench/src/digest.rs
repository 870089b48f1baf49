//! Digests of books and tally, FNV-1a with 64 bits, to hold two programs' results against each other.

use crate::books::{Books, Side};
use crate::tally::Tally;

#[derive(Debug)]
struct Digest(u64);

impl Digest {
    fn new() -> Digest {
        Digest(0xcbf2_9ce4_8422_2325)
    }

    fn add(&mut self, bytes: &[u8]) {
        for byte in bytes {
            self.0 = (self.0 ^ u64::from(*byte)).wrapping_mul(0x0000_0100_0000_01b3);
        }
    }
}

/// Of each book from index 1 on: a byte whether it is whole, then of buys and of sells the count and each level, the best first.
pub fn of_books(books: &Books) -> u64 {
    let mut digest = Digest::new();
    for index in 1..=books.count() {
        let Some(book) = books.view(index as u16) else {
            break;
        };
        digest.add(&[u8::from(book.whole)]);
        for side in [Side::Buy, Side::Sell] {
            digest.add(&(book.count(side) as u16).to_be_bytes());
            for (price, level) in book.levels(side) {
                digest.add(&price.to_be_bytes());
                digest.add(&level.volume.to_be_bytes());
                digest.add(&level.orders.to_be_bytes());
            }
        }
    }
    digest.0
}

/// Of each row: the index and the volume; then the missed count and the losses.
pub fn of_tally(tally: &Tally) -> u64 {
    let mut digest = Digest::new();
    for (index, executed) in tally.rows() {
        digest.add(&index.to_be_bytes());
        digest.add(&executed.to_be_bytes());
    }
    digest.add(&tally.missed().to_be_bytes());
    digest.add(&tally.losses().to_be_bytes());
    digest.0
}

#[cfg(test)]
mod tests {
    use super::Digest;

    fn digest(bytes: &[u8]) -> u64 {
        let mut digest = Digest::new();
        digest.add(bytes);
        digest.0
    }

    #[test]
    fn known_digests() {
        assert_eq!(digest(b""), 0xcbf2_9ce4_8422_2325);
        assert_eq!(digest(b"a"), 0xaf63_dc4c_8601_ec8c);
        assert_eq!(digest(b"foobar"), 0x8594_4171_f739_67e8);
    }
}
