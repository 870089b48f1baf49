//! Offers the packets of a capture to a channel, and prints what came of it and how long it took.

use bench::books::Books;
use bench::channel::{Channel, Refusal};
use bench::digest;
use bench::early::{Early, Held, Map, Ring, Room};
use bench::pcap::payloads;
use bench::tally::Tally;
use std::alloc::{GlobalAlloc, Layout, System};
use std::env;
use std::ops::Range;
use std::process::ExitCode;
use std::sync::atomic::{AtomicUsize, Ordering::Relaxed};
use std::time::Instant;

const HELP: &str = "\
usage: plain FILE [--depth D] [--ring]

Offers every UDP payload of the capture FILE to a channel over 1,024 books of D levels a side
(1,024 where it is not given), and prints one line: the last number, the losses, digests of books
and tally, the nanoseconds of all offers, how many packets there were and were refused, and the
most bytes that the channel kept at a time. Early packets are in a map, with --ring in a ring of
places.
";

const BOOKS: usize = 1_024;
const ROWS: usize = 1_024;
const RECORDS: u32 = 65_535;
const DEPTHS: std::ops::RangeInclusive<usize> = 1..=4_096;

/// Counts the bytes that are kept. The program has one thread, so that plain loads and stores do.
struct Counting;

static KEPT: AtomicUsize = AtomicUsize::new(0);
static MOST: AtomicUsize = AtomicUsize::new(0);

fn count(grown: usize, shrunk: usize) {
    let kept = KEPT.load(Relaxed).wrapping_add(grown).wrapping_sub(shrunk);
    KEPT.store(kept, Relaxed);
    if kept > MOST.load(Relaxed) {
        MOST.store(kept, Relaxed);
    }
}

// SAFETY: every call goes to the system's allocator as it is.
unsafe impl GlobalAlloc for Counting {
    unsafe fn alloc(&self, layout: Layout) -> *mut u8 {
        count(layout.size(), 0);
        // SAFETY: the caller's promise.
        unsafe { System.alloc(layout) }
    }

    unsafe fn dealloc(&self, block: *mut u8, layout: Layout) {
        count(0, layout.size());
        // SAFETY: the caller's promise.
        unsafe { System.dealloc(block, layout) }
    }

    unsafe fn realloc(&self, block: *mut u8, layout: Layout, size: usize) -> *mut u8 {
        count(size, layout.size());
        // SAFETY: the caller's promise.
        unsafe { System.realloc(block, layout, size) }
    }
}

#[global_allocator]
static ALLOCATOR: Counting = Counting;

/// How many of the packets were refused. A reset is refused, and then the channel restarts at its number.
fn offer_all<H: Held>(channel: &mut Channel<H>, file: &[u8], ranges: &[Range<usize>]) -> u64 {
    let mut refused = 0;
    for range in ranges {
        if let Err(refusal) = channel.offer(&file[range.clone()]) {
            refused += 1;
            if let Refusal::Reset { next } = refusal {
                channel.restart(next);
            }
        }
    }
    refused
}

fn run<H: Held>(name: &str, depth: usize) -> Result<(), String> {
    let file = std::fs::read(name).map_err(|error| format!("{name}: {error}"))?;
    let ranges = payloads(&file).ok_or_else(|| format!("{name}: no whole capture of Ethernet"))?;
    let room = Room::chain(RECORDS).ok_or("no such chain")?;
    let before = KEPT.load(Relaxed);
    MOST.store(before, Relaxed);
    let early = Early::<H>::new(room);
    let mut channel = Channel::new(Books::new(BOOKS, depth), Tally::new(ROWS), early, 1);
    let start = Instant::now();
    let refused = offer_all(&mut channel, &file, &ranges);
    let time = start.elapsed().as_nanos();
    let bytes = MOST.load(Relaxed) - before;
    println!(
        "last={} losses={} books={:016x} tally={:016x} ns={time} packets={} refused={refused} bytes={bytes}",
        channel.last(),
        channel.tally().losses(),
        digest::of_books(channel.books()),
        digest::of_tally(channel.tally()),
        ranges.len(),
    );
    Ok(())
}

fn number_of(depth: &str) -> Option<usize> {
    depth.parse().ok().filter(|depth| DEPTHS.contains(depth))
}

fn asked(words: &[&str]) -> Option<Result<(), String>> {
    match *words {
        [name] => Some(run::<Map>(name, 1_024)),
        [name, "--depth", depth] => Some(run::<Map>(name, number_of(depth)?)),
        [name, "--depth", depth, "--ring"] => Some(run::<Ring>(name, number_of(depth)?)),
        [name, "--ring"] => Some(run::<Ring>(name, 1_024)),
        _ => None,
    }
}

fn main() -> ExitCode {
    let words: Vec<String> = env::args().skip(1).collect();
    let words: Vec<&str> = words.iter().map(String::as_str).collect();
    if let ["--help"] = words[..] {
        print!("{HELP}");
        return ExitCode::SUCCESS;
    }
    match asked(&words) {
        Some(Ok(())) => ExitCode::SUCCESS,
        Some(Err(error)) => {
            eprintln!("{error}");
            ExitCode::FAILURE
        }
        None => {
            eprint!("{HELP}");
            ExitCode::from(2)
        }
    }
}
