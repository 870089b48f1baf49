//! Holds the plain handler against the answers owed by the console: docs/CONSOLE.md has the commands.

use bench::books::{Books, Side};
use bench::channel::{Channel, Refusal};
use bench::early::{Early, Map, Room};
use bench::reader::{DeltaPoint, Fault, FullPoint, Message, four_at, read, two_at, unit};
use bench::tally::Tally;
use std::fmt::Write;
use std::path::Path;

#[derive(Clone, Copy)]
struct Claim {
    serial: u32,
    begin: u32,
    end: u32,
}

/// A channel and what its console knows beside it.
struct Desk {
    channel: Channel<Map>,
    number: Option<u8>,
    source: Vec<u8>,
    serials: u32,
    claim: Option<Claim>,
}

fn hex(word: &str) -> Option<Vec<u8>> {
    let digits = word
        .bytes()
        .map(|byte| char::from(byte).to_digit(16))
        .collect::<Option<Vec<u32>>>()?;
    let (pairs, []) = digits.as_chunks::<2>() else {
        return None;
    };
    Some(
        pairs
            .iter()
            .map(|[high, low]| (high * 16 + low) as u8)
            .collect(),
    )
}

fn number<T: std::str::FromStr>(word: &str) -> Option<T> {
    word.bytes()
        .all(|byte| byte.is_ascii_digit())
        .then(|| word.parse().ok())?
}

fn source(word: &str) -> Option<Vec<u8>> {
    word.strip_prefix("hex:")
        .map_or_else(|| Some(word.as_bytes().to_vec()), hex)
}

fn level(side: &str, price: u64, volume: u32, orders: u16) -> String {
    format!(
        "  {side} {}.{:09} {volume} {orders}",
        price / 1_000_000_000,
        price % 1_000_000_000
    )
}

fn letter(side: u8) -> &'static str {
    if side == b'B' { "buy" } else { "sell" }
}

fn reader_fault(fault: Fault) -> String {
    match fault {
        Fault::Body { offset } => format!("refused 7 by reader offset={offset}\n"),
        other => format!("refused {} by reader\n", other.number()),
    }
}

fn refusal(refusal: Refusal) -> String {
    match refusal {
        Refusal::Reader(fault) => reader_fault(fault),
        Refusal::Reset { next } => format!("refused 8 by channel next={next}\n"),
        Refusal::NoRoom => "refused 13 by shelf\n".to_string(),
        other => format!("refused {} by channel\n", other.number()),
    }
}

fn full_line(point: &FullPoint, scale: u8) -> String {
    level(
        letter(point[10]),
        u64::from(four_at(point, 0)) * unit(scale),
        four_at(point, 4),
        two_at(point, 8),
    )
}

fn delta_line(point: &DeltaPoint, scale: u8) -> String {
    let level = level(
        letter(point[14]),
        u64::from(four_at(point, 0)) * unit(scale),
        four_at(point, 4),
        two_at(point, 12),
    );
    format!(
        "{level} {} {} {}",
        char::from(point[15]),
        four_at(point, 8),
        four_at(point, 16)
    )
}

fn read_text(bytes: &[u8]) -> String {
    let packet = match read(bytes) {
        Ok(packet) => packet,
        Err(fault) => return reader_fault(fault),
    };
    let number = packet.number;
    let heading = |name: &str, index: u16, scale: u8, points: usize| {
        format!(
            "{name} number={number} flag={} link={} index={index} scale={scale} points={points}",
            packet.flag, packet.link
        )
    };
    let lines: Vec<String> = match packet.message {
        Message::Reset { next } => vec![format!("reset number={number} next={next}")],
        Message::Unavailable { begin, end } => vec![format!(
            "unavailable number={number} begin={begin} end={end}"
        )],
        Message::Mapping => vec![format!("mapping number={number}")],
        Message::Full(full) => {
            let first = heading("full", full.index, full.scale, full.points.len());
            let points = full.points.iter().map(|point| full_line(point, full.scale));
            std::iter::once(first).chain(points).collect()
        }
        Message::Delta(delta) => {
            let first = heading("delta", delta.index, delta.scale, delta.points.len());
            let points = delta
                .points
                .iter()
                .map(|point| delta_line(point, delta.scale));
            std::iter::once(first).chain(points).collect()
        }
    };
    lines.join("\n") + "\n"
}

/// A setup: none where the words are wrong, and then a desk or the number of the refusal.
fn setup(words: &[&str]) -> Option<Result<Desk, u32>> {
    let [shelf, quotas @ .., books, depth, rows] = words else {
        return None;
    };
    let chain = match *shelf {
        "slots" => None,
        word => Some(number(word.strip_prefix("chain=")?)?),
    };
    let limits = quotas
        .iter()
        .map(|word| number::<u32>(word.strip_prefix("quota=")?))
        .collect::<Option<Vec<u32>>>()?;
    let books = number::<u32>(books.strip_prefix("books=")?)? as usize;
    let depth = number::<u32>(depth.strip_prefix("depth=")?)? as usize;
    let rows = number::<u32>(rows.strip_prefix("rows=")?)? as usize;
    let Some(room) = chain.map_or(Some(Room::SLOTS), Room::chain) else {
        return Some(Err(21));
    };
    if !(1..=1_024).contains(&books) || !(1..=4_096).contains(&depth) {
        return Some(Err(22));
    }
    let early = Early::new(limits.into_iter().fold(room, Room::limited));
    let channel = Channel::new(Books::new(books, depth), Tally::new(rows), early, 1);
    Some(Ok(Desk {
        channel,
        number: None,
        source: Vec::new(),
        serials: 0,
        claim: None,
    }))
}

impl Desk {
    fn make(&mut self, number: u8, source: Vec<u8>, first: u32) -> Result<String, u32> {
        if self.number.is_some() {
            return Err(23);
        }
        if first == 0 {
            return Err(19);
        }
        if !(1..=20).contains(&source.len()) || source.contains(&0) {
            return Err(20);
        }
        self.channel.restart(first);
        self.number = Some(number);
        self.source = source;
        Ok(format!("made last={}\n", self.channel.last()))
    }

    fn offer(&mut self, bytes: &[u8]) -> String {
        if self.number.is_none() {
            return "refused 23 by channel\n".to_string();
        }
        match self.channel.offer(bytes) {
            Ok(taken) => format!("taken last={} handed={}\n", taken.last, taken.handed),
            Err(fault) => refusal(fault),
        }
    }

    fn request(&self, claim: Claim, time: u32) -> Vec<u8> {
        let mut bytes = vec![0, 42, 0, 20, 0, 0, 0, 0];
        bytes.extend(time.to_be_bytes());
        bytes.extend([115, 1, 1, 0]);
        bytes.extend(claim.begin.to_be_bytes());
        bytes.extend(claim.end.to_be_bytes());
        bytes.extend(&self.source);
        bytes.resize(44, 0);
        bytes
    }

    fn claim(&mut self, time: u32) -> Result<String, u32> {
        if self.claim.is_some() {
            return Err(15);
        }
        let number = self.number.ok_or(23_u32)?;
        let last = self.channel.last();
        let first = *self.channel.early().held().keys().next().ok_or(16_u32)?;
        if first == last + 1 {
            return Err(16);
        }
        if self.serials == 500 {
            return Err(17);
        }
        self.serials += 1;
        let claim = Claim {
            serial: self.serials,
            begin: last + 1,
            end: (first - 1).min(last.saturating_add(1_000)),
        };
        self.claim = Some(claim);
        let mut text = format!(
            "claimed channel={number} serial={} from={} to={} request=",
            claim.serial, claim.begin, claim.end
        );
        for byte in self.request(claim, time) {
            write!(text, "{byte:02x}").unwrap();
        }
        Ok(text + "\n")
    }

    fn settle(&mut self) -> String {
        let Some(claim) = self.claim.take() else {
            return "no claim\n".to_string();
        };
        let open = (claim.end - claim.begin + 1).min(claim.end.saturating_sub(self.channel.last()));
        let held = match claim.begin.max(self.channel.last().saturating_add(1)) {
            begin if begin <= claim.end => {
                self.channel.early().held().range(begin..=claim.end).count()
            }
            _ => 0,
        };
        format!("settled missing={}\n", open as usize - held)
    }

    fn restart(&mut self, number: u32) -> Result<String, u32> {
        if self.number.is_none() {
            return Err(23);
        }
        if self.claim.is_some() {
            return Err(15);
        }
        if number == 0 {
            return Err(19);
        }
        self.channel.restart(number);
        Ok(format!("restarted last={}\n", self.channel.last()))
    }

    fn book(&self, index: u16) -> String {
        let Some(book) = self.channel.books().view(index) else {
            return format!("book {index} none\n");
        };
        let (buys, sells) = (book.count(Side::Buy), book.count(Side::Sell));
        let state = if book.whole { "whole" } else { "partial" };
        let mut text = format!(
            "book {index} {state} touched={} buys={buys} sells={sells}\n",
            book.touched
        );
        for (side, name) in [(Side::Buy, "buy"), (Side::Sell, "sell")] {
            for (price, found) in book.levels(side) {
                writeln!(text, "{}", level(name, price, found.volume, found.orders)).unwrap();
            }
        }
        text
    }

    fn row(&self, index: u16) -> String {
        match self.channel.tally().executed(index) {
            Some(executed) => format!("row {index} executed={executed}\n"),
            None => format!("row {index} none\n"),
        }
    }

    fn state(&self) -> String {
        let channel = &self.channel;
        let last = if self.number.is_some() {
            channel.last()
        } else {
            0
        };
        let (units, mark) = (channel.early().used(), channel.books().mark());
        let (missed, losses) = (channel.tally().missed(), channel.tally().losses());
        format!("state last={last} units={units} mark={mark} missed={missed} losses={losses}\n")
    }

    /// The answer to a command; none where it can't be read.
    fn answer(&mut self, words: &[&str]) -> Option<String> {
        let answer = match *words {
            ["make", channel, named, first] => {
                self.make(number(channel)?, source(named)?, number(first)?)
            }
            ["offer"] => Ok(self.offer(&[])),
            ["offer", bytes] => Ok(self.offer(&hex(bytes)?)),
            ["claim", time] => self.claim(number(time)?),
            ["settle"] => Ok(self.settle()),
            ["restart", from] => self.restart(number(from)?),
            ["book", index] => Ok(self.book(number(index)?)),
            ["row", index] => Ok(self.row(number(index)?)),
            ["state"] => Ok(self.state()),
            _ => return None,
        };
        Some(answer.unwrap_or_else(|fault| format!("refused {fault}\n")))
    }
}

fn answer(desk: &mut Option<Desk>, words: &[&str]) -> Option<String> {
    match *words {
        ["read"] => Some(read_text(&[])),
        ["read", bytes] => Some(read_text(&hex(bytes)?)),
        ["setup", ref rest @ ..] => {
            let made = setup(rest)?;
            let text = made
                .as_ref()
                .err()
                .map_or("ready\n".to_string(), |fault| format!("refused {fault}\n"));
            *desk = made.ok();
            Some(text)
        }
        _ => desk.as_mut()?.answer(words),
    }
}

fn answers(script: &[u8]) -> String {
    let mut desk = None;
    let mut text = String::new();
    for line in script.split(|byte| *byte == b'\n') {
        let line = String::from_utf8_lossy(line);
        let words: Vec<&str> = line
            .split([' ', '\t', '\r'])
            .filter(|word| !word.is_empty())
            .collect();
        if !words.is_empty() && !line.starts_with('#') {
            text += &answer(&mut desk, &words).unwrap_or_else(|| "unreadable\n".to_string());
        }
    }
    text
}

fn hold(script: &Path, owed: &Path) {
    let found = answers(&std::fs::read(script).unwrap());
    let owed = std::fs::read_to_string(owed).unwrap();
    for (place, (found, owed)) in found.lines().zip(owed.lines()).enumerate() {
        assert_eq!(
            found,
            owed,
            "line {} of the answers to {}",
            place + 1,
            script.display()
        );
    }
    assert_eq!(
        found.lines().count(),
        owed.lines().count(),
        "{}",
        script.display()
    );
    println!("{}: {} lines", script.display(), owed.lines().count());
}

#[test]
fn handler_script() {
    let handler = Path::new(env!("CARGO_MANIFEST_DIR")).join("../crates/handler");
    hold(&handler.join("stdin"), &handler.join("stdout"));
}

/// Scripts and answers in a directory of one's own: NAME.script and NAME.answers.
#[test]
fn further_scripts() {
    let Some(directory) = std::env::var_os("BENCH_SCRIPTS") else {
        return;
    };
    for entry in std::fs::read_dir(directory).unwrap() {
        let script = entry.unwrap().path();
        if script.extension().is_some_and(|kind| kind == "script") {
            hold(&script, &script.with_extension("answers"));
        }
    }
}
