//! What a packet says, or why it is refused.

pub const SHORTEST: usize = 16;
pub const LONGEST: usize = 1_500;

const PRODUCT: u8 = 115;
const HIGHEST_SCALE: u8 = 9;

pub type FullPoint = [u8; 12];
pub type DeltaPoint = [u8; 28];

#[derive(Clone, Copy, Debug, PartialEq, Eq)]
pub struct Full<'a> {
    pub index: u16,
    pub scale: u8,
    pub points: &'a [FullPoint],
}

#[derive(Clone, Copy, Debug, PartialEq, Eq)]
pub struct Delta<'a> {
    pub index: u16,
    pub scale: u8,
    pub points: &'a [DeltaPoint],
}

#[derive(Clone, Copy, Debug, PartialEq, Eq)]
pub enum Message<'a> {
    Reset { next: u32 },
    Unavailable { begin: u32, end: u32 },
    Mapping,
    Full(Full<'a>),
    Delta(Delta<'a>),
}

#[derive(Clone, Copy, Debug, PartialEq, Eq)]
pub struct Packet<'a> {
    pub number: u32,
    pub flag: u8,
    pub link: u8,
    pub message: Message<'a>,
}

#[derive(Clone, Copy, Debug, PartialEq, Eq)]
pub enum Fault {
    Length,
    Size,
    Product,
    Type,
    Flag,
    Body { offset: usize },
}

impl Fault {
    pub fn number(self) -> u32 {
        match self {
            Fault::Length => 2,
            Fault::Size => 3,
            Fault::Product => 4,
            Fault::Type => 5,
            Fault::Flag => 6,
            Fault::Body { .. } => 7,
        }
    }
}

/// Two bytes at a place, the more significant first.
#[inline(always)]
pub fn two_at<const N: usize>(bytes: &[u8; N], at: usize) -> u16 {
    u16::from_be_bytes([bytes[at], bytes[at + 1]])
}

/// Four bytes at a place, the more significant first.
#[inline(always)]
pub fn four_at<const N: usize>(bytes: &[u8; N], at: usize) -> u32 {
    u32::from_be_bytes([bytes[at], bytes[at + 1], bytes[at + 2], bytes[at + 3]])
}

#[inline(always)]
fn is_side(byte: u8) -> bool {
    matches!(byte, b'B' | b'S')
}

#[inline(always)]
fn is_reason(byte: u8) -> bool {
    matches!(byte, b'O' | b'C' | b'E' | b'X')
}

fn fault_at<T>(offset: usize) -> Result<T, Fault> {
    Err(Fault::Body { offset })
}

fn read_reset(bytes: &[u8]) -> Result<Message<'_>, Fault> {
    let Ok(fields) = <&[u8; 20]>::try_from(bytes) else {
        return fault_at(0);
    };
    match four_at(fields, 16) {
        0 => fault_at(16),
        next => Ok(Message::Reset { next }),
    }
}

fn read_unavailable(bytes: &[u8]) -> Result<Message<'_>, Fault> {
    let Ok(fields) = <&[u8; 24]>::try_from(bytes) else {
        return fault_at(0);
    };
    let (begin, end) = (four_at(fields, 16), four_at(fields, 20));
    if begin == 0 {
        fault_at(16)
    } else if end < begin {
        fault_at(20)
    } else {
        Ok(Message::Unavailable { begin, end })
    }
}

#[inline]
fn read_full(bytes: &[u8]) -> Result<Full<'_>, Fault> {
    let Some((fields, rest)) = bytes.split_first_chunk::<46>() else {
        return fault_at(0);
    };
    let (points, []) = rest.as_chunks() else {
        return fault_at(0);
    };
    Ok(Full {
        index: two_at(fields, 18),
        scale: fields[42],
        points,
    })
}

#[inline]
fn check_full(full: &Full<'_>) -> Result<(), Fault> {
    if full.scale > HIGHEST_SCALE {
        return fault_at(42);
    }
    if full
        .points
        .iter()
        .fold(true, |right, point| right & is_side(point[10]))
    {
        return Ok(());
    }
    let wrong = full
        .points
        .iter()
        .take_while(|point| is_side(point[10]))
        .count();
    fault_at(46 + 12 * wrong + 10)
}

#[inline]
fn read_delta(bytes: &[u8]) -> Result<Delta<'_>, Fault> {
    let Some((fields, rest)) = bytes.split_first_chunk::<34>() else {
        return fault_at(0);
    };
    match rest.as_chunks() {
        (points @ [_, ..], []) => Ok(Delta {
            index: two_at(fields, 18),
            scale: fields[33],
            points,
        }),
        _ => fault_at(0),
    }
}

#[inline]
fn check_delta(delta: &Delta<'_>) -> Result<(), Fault> {
    if delta.scale > HIGHEST_SCALE {
        return fault_at(33);
    }
    for (place, point) in delta.points.iter().enumerate() {
        if !is_side(point[14]) {
            return fault_at(34 + 28 * place + 14);
        }
        if !is_reason(point[15]) {
            return fault_at(34 + 28 * place + 15);
        }
    }
    Ok(())
}

/// The data that a packet has. The packet was read before, so that its header, scale and points are right.
#[inline]
pub fn data_of(bytes: &[u8]) -> Option<Message<'_>> {
    match bytes {
        [_, _, 0, 230, ..] => read_full(bytes).ok().map(Message::Full),
        [_, _, 0, 231, ..] => read_delta(bytes).ok().map(Message::Delta),
        [_, _, 0, 35, ..] => Some(Message::Mapping),
        _ => None,
    }
}

/// Reads a packet.
#[inline]
pub fn read(bytes: &[u8]) -> Result<Packet<'_>, Fault> {
    if bytes.len() > LONGEST {
        return Err(Fault::Length);
    }
    let Some(header) = bytes.first_chunk::<SHORTEST>() else {
        return Err(Fault::Length);
    };
    if usize::from(two_at(header, 0)) + 2 != bytes.len() {
        return Err(Fault::Size);
    }
    if header[12] != PRODUCT {
        return Err(Fault::Product);
    }
    let kind = two_at(header, 2);
    if !matches!(kind, 1 | 5 | 35 | 230 | 231) {
        return Err(Fault::Type);
    }
    let flag = header[13];
    if !(matches!(flag, 1 | 2) || kind == 230 && matches!(flag, 5 | 6)) {
        return Err(Fault::Flag);
    }
    let message = match kind {
        231 => {
            let delta = read_delta(bytes)?;
            check_delta(&delta)?;
            Message::Delta(delta)
        }
        230 => {
            let full = read_full(bytes)?;
            check_full(&full)?;
            Message::Full(full)
        }
        35 if bytes.len() == 30 => Message::Mapping,
        35 => return fault_at(0),
        5 => read_unavailable(bytes)?,
        _ => read_reset(bytes)?,
    };
    Ok(Packet {
        number: four_at(header, 4),
        flag,
        link: header[15],
        message,
    })
}

const POWERS: [u64; 10] = [
    1_000_000_000,
    100_000_000,
    10_000_000,
    1_000_000,
    100_000,
    10_000,
    1_000,
    100,
    10,
    1,
];

/// How many billionths of a dollar one of a scale is.
#[inline(always)]
pub fn unit(scale: u8) -> u64 {
    POWERS.get(usize::from(scale)).copied().unwrap_or(0)
}
