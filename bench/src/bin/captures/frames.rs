//! Packets, and the capture they are written to.

/// Packets one behind the other.
#[derive(Default)]
pub struct Packets {
    bytes: Vec<u8>,
    ends: Vec<usize>,
}

impl Packets {
    pub fn len(&self) -> usize {
        self.ends.len()
    }

    pub fn get(&self, place: usize) -> &[u8] {
        let start = if place == 0 { 0 } else { self.ends[place - 1] };
        &self.bytes[start..self.ends[place]]
    }

    pub fn push(&mut self, packet: &[u8]) {
        self.bytes.extend_from_slice(packet);
        self.ends.push(self.bytes.len());
    }
}

/// The line that a packet comes on: the last byte of its group's address, and its port.
#[derive(Clone, Copy)]
pub enum Line {
    Primary,
    Secondary,
    Retransmission,
    Refresh,
}

impl Line {
    fn group(self) -> (u8, u16) {
        match self {
            Line::Primary => (76, 11_076),
            Line::Secondary => (204, 11_204),
            Line::Retransmission => (1, 11_301),
            Line::Refresh => (2, 11_302),
        }
    }
}

/// A capture file.
pub struct Capture {
    bytes: Vec<u8>,
    micros: u32,
}

const ETHERNET: [u8; 14] = [1, 0, 94, 0, 59, 76, 2, 0, 0, 0, 0, 1, 8, 0];
const SHORTEST_FRAME: usize = 60;
const START: u32 = 1_300_000_000;

/// The checksum of an IP header whose own checksum is zero.
fn checksum(header: &[u8]) -> u16 {
    let (words, _) = header.as_chunks::<2>();
    let sum: u32 = words
        .iter()
        .map(|word| u32::from(u16::from_be_bytes(*word)))
        .sum();
    let sum = (sum & 0xffff) + (sum >> 16);
    !(((sum & 0xffff) + (sum >> 16)) as u16)
}

impl Capture {
    pub fn new() -> Capture {
        let mut bytes = Vec::with_capacity(1 << 26);
        for word in [0xa1b2_c3d4_u32, 0x0004_0002, 0, 0, 262_144, 1] {
            bytes.extend(word.to_le_bytes());
        }
        Capture { bytes, micros: 0 }
    }

    pub fn add(&mut self, line: Line, packet: &[u8]) {
        let (group, port) = line.group();
        let length = packet.len() as u16;
        let mut ip = [
            69, 0, 0, 0, 0, 0, 64, 0, 16, 17, 0, 0, 10, 0, 0, 1, 224, 0, 59, group,
        ];
        ip[2..4].copy_from_slice(&(length + 28).to_be_bytes());
        let sum = checksum(&ip);
        ip[10..12].copy_from_slice(&sum.to_be_bytes());
        let frame = 42 + packet.len();
        let padded = frame.max(SHORTEST_FRAME);
        for word in [
            START + self.micros / 1_000_000,
            self.micros % 1_000_000,
            padded as u32,
            padded as u32,
        ] {
            self.bytes.extend(word.to_le_bytes());
        }
        self.bytes.extend(ETHERNET);
        self.bytes.extend(ip);
        for field in [11_000, port, length + 8, 0] {
            self.bytes.extend(field.to_be_bytes());
        }
        self.bytes.extend_from_slice(packet);
        self.bytes.resize(self.bytes.len() + padded - frame, 0);
        self.micros += 5;
    }

    pub fn into_bytes(self) -> Vec<u8> {
        self.bytes
    }
}
