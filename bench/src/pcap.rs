//! The payloads in a capture of Ethernet frames.

use std::ops::Range;

const FILE_HEADER: usize = 24;
const RECORD_HEADER: usize = 16;

fn four(bytes: &[u8], at: usize, little: bool) -> Option<u32> {
    let field = bytes.get(at..)?.first_chunk()?;
    Some(if little {
        u32::from_le_bytes(*field)
    } else {
        u32::from_be_bytes(*field)
    })
}

fn two(bytes: &[u8], at: usize) -> Option<u16> {
    Some(u16::from_be_bytes(*bytes.get(at..)?.first_chunk()?))
}

/// Where the payload of a frame's UDP datagram is in it; none where there is no whole one.
fn payload(frame: &[u8]) -> Option<Range<usize>> {
    let mut at = 12;
    while matches!(two(frame, at)?, 0x8100 | 0x88a8) {
        at += 4;
    }
    if two(frame, at)? != 0x0800 {
        return None;
    }
    let start = at + 2;
    let first = *frame.get(start)?;
    let header = usize::from(first & 15) * 4;
    let end = start + usize::from(two(frame, start + 2)?);
    let fragment = two(frame, start + 6)? & 0x3fff != 0;
    let is_udp = first >> 4 == 4 && header >= 20 && !fragment && *frame.get(start + 9)? == 17;
    let udp = start + header;
    let length = usize::from(two(frame, udp + 4)?);
    let fits = end <= frame.len() && length >= 8 && udp + length <= end;
    (is_udp && fits).then(|| udp + 8..udp + length)
}

/// Where the payloads are in a file's bytes; none where it is no capture of Ethernet frames, or ends inside a record.
pub fn payloads(file: &[u8]) -> Option<Vec<Range<usize>>> {
    let little = match file.first_chunk()? {
        [0xd4, 0xc3, 0xb2, 0xa1] | [0x4d, 0x3c, 0xb2, 0xa1] => true,
        [0xa1, 0xb2, 0xc3, 0xd4] | [0xa1, 0xb2, 0x3c, 0x4d] => false,
        _ => return None,
    };
    if four(file, 20, little)? & 0xffff != 1 {
        return None;
    }
    let mut found = Vec::new();
    let mut at = FILE_HEADER;
    while at < file.len() {
        let captured = four(file, at + 8, little)? as usize;
        let whole = captured == four(file, at + 12, little)? as usize;
        let start = at + RECORD_HEADER;
        let frame = file.get(start..start + captured)?;
        if whole && let Some(range) = payload(frame) {
            found.push(start + range.start..start + range.end);
        }
        at = start + captured;
    }
    Some(found)
}
