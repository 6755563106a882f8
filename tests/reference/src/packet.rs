//! One packet: FF FF FD 00, ID, length low and high, stuffed body, checksum low and high.

use crate::{checksum, stuff, well_stuffed, Answer};

const HEADER: [u8; 4] = [0xFF, 0xFF, 0xFD, 0x00];
/// Header, ID and the two length bytes.
const BEFORE_BODY: usize = 7;
/// The length counts body and checksum.
pub const SHORTEST_LENGTH: usize = 3;
pub const LONGEST_LENGTH: usize = 1_024;

fn id_valid(id: u8) -> bool {
    id <= 252 || id == 254
}

fn length_valid(length: usize) -> bool {
    (SHORTEST_LENGTH..=LONGEST_LENGTH).contains(&length)
}

fn length_of(bytes: &[u8]) -> usize {
    usize::from(bytes[5]) + 256 * usize::from(bytes[6])
}

fn checksum_fits(packet: &[u8]) -> bool {
    let (covered, crc) = packet.split_at(packet.len() - 2);
    let sum = checksum(0, covered);
    crc == [(sum % 256) as u8, (sum / 256) as u8]
}

fn body_of(packet: &[u8]) -> &[u8] {
    &packet[BEFORE_BODY..packet.len() - 2]
}

pub fn well_formed(bytes: &[u8]) -> bool {
    bytes.len() >= BEFORE_BODY + SHORTEST_LENGTH
        && bytes[..4] == HEADER
        && id_valid(bytes[4])
        && length_valid(length_of(bytes))
        && bytes.len() == BEFORE_BODY + length_of(bytes)
        && well_stuffed(body_of(bytes))
        && checksum_fits(bytes)
}

/// What stands at an offset of an open segment, from the bytes there on.
#[derive(Clone, Copy, PartialEq, Eq, Debug)]
pub enum Verdict {
    Nothing,
    Packet {
        id: u8,
        count: usize,
    },
    BadChecksum {
        id: u8,
    },
    /// So many bytes are missing at least.
    Waiting {
        missing: usize,
    },
}

pub fn verdict(bytes: &[u8]) -> Verdict {
    let header = bytes.len().min(4);
    if bytes[..header] != HEADER[..header] || (bytes.len() > 4 && !id_valid(bytes[4])) {
        return Verdict::Nothing;
    }
    if bytes.len() < BEFORE_BODY {
        return Verdict::Waiting { missing: BEFORE_BODY + SHORTEST_LENGTH - bytes.len() };
    }
    if !length_valid(length_of(bytes)) {
        return Verdict::Nothing;
    }
    let count = BEFORE_BODY + length_of(bytes);
    if bytes.len() < count {
        return Verdict::Waiting { missing: count - bytes.len() };
    }
    let (packet, id) = (&bytes[..count], bytes[4]);
    if well_formed(packet) {
        Verdict::Packet { id, count }
    } else if !checksum_fits(packet) {
        Verdict::BadChecksum { id }
    } else {
        Verdict::Nothing
    }
}

/// Header, ID, length and checksum around a body as it stands. It is a packet where ID, length and stuffing are right.
pub fn framed(id: u8, stuffed: &[u8]) -> Vec<u8> {
    let length = stuffed.len() + 2;
    let mut packet = HEADER.to_vec();
    packet.extend([id, (length % 256) as u8, (length / 256) as u8]);
    packet.extend(stuffed);
    let sum = checksum(0, &packet);
    packet.extend([(sum % 256) as u8, (sum / 256) as u8]);
    packet
}

/// The packet that carries an unstuffed body: the instruction and its parameters.
pub fn packet_of(id: u8, body: &[u8]) -> Vec<u8> {
    framed(id, &stuff(body))
}

/// Writes a packet into out from an offset on.
pub fn encode(id: u8, instruction: u8, parameters: &[u8], out: &mut [u8], at: usize) -> Answer {
    if !id_valid(id) {
        return Err(11);
    }
    let body = [&[instruction], parameters].concat();
    if stuff(&body).len() + 2 > LONGEST_LENGTH {
        return Err(12);
    }
    let packet = packet_of(id, &body);
    match out.get_mut(at..) {
        Some(room) if room.len() >= packet.len() => {
            room[..packet.len()].copy_from_slice(&packet);
            Ok(packet.len())
        }
        _ => Err(13),
    }
}
