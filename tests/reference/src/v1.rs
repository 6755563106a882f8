//! One packet of Protocol 1.0 or Mercury: FF FF, ID, length, body, checksum; the length counts the last two.

use crate::reader::{feed_by, gap_by, on_record, reading_by, Rules};
use crate::{Answer, Found, Given, Step, Verdict};

#[derive(Clone, Copy, PartialEq, Eq, Debug)]
pub enum Protocol {
    P1,
    Mercury,
}

pub const BOTH: [Protocol; 2] = [Protocol::P1, Protocol::Mercury];

const HEADER: [u8; 2] = [0xFF, 0xFF];
/// Header, ID and length.
const BEFORE_BODY: usize = 4;
/// The length counts body and checksum.
pub const SHORTEST_LENGTH: usize = 2;
pub const LONGEST_LENGTH: usize = 255;
pub const LONGEST_PACKET: usize = BEFORE_BODY + LONGEST_LENGTH;
/// A reader holds the longest packet less one byte.
pub const MOST_HELD: usize = LONGEST_PACKET - 1;

pub fn id_valid(protocol: Protocol, id: u8) -> bool {
    match protocol {
        Protocol::P1 => id != 255,
        Protocol::Mercury => id != 253 && id != 255,
    }
}

/// Of the bytes from the ID on, up to the checksum.
pub fn checksum(covered: &[u8]) -> u8 {
    let sum: u64 = covered.iter().map(|&byte| u64::from(byte)).sum();
    !(sum.to_le_bytes()[0])
}

fn checksum_fits(packet: &[u8]) -> bool {
    let (last, rest) = packet.split_last().expect("no packet is empty");
    *last == checksum(&rest[2..])
}

pub fn well_formed(protocol: Protocol, bytes: &[u8]) -> bool {
    bytes.len() >= BEFORE_BODY + SHORTEST_LENGTH
        && bytes[..2] == HEADER
        && id_valid(protocol, bytes[2])
        && usize::from(bytes[3]) >= SHORTEST_LENGTH
        && bytes.len() == BEFORE_BODY + usize::from(bytes[3])
        && checksum_fits(bytes)
}

/// What stands at an offset of an open segment, from the bytes there on.
pub fn verdict(protocol: Protocol, bytes: &[u8]) -> Verdict {
    let header = bytes.len().min(2);
    if bytes[..header] != HEADER[..header] || (bytes.len() > 2 && !id_valid(protocol, bytes[2])) {
        return Verdict::Nothing;
    }
    if bytes.len() < BEFORE_BODY {
        return Verdict::Waiting { missing: BEFORE_BODY + SHORTEST_LENGTH - bytes.len() };
    }
    let length = usize::from(bytes[3]);
    if length < SHORTEST_LENGTH {
        return Verdict::Nothing;
    }
    let count = BEFORE_BODY + length;
    if bytes.len() < count {
        return Verdict::Waiting { missing: count - bytes.len() };
    }
    let id = bytes[2];
    if checksum_fits(&bytes[..count]) {
        Verdict::Packet { id, count }
    } else {
        Verdict::BadChecksum { id }
    }
}

fn rules(protocol: Protocol) -> Rules {
    match protocol {
        Protocol::P1 => |bytes| verdict(Protocol::P1, bytes),
        Protocol::Mercury => |bytes| verdict(Protocol::Mercury, bytes),
    }
}

/// Every event of a closed segment, in order.
pub fn reading(protocol: Protocol, segment: &[u8]) -> Vec<Found> {
    reading_by(rules(protocol), segment)
}

pub fn feed(protocol: Protocol, held: &[u8], chunk: &[u8]) -> Given {
    feed_by(rules(protocol), held, chunk)
}

/// No event means that nothing is left.
pub fn gap(protocol: Protocol, held: &[u8]) -> Given {
    gap_by(rules(protocol), held)
}

pub fn feed_record(
    protocol: Protocol,
    held: &mut [u8; MOST_HELD],
    count: &mut usize,
    chunk: &[u8],
    packet: &mut [u8; LONGEST_PACKET],
) -> Step {
    on_record(held, count, packet, |held| feed(protocol, held, chunk))
}

pub fn gap_record(
    protocol: Protocol,
    held: &mut [u8; MOST_HELD],
    count: &mut usize,
    packet: &mut [u8; LONGEST_PACKET],
) -> Step {
    on_record(held, count, packet, |held| gap(protocol, held))
}

/// Header, ID, length and checksum around a body of at most 254 bytes. It is a packet where the ID is allowed and the body is not
/// empty.
pub fn packet_of(id: u8, body: &[u8]) -> Vec<u8> {
    let length = u8::try_from(body.len() + 1).expect("a body of at most 254 bytes");
    let covered = [&[id, length], body].concat();
    [&HEADER[..], &covered, &[checksum(&covered)]].concat()
}

/// Writes a packet into out from an offset on.
pub fn encode(protocol: Protocol, id: u8, instruction: u8, parameters: &[u8], out: &mut [u8], at: usize) -> Answer {
    if !id_valid(protocol, id) {
        return Err(11);
    }
    if parameters.len() + 2 > LONGEST_LENGTH {
        return Err(12);
    }
    let packet = packet_of(id, &[&[instruction], parameters].concat());
    match out.get_mut(at..) {
        Some(room) if room.len() >= packet.len() => {
            room[..packet.len()].copy_from_slice(&packet);
            Ok(packet.len())
        }
        _ => Err(13),
    }
}

#[cfg(test)]
mod tests {
    use super::*;
    use crate::Event;

    /// Read Data to 1, one byte at 43, as the request has it.
    const READ: [u8; 8] = [0xFF, 0xFF, 0x01, 0x04, 0x02, 0x2B, 0x01, 0xCC];

    fn read() -> Event {
        Event::Packet { id: 1, bytes: READ.to_vec() }
    }

    fn events(protocol: Protocol, segment: &[u8]) -> Vec<Event> {
        reading(protocol, segment).into_iter().map(|found| found.event).collect()
    }

    #[test]
    fn the_packet_of_the_request() {
        for protocol in BOTH {
            assert_eq!(reading(protocol, &READ), [Found { at: 0, next: 8, event: read() }]);
            for cut in 0..READ.len() {
                let given = feed(protocol, &[], &READ[..cut]);
                assert_eq!(given, Given { taken: cut, event: None, held: READ[..cut].to_vec() });
                let rest = feed(protocol, &given.held, &[&READ[cut..], &[7]].concat());
                assert_eq!(rest, Given { taken: 8 - cut, event: Some(read()), held: vec![] });
            }
        }
    }

    /// FF is no ID: of a run of FF only the last two may begin a packet.
    #[test]
    fn runs_of_ff() {
        for protocol in BOTH {
            for before in 0..6 {
                let segment = [&vec![0xFF; before][..], &READ].concat();
                assert_eq!(reading(protocol, &segment), [Found { at: before, next: before + 8, event: read() }]);
                let given = feed(protocol, &[], &segment[..before + 2]);
                assert_eq!(given, Given { taken: before + 2, event: None, held: vec![0xFF; 2] });
            }
        }
    }

    /// A failed packet is not skipped whole: one that stands inside comes out.
    #[test]
    fn packet_inside_a_failed_one() {
        let mut segment = packet_of(9, &[&READ[..], &[7]].concat());
        *segment.last_mut().unwrap() ^= 1;
        for protocol in BOTH {
            let given = feed(protocol, &[], &segment);
            assert_eq!(given, Given { taken: 14, event: Some(Event::BadChecksum { id: 9 }), held: segment[1..].to_vec() });
            assert_eq!(feed(protocol, &given.held, &[1]), Given { taken: 0, event: Some(read()), held: segment[12..].to_vec() });
            assert_eq!(events(protocol, &segment), [Event::BadChecksum { id: 9 }, read()]);
            // in a well-formed one it does not count
            let outer = packet_of(9, &[&READ[..], &[7]].concat());
            assert_eq!(events(protocol, &outer), [Event::Packet { id: 9, bytes: outer.clone() }]);
        }
    }

    /// Nobody waits for the rest of a packet after the gap.
    #[test]
    fn gap_ends_the_waiting() {
        let segment = [&[0xFF, 0xFF, 0x05, 0xFF], &READ[..], &[0xFF, 0xFF, 0xFE]].concat();
        for protocol in BOTH {
            let given = feed(protocol, &[], &segment);
            assert_eq!(given, Given { taken: 15, event: None, held: segment.clone() });
            let given = gap(protocol, &given.held);
            assert_eq!(given, Given { taken: 0, event: Some(read()), held: vec![0xFF, 0xFF, 0xFE] });
            assert_eq!(gap(protocol, &given.held), Given { taken: 0, event: None, held: vec![] });
        }
    }

    #[test]
    fn what_waits() {
        for (bytes, p1, mercury) in [
            (&[0xFF][..], 1, 1),
            (&[0xFF, 0xFF][..], 2, 2),
            (&[0xFF, 0xFE][..], 0, 0),
            (&[0xFF, 0xFF, 0xFD][..], 3, 0),
            (&[0xFF, 0xFF, 0xFE][..], 3, 3),
            (&[0xFF, 0xFF, 0xFF][..], 2, 2),
            (&[0xFF, 0xFF, 0x00, 0x01][..], 0, 0),
            (&[0xFF, 0xFF, 0x00, 0x02][..], 4, 4),
            (&[0xFF, 0xFF, 0x00, 0xFF][..], 4, 4),
        ] {
            for (protocol, held) in [(Protocol::P1, p1), (Protocol::Mercury, mercury)] {
                let given = feed(protocol, &[], bytes);
                assert_eq!((given.taken, given.event, given.held.len()), (bytes.len(), None, held), "{protocol:?} {bytes:02x?}");
            }
        }
    }

    /// The longest packet has 259 bytes, and 258 of them wait.
    #[test]
    fn longest_packet() {
        let longest = packet_of(254, &[0x55; 254]);
        assert_eq!(longest.len(), LONGEST_PACKET);
        for protocol in BOTH {
            let (mut held, mut count, mut packet) = ([7; MOST_HELD], 0, [8; LONGEST_PACKET]);
            let step = feed_record(protocol, &mut held, &mut count, &longest[..MOST_HELD], &mut packet);
            assert_eq!((step, count), (Step { kind: 0, id: 0, taken: MOST_HELD, count: 0 }, MOST_HELD));
            assert_eq!((&held[..], packet), (&longest[..MOST_HELD], [0; LONGEST_PACKET]));
            let step = feed_record(protocol, &mut held, &mut count, &longest[MOST_HELD..], &mut packet);
            assert_eq!((step, count), (Step { kind: 1, id: 254, taken: 1, count: LONGEST_PACKET }, 0));
            assert_eq!((held, &packet[..]), ([0; MOST_HELD], &longest[..]));
        }
    }

    #[test]
    fn refused_record() {
        for (protocol, refused) in BOTH.into_iter().flat_map(|protocol| [259, 1_030, usize::MAX].map(|count| (protocol, count))) {
            let (mut held, mut count, mut packet) = ([7; MOST_HELD], refused, [8; LONGEST_PACKET]);
            let step = Step { kind: 25, id: 0, taken: 0, count: 0 };
            assert_eq!(feed_record(protocol, &mut held, &mut count, &READ, &mut packet), step);
            assert_eq!(gap_record(protocol, &mut held, &mut count, &mut packet), step);
            assert_eq!((held, count, packet), ([7; MOST_HELD], refused, [8; LONGEST_PACKET]));
        }
    }
}
