//! The reading of a segment, and a reader's calls by the very words of the rule: a feeding call tries no new byte, then one, then
//! two, and reads from the start each time. What stands at an offset is said by the packet rules of a protocol.

use crate::{verdict, Verdict};

pub const LONGEST_PACKET: usize = 1_031;
pub const MOST_HELD: usize = 1_030;

#[derive(Clone, PartialEq, Eq, Debug)]
pub enum Event {
    Packet { id: u8, bytes: Vec<u8> },
    BadChecksum { id: u8 },
}

/// An event, the offset where it begins, and the one where reading goes on.
#[derive(Clone, PartialEq, Eq, Debug)]
pub struct Found {
    pub at: usize,
    pub next: usize,
    pub event: Event,
}

/// What stands at an offset of an open segment, from the bytes there on, in some protocol.
pub type Rules = fn(&[u8]) -> Verdict;

/// What an offset of an open segment comes to.
enum Offset {
    Event(Found),
    Waits,
    Nothing,
}

fn offset(rules: Rules, segment: &[u8], at: usize) -> Offset {
    match rules(&segment[at..]) {
        Verdict::Packet { id, count } => {
            let next = at + count;
            Offset::Event(Found { at, next, event: Event::Packet { id, bytes: segment[at..next].to_vec() } })
        }
        Verdict::BadChecksum { id } => Offset::Event(Found { at, next: at + 1, event: Event::BadChecksum { id } }),
        Verdict::Waiting { .. } => Offset::Waits,
        Verdict::Nothing => Offset::Nothing,
    }
}

/// The first event of a closed segment: where it ends, nothing is waited for.
fn first_event(rules: Rules, segment: &[u8]) -> Option<Found> {
    (0..segment.len()).find_map(|at| match offset(rules, segment, at) {
        Offset::Event(found) => Some(found),
        Offset::Waits | Offset::Nothing => None,
    })
}

/// Every event of a closed segment, in order.
pub fn reading_by(rules: Rules, segment: &[u8]) -> Vec<Found> {
    let mut events = Vec::new();
    let mut start = 0;
    while let Some(found) = first_event(rules, &segment[start..]) {
        let Found { at, next, event } = found;
        events.push(Found { at: start + at, next: start + next, event });
        start += next;
    }
    events
}

pub fn reading(segment: &[u8]) -> Vec<Found> {
    reading_by(verdict, segment)
}

/// How far an open segment can be read: to its first event, or to the offset that waits, or to its end.
fn open(rules: Rules, segment: &[u8]) -> Result<Found, usize> {
    for at in 0..segment.len() {
        match offset(rules, segment, at) {
            Offset::Event(found) => return Ok(found),
            Offset::Waits => return Err(at),
            Offset::Nothing => {}
        }
    }
    Err(segment.len())
}

/// What a call gives: how many bytes of the chunk it took, the event, and what is held afterwards.
#[derive(Clone, PartialEq, Eq, Debug)]
pub struct Given {
    pub taken: usize,
    pub event: Option<Event>,
    pub held: Vec<u8>,
}

pub fn feed_by(rules: Rules, held: &[u8], chunk: &[u8]) -> Given {
    let all = [held, chunk].concat();
    for taken in 0..=chunk.len() {
        let bytes = &all[..held.len() + taken];
        if let Ok(found) = open(rules, bytes) {
            return Given { taken, event: Some(found.event), held: bytes[found.next..].to_vec() };
        }
    }
    let waiting = open(rules, &all).expect_err("an event was looked for at the last byte too");
    Given { taken: chunk.len(), event: None, held: all[waiting..].to_vec() }
}

pub fn feed(held: &[u8], chunk: &[u8]) -> Given {
    feed_by(verdict, held, chunk)
}

/// No event means that nothing is left.
pub fn gap_by(rules: Rules, held: &[u8]) -> Given {
    match first_event(rules, held) {
        Some(found) => Given { taken: 0, event: Some(found.event), held: held[found.next..].to_vec() },
        None => Given { taken: 0, event: None, held: Vec::new() },
    }
}

pub fn gap(held: &[u8]) -> Given {
    gap_by(verdict, held)
}

/// A call's answer in numbers. Kind 0: no event; 1: a packet of `count` bytes; 2: a bad checksum; 25: refused.
#[derive(Clone, Copy, PartialEq, Eq, Debug)]
pub struct Step {
    pub kind: u8,
    pub id: u8,
    pub taken: usize,
    pub count: usize,
}

/// A call on a record that is borrowed: the bytes, how many of them are held, and a buffer for the packet. The protocol's longest
/// packet has PACKET bytes, and one byte less is held at most.
pub fn on_record<const HELD: usize, const PACKET: usize>(
    held: &mut [u8; HELD],
    count: &mut usize,
    packet: &mut [u8; PACKET],
    call: impl FnOnce(&[u8]) -> Given,
) -> Step {
    if *count > HELD {
        return Step { kind: 25, id: 0, taken: 0, count: 0 };
    }
    let given = call(&held[..*count]);
    *held = [0; HELD];
    held[..given.held.len()].copy_from_slice(&given.held);
    *count = given.held.len();
    *packet = [0; PACKET];
    match given.event {
        None => Step { kind: 0, id: 0, taken: given.taken, count: 0 },
        Some(Event::BadChecksum { id }) => Step { kind: 2, id, taken: given.taken, count: 0 },
        Some(Event::Packet { id, bytes }) => {
            packet[..bytes.len()].copy_from_slice(&bytes);
            Step { kind: 1, id, taken: given.taken, count: bytes.len() }
        }
    }
}

pub fn feed_record(held: &mut [u8; MOST_HELD], count: &mut usize, chunk: &[u8], packet: &mut [u8; LONGEST_PACKET]) -> Step {
    on_record(held, count, packet, |held| feed(held, chunk))
}

pub fn gap_record(held: &mut [u8; MOST_HELD], count: &mut usize, packet: &mut [u8; LONGEST_PACKET]) -> Step {
    on_record(held, count, packet, gap)
}

#[cfg(test)]
mod tests {
    use super::*;
    use crate::framed;

    const PING: [u8; 10] = [0xFF, 0xFF, 0xFD, 0x00, 0x01, 0x03, 0x00, 0x01, 0x19, 0x4E];

    fn ping() -> Event {
        Event::Packet { id: 1, bytes: PING.to_vec() }
    }

    #[test]
    fn ping_after_a_cut_header() {
        let segment = [&[0xFF, 0xFF, 0xFD], &PING[..]].concat();
        assert_eq!(reading(&segment), [Found { at: 3, next: 13, event: ping() }]);
        let given = feed(&[], &segment);
        assert_eq!(given, Given { taken: 13, event: Some(ping()), held: vec![] });
    }

    /// A failed packet is not skipped whole: one that stands inside comes out.
    #[test]
    fn packet_inside_a_failed_one() {
        let mut segment = framed(9, &[&PING[..], &[7]].concat());
        *segment.last_mut().unwrap() ^= 1;
        let bad = Event::BadChecksum { id: 9 };
        let inner = Found { at: 7, next: 17, event: ping() };
        assert_eq!(reading(&segment), [Found { at: 0, next: 1, event: bad.clone() }, inner]);

        let given = feed(&[], &segment);
        assert_eq!(given, Given { taken: 20, event: Some(bad), held: segment[1..].to_vec() });
        // the next event needs no new byte
        let given = feed(&given.held, &[1, 2, 3]);
        assert_eq!(given, Given { taken: 0, event: Some(ping()), held: segment[17..].to_vec() });
    }

    /// Right checksum, wrong stuffing: no event, and the packet inside counts as soon as all of the outer one is there.
    #[test]
    fn packet_inside_wrong_stuffing() {
        let outer = framed(9, &[&[0xFF, 0xFF, 0xFD, 0x11], &PING[..]].concat());
        assert_eq!(reading(&outer), [Found { at: 11, next: 21, event: ping() }]);
        assert_eq!(feed(&[], &outer), Given { taken: 23, event: Some(ping()), held: outer[21..].to_vec() });
    }

    /// Nobody waits for the rest of a packet after the gap.
    #[test]
    fn gap_ends_the_waiting() {
        let long = [0xFF, 0xFF, 0xFD, 0x00, 0x05, 0x00, 0x04];
        let segment = [&long[..], &PING[..], &[0xFF, 0xFF]].concat();
        let given = feed(&[], &segment);
        assert_eq!(given, Given { taken: 19, event: None, held: segment.clone() });
        let given = gap(&given.held);
        assert_eq!(given, Given { taken: 0, event: Some(ping()), held: vec![0xFF, 0xFF] });
        assert_eq!(gap(&given.held), Given { taken: 0, event: None, held: vec![] });
    }

    #[test]
    fn what_waits() {
        for (bytes, held) in [
            (&[0xFF, 0xFF, 0xFF, 0xFF][..], 2),
            (&[0xFF, 0xFF, 0xFD, 0x01][..], 0),
            (&[0xFF, 0xFF, 0xFD, 0x00, 0xFD][..], 0),
            (&[0xFF, 0xFF, 0xFD, 0x00, 0xFF][..], 1),
            // the low length byte alone refuses nothing
            (&[0xFF, 0xFF, 0xFD, 0x00, 0xFE, 0x02][..], 6),
            (&[0xFF, 0xFF, 0xFD, 0x00, 0xFE, 0x02, 0x00][..], 0),
            (&[0xFF, 0xFF, 0xFD, 0x00, 0xFE, 0x00, 0x04][..], 7),
            (&[0xFF, 0xFF, 0xFD, 0x00, 0xFE, 0x01, 0x04][..], 0),
        ] {
            let given = feed(&[], bytes);
            assert_eq!((given.taken, given.event, given.held.len()), (bytes.len(), None, held), "{bytes:02x?}");
        }
    }

    #[test]
    fn refused_record() {
        let (mut held, mut count, mut packet) = ([7; MOST_HELD], MOST_HELD + 1, [8; LONGEST_PACKET]);
        let refused = Step { kind: 25, id: 0, taken: 0, count: 0 };
        assert_eq!(feed_record(&mut held, &mut count, &PING, &mut packet), refused);
        assert_eq!(gap_record(&mut held, &mut count, &mut packet), refused);
        assert_eq!((held, count, packet), ([7; MOST_HELD], MOST_HELD + 1, [8; LONGEST_PACKET]));
    }
}
