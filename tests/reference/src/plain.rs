//! The plain reader by the words of its request: a whole segment, offset by offset. It shares only the tests of one packet with the
//! reading of segments that are still open.

use crate::{checksum, well_formed, Event, Found};

/// The bytes from here on that header, ID and length announce, where these are right and all the bytes are there.
fn announced(bytes: &[u8]) -> Option<&[u8]> {
    let [0xFF, 0xFF, 0xFD, 0x00, id, low, high, ..] = *bytes else { return None };
    let length = usize::from(low) + 256 * usize::from(high);
    if id == 253 || id == 255 || !(3..=1_024).contains(&length) {
        return None;
    }
    bytes.get(..7 + length)
}

fn checksum_is_right(bytes: &[u8]) -> bool {
    let (covered, sum) = bytes.split_at(bytes.len() - 2);
    checksum(0, covered).to_le_bytes() == sum
}

/// The event at an offset, if one begins there.
fn event_at(segment: &[u8], offset: usize) -> Option<Found> {
    let bytes = announced(&segment[offset..])?;
    let id = bytes[4];
    if well_formed(bytes) {
        let event = Event::Packet { id, bytes: bytes.to_vec() };
        return Some(Found { at: offset, next: offset + bytes.len(), event });
    }
    (!checksum_is_right(bytes)).then_some(Found { at: offset, next: offset + 1, event: Event::BadChecksum { id } })
}

/// The next event at an offset or behind it. Any offset may be asked for; past the end there is nothing.
pub fn next_event(segment: &[u8], from: usize) -> Option<Found> {
    (from..segment.len()).find_map(|offset| event_at(segment, offset))
}

#[cfg(test)]
mod tests {
    use super::*;
    use crate::{framed, packet_of, reading};

    fn all(segment: &[u8]) -> Vec<Found> {
        std::iter::successors(next_event(segment, 0), |found| next_event(segment, found.next)).collect()
    }

    #[test]
    fn a_packet_inside_a_failed_one_and_one_cut_short() {
        let ping = packet_of(1, &[1]);
        let mut outer = framed(9, &[&ping[..], &[7]].concat());
        *outer.last_mut().unwrap() ^= 1;
        let segment = [&[0xFF, 0xFF, 0xFD][..], &outer, &ping, &ping[..9]].concat();
        let offsets: Vec<_> = all(&segment).iter().map(|found| (found.at, found.next)).collect();
        assert_eq!(offsets, [(3, 4), (10, 20), (23, 33)]);
        assert_eq!(all(&segment), reading(&segment));
    }

    #[test]
    fn any_offset() {
        let ping = packet_of(1, &[1]);
        let whole = Found { at: 0, next: 10, event: Event::Packet { id: 1, bytes: ping.clone() } };
        assert_eq!(next_event(&ping, 0), Some(whole));
        for from in [1, 9, 10, 11, usize::MAX] {
            assert_eq!(next_event(&ping, from), None);
        }
        assert_eq!(next_event(&[], 0), None);
    }
}
