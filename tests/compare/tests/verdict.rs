//! The verdict on an offset of an open segment: the proved code and the reference give the same.

use compare::{body, packet, published, Status};
use reference::{framed, verdict, well_formed, Rng, Verdict, LONGEST_LENGTH};

/// The verdict as the export numbers it.
fn numbers(verdict: Verdict) -> (u8, u8, usize) {
    match verdict {
        Verdict::Nothing => (0, 0, 0),
        Verdict::Packet { id: _, count } => (1, 0, count),
        Verdict::BadChecksum { id } => (2, id, 0),
        Verdict::Waiting { missing } => (3, 0, missing),
    }
}

fn compare_at(segment: &[u8], offset: usize) -> u8 {
    let expected = numbers(verdict(segment.get(offset..).unwrap_or(&[])));
    assert_eq!(exports::test::verdict(segment, offset), expected, "at {offset} of {segment:02x?}");
    expected.0
}

/// Short packets, sometimes the longest and a little over.
fn length(rng: &mut Rng) -> usize {
    if rng.one_in(20) {
        rng.between(1_000, 1_024)
    } else {
        rng.between(0, 24)
    }
}

/// Each length from nothing to all of it, with what follows. [M1 P10 V3 V8 V11]
#[test]
fn every_truncation() {
    let mut rng = Rng::new(30);
    let mut kinds = [0; 4];
    for _ in 0..1_500 {
        let length = length(&mut rng);
        let mut bytes = packet(&mut rng, length);
        let following = rng.between(0, 12);
        bytes.extend(body(&mut rng, following));
        for end in 0..=bytes.len() {
            kinds[usize::from(compare_at(&bytes[..end], 0))] += 1;
        }
    }
    assert!(kinds.iter().enumerate().all(|(kind, &count)| kind == 2 || count > 500), "{kinds:?}");
}

/// One byte changed, at every place; the packet stands after other bytes. [P1 V4]
#[test]
fn one_byte_changed() {
    let mut rng = Rng::new(31);
    let mut kinds = [0; 4];
    for _ in 0..2_500 {
        let length = length(&mut rng);
        let before = rng.between(0, 3);
        let mut segment = rng.bytes(before);
        segment.extend(packet(&mut rng, length));
        let step = if segment.len() > 100 { rng.between(1, 40) } else { 1 };
        for place in (before..segment.len()).step_by(step) {
            let kept = segment[place];
            segment[place] = if rng.one_in(2) { kept ^ (1 << rng.between(0, 7)) } else { kept ^ rng.between(1, 255) as u8 };
            kinds[usize::from(compare_at(&segment, before))] += 1;
            segment[place] = kept;
        }
    }
    assert!([0, 2, 3].iter().all(|&kind: &usize| kinds[kind] > 500), "{kinds:?}");
}

/// One byte, or two side by side, changed after the length field and before the checksum: a bad checksum with the packet's ID, at
/// every place, whatever follows. [P11]
#[test]
fn spoiled_neighbours() {
    let mut rng = Rng::new(34);
    let mut changed = [0; 3];
    for _ in 0..1_500 {
        let length = length(&mut rng);
        let packet = packet(&mut rng, length);
        if !well_formed(&packet) {
            continue;
        }
        let end = packet.len() - 2;
        let step = if packet.len() > 100 { rng.between(1, 40) } else { 1 };
        for place in (7..end).step_by(step) {
            let mut segment = packet.clone();
            segment[place] ^= rng.byte();
            if place + 1 < end && rng.one_in(2) {
                segment[place + 1] ^= rng.byte();
            }
            if segment == packet {
                continue;
            }
            changed[segment.iter().zip(&packet).filter(|(new, old)| new != old).count()] += 1;
            assert!(!well_formed(&segment), "{segment:02x?}");
            let following = rng.between(0, 12);
            segment.extend(rng.bytes(following));
            assert_eq!(exports::test::verdict(&segment, 0), (2, packet[4], 0), "at {place} of {segment:02x?}");
            compare_at(&segment, 0);
        }
    }
    assert!(changed[1] > 5_000 && changed[2] > 5_000, "{changed:?}");
}

/// The last body byte together with the low byte of the checksum is another matter: changed by 0F and 22 the sum is right again.
/// [P11 X20]
#[test]
fn spoiled_up_to_the_checksum() {
    let mut rng = Rng::new(35);
    let mut packets = 0;
    for _ in 0..2_000 {
        let length = length(&mut rng);
        let mut packet = packet(&mut rng, length);
        if !well_formed(&packet) {
            continue;
        }
        let end = packet.len() - 2;
        packet[end - 1] ^= 0x0F;
        packet[end] ^= 0x22;
        let kind = compare_at(&packet, 0);
        assert!(kind == 1 || kind == 0 && !well_formed(&packet), "{packet:02x?}");
        packets += usize::from(kind == 1);
    }
    assert!(packets > 500, "{packets}");
}

/// Noise, beginnings, packets good and bad behind each other: the verdict at every offset and past the end. [P10 V6 V11]
#[test]
fn every_offset_of_noisy_segments() {
    let mut rng = Rng::new(32);
    let mut kinds = [0; 4];
    for _ in 0..4_000 {
        let mut segment = Vec::new();
        for _ in 0..rng.between(1, 6) {
            let length = length(&mut rng);
            let mut part = packet(&mut rng, length);
            match rng.between(0, 4) {
                0 => part = body(&mut rng, length),
                1 => part.truncate(rng.between(0, 12)),
                2 => {
                    let place = rng.between(0, part.len() - 1);
                    part[place] = rng.byte();
                }
                _ => {}
            }
            segment.extend(part);
        }
        for offset in 0..=segment.len() + 2 {
            kinds[usize::from(compare_at(&segment, offset))] += 1;
        }
        for offset in [usize::MAX, usize::MAX - 9, usize::MAX - segment.len(), usize::MAX / 2 + 1] {
            compare_at(&segment, offset);
        }
    }
    assert!(kinds.iter().all(|&count| count > 500), "{kinds:?}");
}

/// Lengths 0 to 1,100, all bytes there and the checksum right: 3 to 1,024 are packets. [P4 P5 V9 X11 X12]
#[test]
fn bounds_of_the_length() {
    for stuffed in 0..=1_100 {
        let packet = framed(7, &vec![0x11; stuffed]);
        let kind = compare_at(&packet, 0);
        assert_eq!(kind == 1, (1..=LONGEST_LENGTH - 2).contains(&stuffed), "{stuffed} bytes of body");
    }
    for length in [0u16, 1, 2, 3, 255, 256, 1_024, 1_025, 1_280, 0x0403, 0x8003, 0xFFFF] {
        let [low, high] = length.to_le_bytes();
        let mut segment = vec![0xFF, 0xFF, 0xFD, 0x00, 1, low, high];
        compare_at(&segment[..6], 0);
        compare_at(&segment, 0);
        segment.resize(80_000, 0);
        compare_at(&segment, 0);
    }
}

/// [P2 P3 V8 X13 X14]
#[test]
fn every_id() {
    for id in 0..=255 {
        let packet = framed(id, &[1]);
        assert_eq!(compare_at(&packet, 0) == 1, id <= 252 || id == 254, "ID {id}");
        for end in 0..packet.len() {
            compare_at(&packet[..end], 0);
        }
    }
}

/// The search for FF FF FD never looks into the checksum: a body that ends FF FF before a checksum with FD as its low byte is
/// well stuffed, and one that ends FF FF FD is not, whatever follows. [M2 S2 S4 S5 V5]
#[test]
fn stuffing_at_the_end_of_the_body() {
    let mut rng = Rng::new(33);
    let (mut before_fd, mut cut) = (0, 0);
    for _ in 0..60_000 {
        let count = rng.between(0, 6);
        let mut body = rng.bytes(count);
        body.extend([0xFF, 0xFF]);
        if rng.one_in(2) {
            body.push(0xFD);
        }
        let packet = framed(1, &body);
        let kind = compare_at(&packet, 0);
        if packet[packet.len() - 2] == 0xFD {
            if body.ends_with(&[0xFD]) {
                assert_eq!(kind, 0);
                cut += 1;
            } else {
                assert_eq!(kind == 1, well_formed(&packet));
                before_fd += usize::from(kind == 1);
            }
        }
    }
    assert!(before_fd > 50 && cut > 50, "{before_fd} and {cut} packets with FD as checksum low byte");
}

/// A wrong checksum is said before wrong stuffing. [V4 V5]
#[test]
fn wrong_checksum_and_wrong_stuffing() {
    let mut packet = framed(9, &[3, 0xFF, 0xFF, 0xFD, 0]);
    assert_eq!(compare_at(&packet, 0), 0);
    *packet.last_mut().unwrap() ^= 1;
    assert_eq!(exports::test::verdict(&packet, 0), (2, 9, 0));
    compare_at(&packet, 0);
}

/// [K6 P9 V3]
#[test]
fn published_packets() {
    for packet in published() {
        let bytes = &packet.bytes;
        compare_at(bytes, 0);
        let wanted = match (packet.status, packet.place.as_str()) {
            (Status::Good, _) => (1, 0, bytes.len()),
            // the instruction packet, whole and right, with a stray byte after it
            (Status::Misprint, "000 line 302") => (1, 0, 10),
            (Status::Misprint, _) => (2, bytes[4], 0),
            // the first part announces the length of all of them
            (Status::Part, _) if bytes[0] == 0xFF => (3, 0, 7 + usize::from(bytes[5]) - bytes.len()),
            (Status::Part, _) => (0, 0, 0),
        };
        assert_eq!(exports::test::verdict(bytes, 0), wanted, "{}", packet.place);
        if packet.status == Status::Good {
            let mut body = vec![0; bytes.len()];
            let count = exports::unstuff(&bytes[7..bytes.len() - 2], &mut body) as usize;
            let mut out = vec![0; bytes.len()];
            assert_eq!(exports::encode(bytes[4], body[0], &body[1..count], &mut out, 0), bytes.len() as i64);
            assert_eq!(&out, bytes, "{}", packet.place);
        }
    }
}
