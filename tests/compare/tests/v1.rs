//! Protocol 1.0 and Mercury: the proved exports and the reference give the same, and leave the same memory.

use compare::{body, id, must_agree, noise, place, published_v1, v1_length, v1_packet, Encoded, PROVED};
use reference::v1::{self, Protocol, BOTH};
use reference::{Rng, Verdict};
use std::collections::BTreeMap;

fn compare_encode(rng: &mut Rng, protocol: Protocol, id: u8, body: &[u8], room: usize, at: usize) -> i64 {
    let what = Encoded { id, instruction: body[0], params: &body[1..], room, at };
    must_agree(compare::compare_v1_encode(&PROVED, protocol, rng, what))
}

/// The proved verdict as (kind, ID, count).
fn proved_verdict(protocol: Protocol, segment: &[u8], offset: usize) -> (u8, u8, usize) {
    match protocol {
        Protocol::P1 => exports::test::p1_verdict(segment, offset),
        Protocol::Mercury => exports::test::mercury_verdict(segment, offset),
    }
}

fn compare_at(protocol: Protocol, segment: &[u8], offset: usize) -> u8 {
    let expected = match v1::verdict(protocol, segment.get(offset..).unwrap_or(&[])) {
        Verdict::Nothing => (0, 0, 0),
        Verdict::Packet { id: _, count } => (1, 0, count),
        Verdict::BadChecksum { id } => (2, id, 0),
        Verdict::Waiting { missing } => (3, 0, missing),
    };
    assert_eq!(proved_verdict(protocol, segment, offset), expected, "{protocol:?} at {offset} of {segment:02x?}");
    expected.0
}

/// [N4 N12 N14 O1 O4 O9 O10]
#[test]
fn random_packets() {
    let mut rng = Rng::new(40);
    let mut seen = BTreeMap::new();
    for _ in 0..60_000 {
        let length = 1 + v1_length(&mut rng);
        let body = body(&mut rng, length);
        let (room, at) = place(&mut rng, 5 + length);
        let id = id(&mut rng);
        for protocol in BOTH {
            let answer = compare_encode(&mut rng, protocol, id, &body, room, at);
            *seen.entry(answer.min(0)).or_insert(0) += 1;
        }
    }
    for answer in [0, -11, -12, -13] {
        assert!(seen.get(&answer).is_some_and(|&count| count > 1_000), "answer {answer} hardly came up: {seen:?}");
    }
}

/// Every ID, with every instruction or error byte: 255 is no ID, and 253 is one in Protocol 1.0 alone. [N1 O2]
#[test]
fn every_id_and_instruction() {
    let mut rng = Rng::new(41);
    for id in 0..=255u8 {
        for instruction in 0..=255u8 {
            for protocol in BOTH {
                let answer = compare_encode(&mut rng, protocol, id, &[instruction, 0x2B, 0x01], 20, 3);
                let refused = id == 255 || (id == 253 && protocol == Protocol::Mercury);
                assert_eq!(answer, if refused { -11 } else { 8 }, "{protocol:?}, ID {id}");
            }
        }
    }
}

/// Refusals are tested in the order 11, 12, 13, and 253 parameters are the most. [N2 N10 O3 O10]
#[test]
fn order_of_refusals() {
    let mut rng = Rng::new(42);
    let long = vec![1; 256];
    for protocol in BOTH {
        assert_eq!(compare_encode(&mut rng, protocol, 255, &long, 0, usize::MAX), -11);
        assert_eq!(compare_encode(&mut rng, protocol, 254, &long[..255], 0, usize::MAX), -12);
        assert_eq!(compare_encode(&mut rng, protocol, 252, &long[..254], 258, 0), -13);
        assert_eq!(compare_encode(&mut rng, protocol, 252, &long[..254], 259, 0), 259);
        assert_eq!(compare_encode(&mut rng, protocol, 252, &long[..254], 259, 1), -13);
        assert_eq!(compare_encode(&mut rng, protocol, 0, &vec![0xFF; 60_000], 2_000, 0), -12);
    }
    assert_eq!(compare_encode(&mut rng, Protocol::Mercury, 253, &long, 0, usize::MAX), -11);
    assert_eq!(compare_encode(&mut rng, Protocol::P1, 253, &long, 0, usize::MAX), -12);
}

/// What is written is well-formed and read as a packet, whatever follows; a well-formed packet is what the encoder writes of its
/// parts. [O4 O5 O11]
#[test]
fn what_is_written_reads_back() {
    let mut rng = Rng::new(43);
    for _ in 0..20_000 {
        let length = 1 + v1_length(&mut rng).min(253);
        let body = body(&mut rng, length);
        let id = rng.between(0, 252) as u8;
        let packet = v1::packet_of(id, &body);
        for (protocol, encode) in [(Protocol::P1, PROVED.p1_encode), (Protocol::Mercury, PROVED.mercury_encode)] {
            let mut out = vec![0; packet.len()];
            assert_eq!(encode(packet[2], packet[4], &packet[5..packet.len() - 1], &mut out, 0), packet.len() as i64);
            assert_eq!(out, packet);
            assert!(v1::well_formed(protocol, &out), "{out:02x?}");
            let following = rng.between(0, 12);
            out.extend(rng.bytes(following));
            assert_eq!(proved_verdict(protocol, &out, 0), (1, 0, packet.len()));
        }
    }
}

/// Each length from nothing to all of it, with what follows. [O6 O7]
#[test]
fn every_truncation() {
    let mut rng = Rng::new(44);
    let mut kinds = [0; 4];
    for _ in 0..1_500 {
        let length = v1_length(&mut rng).min(254);
        let mut bytes = v1_packet(&mut rng, length);
        let following = rng.between(0, 12);
        bytes.extend(rng.bytes(following));
        for end in 0..=bytes.len() {
            for protocol in BOTH {
                kinds[usize::from(compare_at(protocol, &bytes[..end], 0))] += 1;
            }
        }
    }
    assert!(kinds.iter().enumerate().all(|(kind, &count)| kind == 2 || count > 500), "{kinds:?}");
}

/// One byte changed, at every place: header, ID, length, body and checksum. [O1 O3 O5]
#[test]
fn one_byte_changed() {
    let mut rng = Rng::new(45);
    let mut kinds = [0; 4];
    for _ in 0..2_500 {
        let length = rng.between(1, 24);
        let before = rng.between(0, 3);
        let mut segment = rng.bytes(before);
        segment.extend(v1_packet(&mut rng, length));
        for place in before..segment.len() {
            let kept = segment[place];
            segment[place] = if rng.one_in(2) { kept ^ (1 << rng.between(0, 7)) } else { kept ^ rng.between(1, 255) as u8 };
            for protocol in BOTH {
                kinds[usize::from(compare_at(protocol, &segment, before))] += 1;
            }
            segment[place] = kept;
        }
    }
    assert!([0, 2, 3].iter().all(|&kind: &usize| kinds[kind] > 500), "{kinds:?}");
}

/// Every ID with every length: 2 is the least that is allowed, 255 the most, and FF FF FF begins no packet. [O2 O3 O7]
#[test]
fn every_id_and_length() {
    let mut rng = Rng::new(46);
    let rest = rng.bytes(300);
    for id in 0..=255u8 {
        for length in 0..=255u8 {
            let segment = [&[0xFF, 0xFF, id, length], &rest[..]].concat();
            for protocol in BOTH {
                let kind = compare_at(protocol, &segment, 0);
                let allowed = length >= 2 && v1::id_valid(protocol, id);
                assert_eq!(kind == 0, !allowed, "{protocol:?}, ID {id}, length {length}");
                compare_at(protocol, &segment[..4], 0);
            }
        }
    }
    assert_eq!(compare_at(Protocol::P1, &[0xFF, 0xFF, 0xFF], 0), 0);
    assert_eq!(compare_at(Protocol::P1, &[0xFF, 0xFF, 0xFF], 1), 3);
}

/// Noise, beginnings and packets behind each other: the verdict at every offset and past the end. [O6]
#[test]
fn every_offset_of_noisy_segments() {
    let mut rng = Rng::new(47);
    let mut kinds = [0; 4];
    for _ in 0..3_000 {
        let mut segment = Vec::new();
        for _ in 0..rng.between(1, 6) {
            let length = rng.between(0, 20);
            let mut part = v1_packet(&mut rng, length);
            match rng.between(0, 4) {
                0 => part = noise(&mut rng, length),
                1 => part.truncate(rng.between(0, 8)),
                2 => {
                    let place = rng.between(0, part.len() - 1);
                    part[place] = rng.byte();
                }
                _ => {}
            }
            segment.extend(part);
        }
        for offset in 0..segment.len() + 2 {
            for protocol in BOTH {
                kinds[usize::from(compare_at(protocol, &segment, offset))] += 1;
            }
        }
        compare_at(Protocol::P1, &segment, usize::MAX);
    }
    assert!(kinds.iter().all(|&count| count > 500), "{kinds:?}");
}

/// Every packet that the makers' pages print, and those made from their tables: read as one, and what the encoder writes of its
/// parts; in both protocols, since none has the ID 253. [O5 O11 O12]
#[test]
fn published_packets() {
    let packets = published_v1();
    assert_eq!(packets.iter().filter(|packet| packet.printed).count(), 20);
    for packet in &packets {
        let bytes = &packet.bytes;
        for (protocol, encode) in [(Protocol::P1, PROVED.p1_encode), (Protocol::Mercury, PROVED.mercury_encode)] {
            assert!(v1::well_formed(protocol, bytes), "{}", packet.place);
            assert_eq!(&v1::packet_of(bytes[2], &bytes[4..bytes.len() - 1]), bytes, "{}", packet.place);
            assert_eq!(compare_at(protocol, bytes, 0), 1, "{}", packet.place);
            let mut out = vec![0; bytes.len()];
            assert_eq!(encode(bytes[2], bytes[4], &bytes[5..bytes.len() - 1], &mut out, 0), bytes.len() as i64, "{}", packet.place);
            assert_eq!(&out, bytes, "{}", packet.place);
        }
    }
}
