//! The encoder: the proved export and the reference give the same, and leave the same memory.

use compare::{body, body_of_stuffed_length, id, length, must_agree, place, Encoded, PROVED};
use reference::{framed, packet_of, stuff, well_formed, well_stuffed, Rng};

fn compare_encode(rng: &mut Rng, id: u8, body: &[u8], room: usize, at: usize) -> i64 {
    let what = Encoded { id, instruction: body[0], params: &body[1..], room, at };
    must_agree(compare::compare_encode(&PROVED, rng, what))
}

/// [E1-E4 E7 N4 N12 P1]
#[test]
fn random_packets() {
    let mut rng = Rng::new(20);
    let mut seen = std::collections::BTreeMap::new();
    for _ in 0..100_000 {
        let length = length(&mut rng).max(1);
        let body = body(&mut rng, length);
        let (room, at) = place(&mut rng, 9 + stuff(&body).len());
        let id = id(&mut rng);
        let answer = compare_encode(&mut rng, id, &body, room, at);
        *seen.entry(answer.min(0)).or_insert(0) += 1;
    }
    for answer in [0, -11, -12, -13] {
        assert!(seen.get(&answer).is_some_and(|&count| count > 1_000), "answer {answer} hardly came up: {seen:?}");
    }
}

/// Lengths on both sides of 1,024, with and without added bytes, and with an added byte as the one too many. [E6 N2 P5]
#[test]
fn around_the_longest() {
    let mut rng = Rng::new(21);
    let mut longest = 0;
    for _ in 0..4_000 {
        let length = rng.between(1_018, 1_025);
        let body = body_of_stuffed_length(&mut rng, length);
        let (room, at) = place(&mut rng, 9 + stuff(&body).len());
        let id = id(&mut rng);
        if compare_encode(&mut rng, id, &body, room, at) == 1_031 {
            longest += 1;
        }
    }
    assert!(longest > 100, "only {longest} of the longest packets");
}

/// Every ID and every instruction byte; stuffing begins at the instruction. [E5 E9 P2]
#[test]
fn every_id_and_instruction() {
    let mut rng = Rng::new(22);
    for id in 0..=255u8 {
        for instruction in 0..=255u8 {
            let params: &[u8] = if rng.one_in(2) { &[0xFF, 0xFD] } else { &[0xFD] };
            compare_encode(&mut rng, id, &[&[instruction], params].concat(), 40, 3);
        }
    }
}

/// Refusals are tested in the order 11, 12, 13. [E6 E8 N1 N2 N10]
#[test]
fn order_of_refusals() {
    let mut rng = Rng::new(23);
    let long = vec![1; 1_024];
    assert_eq!(compare_encode(&mut rng, 253, &long, 0, usize::MAX), -11);
    assert_eq!(compare_encode(&mut rng, 255, &long, 2_000, 0), -11);
    assert_eq!(compare_encode(&mut rng, 254, &long, 0, usize::MAX), -12);
    assert_eq!(compare_encode(&mut rng, 252, &long[..1_022], 1_030, 0), -13);
    assert_eq!(compare_encode(&mut rng, 252, &long[..1_022], 1_031, 0), 1_031);
    assert_eq!(compare_encode(&mut rng, 252, &long[..1_023], 2_000, 0), -12);
    assert_eq!(compare_encode(&mut rng, 0, &vec![0xFF; 60_000], 2_000, 0), -12);
}

/// What the encoder writes is well-formed, and its body comes back. [E2 P6 S7]
#[test]
fn what_is_written_reads_back() {
    let mut rng = Rng::new(24);
    for case in 0..30_000 {
        let length = if case % 20 == 0 { rng.between(900, 1_022) } else { rng.between(1, 60) };
        let body = body(&mut rng, length);
        let id = rng.between(0, 252) as u8;
        let mut out = vec![0; 1_031];
        let count = exports::encode(id, body[0], &body[1..], &mut out, 0);
        if stuff(&body).len() > 1_022 {
            assert_eq!(count, -12);
            continue;
        }
        let packet = &out[..count as usize];
        assert!(well_formed(packet), "{packet:02x?}");
        assert_eq!(exports::test::verdict(packet, 0), (1, 0, packet.len()));
        let mut back = vec![0; body.len()];
        assert_eq!(exports::unstuff(&packet[7..packet.len() - 2], &mut back), body.len() as i64);
        assert_eq!(back, body);
    }
}

/// A well-formed packet, however it came about, is what the encoder writes of its body. [E2]
#[test]
fn well_formed_packets_are_ours() {
    let mut rng = Rng::new(25);
    let mut tried = 0;
    for _ in 0..60_000 {
        let length = rng.between(1, 30);
        let raw = body(&mut rng, length);
        let packet = framed(rng.between(0, 252) as u8, &raw);
        assert_eq!(well_formed(&packet), well_stuffed(&raw));
        if !well_formed(&packet) {
            continue;
        }
        tried += 1;
        let mut unstuffed = vec![0; raw.len()];
        let count = exports::unstuff(&raw, &mut unstuffed) as usize;
        let mut out = vec![0; packet.len()];
        assert_eq!(exports::encode(packet[4], unstuffed[0], &unstuffed[1..count], &mut out, 0), packet.len() as i64);
        assert_eq!(out, packet);
        assert_eq!(packet_of(packet[4], &unstuffed[..count]), packet);
    }
    assert!(tried > 10_000, "only {tried} packets were well-formed");
}
