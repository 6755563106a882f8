//! Stuffing and its removal: the proved exports and the reference give the same, and leave the same memory.

use compare::{body, body_of_stuffed_length, length, must_agree, rooms, some_room, stuffed_well_or_not, Lent, PROVED};
use reference::{stuff, stuff_into, unstuff, well_stuffed, Rng};

fn compare_unstuff(rng: &mut Rng, body: &[u8], room: usize) {
    must_agree(compare::compare_unstuff(&PROVED, rng, body, room));
}

fn compare_stuff(rng: &mut Rng, first: u8, rest: &[u8], room: usize) {
    let mut ours = Lent::new(rng, rest, room);
    let mut expected = ours.clone();
    let answer = ours.call(|rest, out| exports::test::stuff(first, rest, out));
    assert_eq!(answer, expected.call(|rest, out| stuff_into(first, rest, out)), "{first:02x} and {rest:02x?} into {room}");
    assert!(ours == expected, "{first:02x} and {rest:02x?} into {room}, memory");
}

fn compare_well_stuffed(body: &[u8]) {
    assert_eq!(exports::test::well_stuffed(body), u8::from(well_stuffed(body)), "{body:02x?}");
}

/// [N12 S1 S8]
#[test]
fn random_bodies() {
    let mut rng = Rng::new(10);
    for _ in 0..30_000 {
        let length = length(&mut rng);
        let raw = body(&mut rng, length);
        let stuffed = stuff(&raw);
        for body in stuffed_well_or_not(&mut rng, &raw) {
            compare_well_stuffed(&body);
            let room = some_room(&mut rng, unstuff(&body).len());
            compare_unstuff(&mut rng, &body, room);
        }
        if let Some((&first, rest)) = raw.split_first() {
            let room = some_room(&mut rng, stuffed.len());
            compare_stuff(&mut rng, first, rest, room);
        }
    }
}

/// Every body of up to 7 bytes over the three that matter, with each room around the right one. [N3 N4 N10 S1 S3 S9-S11]
#[test]
fn every_short_body() {
    let mut rng = Rng::new(11);
    for length in 0..=7u32 {
        for code in 0..3usize.pow(length) {
            let body: Vec<u8> = (0..length).map(|i| [0xFF, 0xFD, 0x00][code / 3usize.pow(i) % 3]).collect();
            compare_well_stuffed(&body);
            for room in rooms(unstuff(&body).len()) {
                compare_unstuff(&mut rng, &body, room);
            }
            if let Some((&first, rest)) = body.split_first() {
                for room in 0..=stuff(&body).len() + 1 {
                    compare_stuff(&mut rng, first, rest, room);
                }
            }
        }
    }
}

/// Stuffed forms around the longest that a packet carries, into every room around the unstuffed count. [S10]
#[test]
fn longest_bodies() {
    let mut rng = Rng::new(12);
    for _ in 0..300 {
        let length = rng.between(1_019, 1_025);
        let raw = body_of_stuffed_length(&mut rng, length);
        let stuffed = stuff(&raw);
        for room in rooms(raw.len()) {
            compare_unstuff(&mut rng, &stuffed, room);
        }
        for room in rooms(stuffed.len()) {
            compare_stuff(&mut rng, raw[0], &raw[1..], room);
        }
    }
}

/// Removal undoes stuffing, and stuffing undoes removal where a body is well stuffed. [S6]
#[test]
fn both_ways() {
    let mut rng = Rng::new(13);
    let mut well = 0;
    for _ in 0..20_000 {
        let length = rng.between(1, 40);
        let raw = body(&mut rng, length);

        let mut stuffed = vec![0; 2 * length];
        let count = exports::test::stuff(raw[0], &raw[1..], &mut stuffed);
        let mut back = vec![0; length];
        assert_eq!(exports::unstuff(&stuffed[..count], &mut back), length as i64);
        assert_eq!(back, raw);

        if exports::test::well_stuffed(&raw) == 1 {
            well += 1;
            let mut removed = vec![0; length];
            let count = exports::unstuff(&raw, &mut removed);
            let mut again = vec![0; length];
            assert_eq!(exports::test::stuff(removed[0], &removed[1..count as usize], &mut again), length);
            assert_eq!(again, raw);
        }
    }
    assert!(well > 2_000, "{well} random bodies were well stuffed: too few to tell");
}
