//! The device call on a packet as received: the proved one and the reference answer the same and leave the same table, registered
//! write, body buffer and reply buffer.

use compare::device_inputs::{body, id, registered, table};
use compare::{noise, packet, DevicePair};
use reference::{framed, fresh, packet_of, stuff, Registered, Rng};

const REPLY_BYTES: usize = 32;
const LONGEST_BODY: usize = 1_022;

/// Packets for the device, packets of any body, bodies that are not well stuffed, and bytes that are no packet.
fn received(rng: &mut Rng, table: &[u8]) -> Vec<u8> {
    let instruction = rng.pick(&[0x01, 0x02, 0x03, 0x03, 0x04, 0x05, 0x06, 0x08, 0x55, 0x82, 0x83, 0x92, 0x93, 0x9A]);
    let mut bytes = match rng.between(0, 9) {
        0 => {
            let length = rng.between(0, 40);
            packet(rng, length)
        }
        1 => {
            let length = rng.between(0, 30);
            noise(rng, length)
        }
        2 => {
            let length = rng.between(0, 12);
            rng.bytes(length)
        }
        // stuffing cut off, or in the wrong place
        3 => {
            let mut stuffed = stuff(&[&body(rng, table, instruction)[..], &[0xFF, 0xFF, 0xFD]].concat());
            let place = stuffed.len() - rng.between(1, 4);
            stuffed[place] = rng.pick(&[0xFF, 0xFD, 0x00]);
            framed(id(rng, table[7]), &stuffed)
        }
        _ => {
            let body = body(rng, table, instruction);
            packet_of(id(rng, table[7]), &body)
        }
    };
    if rng.one_in(12) {
        bytes.truncate(bytes.len() - rng.between(0, bytes.len().min(5)));
    }
    bytes
}

/// [D38-D40 D50 D51 D54]
#[test]
fn packets_of_every_kind() {
    let mut rng = Rng::new(70);
    let (mut answered, mut silent, mut refused) = (0, 0, [0; 25]);
    for _ in 0..60_000 {
        let mut bytes = table(&mut rng).to_vec();
        let mut write = registered(&mut rng, &bytes);
        if !rng.one_in(8) {
            write.count %= 9;
        }
        if rng.one_in(20) {
            bytes[7] = rng.pick(&[200, 253, 254, 255]);
        }
        if rng.one_in(20) {
            bytes.resize(rng.pick(&[0, 7, 8, 135, 137, 200]), 0);
        }
        let reply = if rng.one_in(12) { rng.between(0, 31) } else { REPLY_BYTES + rng.between(0, 3) };
        let own = bytes.get(7).copied().unwrap_or(1);
        let mut known = fresh();
        known[7] = own;
        let packet = received(&mut rng, &known);
        // around the room that the body needs, or room enough
        let room = if rng.one_in(4) { rng.between(0, packet.len()) } else { LONGEST_BODY };
        let mut device = DevicePair::new(&mut rng, &bytes, write, reply);
        match device.hear_packet(&mut rng, &packet, room).count {
            0 => silent += 1,
            1.. => answered += 1,
            refusal => refused[-refusal as usize] += 1,
        }
    }
    assert!(answered > 10_000 && silent > 5_000, "{answered} answered, {silent} silent");
    for number in [13, 14, 21, 22, 23, 24] {
        assert!(refused[number] > 100, "{number} was given only {} times", refused[number]);
    }
}

/// Each refusal applies or not, in every combination: the first in the order 14, 13, 21 to 24 is given, and nothing changes.
/// [D39 N10 N12]
#[test]
fn order_of_refusals() {
    let mut rng = Rng::new(71);
    for faults in 0..64u8 {
        let fault = |bit: u8| faults & (1 << bit) != 0;
        // a body that has stuffing: 6 bytes once it is removed
        let stuffed: &[u8] = if fault(0) { &[3, 65, 0, 0xFF, 0xFF, 0xFD, 1] } else { &[3, 65, 0, 0xFF, 0xFF, 0xFD, 0xFD] };
        let room = if fault(1) { 5 } else { 6 };
        let mut bytes = fresh().to_vec();
        if fault(2) {
            bytes.push(0);
        }
        bytes[7] = if fault(3) { 253 } else { 252 };
        let count = if fault(4) { 9 } else { 8 };
        let write = Registered { address: 65, count, bytes: [1, 2, 3, 4, 5, 6, 7, 8], min: i32::MIN, max: -1 };
        let reply = if fault(5) { 31 } else { 32 };
        let wanted = [14, 13, 21, 22, 23, 24].into_iter().zip(0..).find(|&(_, bit)| fault(bit)).map(|(number, _)| -number);
        // also where the device would have stayed silent
        for id in [252, 254, 7, 253, 255] {
            let mut device = DevicePair::new(&mut rng, &bytes, write, reply);
            let told = device.hear_packet(&mut rng, &framed(id, stuffed), room);
            assert_eq!(told.count.min(0), wanted.unwrap_or(0), "faults {faults:06b}");
            assert!(wanted.is_none() || (device.table() == bytes && device.registered == write));
        }
    }
}

/// The body buffer has room for just the body, or one byte less; its other bytes stay. [D39]
#[test]
fn room_for_the_body() {
    let mut rng = Rng::new(72);
    for length in (1..=20).chain([100, 500, 1_000]) {
        let mut device = DevicePair::new(&mut rng, &fresh(), Registered::default(), REPLY_BYTES);
        let body = compare::body(&mut rng, length);
        let packet = packet_of(rng.pick(&[1, 254, 9]), &body);
        assert_eq!(device.hear_packet(&mut rng, &packet, length - 1).count, -13);
        for room in [length, length + 1, LONGEST_BODY] {
            assert!(device.hear_packet(&mut rng, &packet, room).count >= 0);
        }
    }
}

/// Fewer bytes than a packet has, with the device's ID in their place: silence. [D38]
#[test]
fn short_packets() {
    let mut rng = Rng::new(73);
    for own in 0..=252 {
        let mut bytes = fresh();
        bytes[7] = own;
        for filler in [0, own, 254, 255] {
            for length in 0..=9 {
                let mut packet = vec![filler; length];
                if let Some(id) = packet.get_mut(4) {
                    *id = own;
                }
                let mut device = DevicePair::new(&mut rng, &bytes, Registered::default(), REPLY_BYTES);
                let told = device.hear_packet(&mut rng, &packet, 0);
                assert_eq!(told.count, 0, "{length} bytes of {filler} to {own}");
            }
        }
    }
}

/// A packet that the device carries out, and the same with any one byte changed or left out, or one more behind it: silence or a
/// refusal of its body, and a table as it was. [D38]
#[test]
fn only_a_well_formed_packet_is_heard() {
    let mut rng = Rng::new(74);
    let mut silent = 0;
    for body in [&[3, 116, 0, 0, 2, 0, 0][..], &[4, 65, 0, 1], &[3, 104, 0, 0xFF, 0xFF, 0xFF, 0xFF], &[8], &[6, 1], &[1]] {
        let packet = packet_of(1, body);
        let mut device = DevicePair::new(&mut rng, &fresh(), Registered::default(), REPLY_BYTES);
        assert!(device.hear_packet(&mut rng, &packet, LONGEST_BODY).count > 0);
        let mut changed: Vec<Vec<u8>> = Vec::new();
        for place in 0..packet.len() {
            for bit in 0..8 {
                let mut bytes = packet.clone();
                bytes[place] ^= 1 << bit;
                changed.push(bytes);
            }
            changed.push([&packet[..place], &packet[place + 1..]].concat());
        }
        changed.extend((0..=255).map(|byte| [&packet[..], &[byte]].concat()));
        changed.push([&packet[..], &packet[..]].concat());
        for bytes in changed {
            let mut device = DevicePair::new(&mut rng, &fresh(), Registered::default(), REPLY_BYTES);
            let told = device.hear_packet(&mut rng, &bytes, LONGEST_BODY);
            assert!(told.count == 0 || told.count == -14, "{bytes:02x?}");
            assert!(device.table() == fresh() && device.registered == Registered::default(), "{bytes:02x?}");
            silent += usize::from(told.count == 0);
        }
    }
    assert!(silent > 1_500, "{silent}");
}
