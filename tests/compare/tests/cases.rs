//! The cases that are also proved, on the compiled code and on the reference: what goes over the line, and how it is stuffed.

use reference::{packet_of, stuff, unstuff, well_formed};

/// ID, unstuffed body, packet.
const PACKETS: [(u8, &[u8], &[u8]); 7] = [
    // Ping to 1 and its status: model number 1030, firmware 38
    (1, &[0x01], &[0xFF, 0xFF, 0xFD, 0x00, 0x01, 0x03, 0x00, 0x01, 0x19, 0x4E]),
    (1, &[0x55, 0x00, 0x06, 0x04, 0x26], &[0xFF, 0xFF, 0xFD, 0x00, 0x01, 0x07, 0x00, 0x55, 0x00, 0x06, 0x04, 0x26, 0x65, 0x5D]),
    // Ping to all
    (254, &[0x01], &[0xFF, 0xFF, 0xFD, 0x00, 0xFE, 0x03, 0x00, 0x01, 0x31, 0x42]),
    // Read of present position, 166
    (1, &[0x02, 0x84, 0x00, 0x04, 0x00], &[0xFF, 0xFF, 0xFD, 0x00, 0x01, 0x07, 0x00, 0x02, 0x84, 0x00, 0x04, 0x00, 0x1D, 0x15]),
    (
        1,
        &[0x55, 0x00, 0xA6, 0x00, 0x00, 0x00],
        &[0xFF, 0xFF, 0xFD, 0x00, 0x01, 0x08, 0x00, 0x55, 0x00, 0xA6, 0x00, 0x00, 0x00, 0x8C, 0xC0],
    ),
    // Write of 512 to goal position
    (
        1,
        &[0x03, 0x74, 0x00, 0x00, 0x02, 0x00, 0x00],
        &[0xFF, 0xFF, 0xFD, 0x00, 0x01, 0x09, 0x00, 0x03, 0x74, 0x00, 0x00, 0x02, 0x00, 0x00, 0xCA, 0x89],
    ),
    (1, &[0x55, 0x00], &[0xFF, 0xFF, 0xFD, 0x00, 0x01, 0x04, 0x00, 0x55, 0x00, 0xA1, 0x0C]),
];

/// Body and stuffed form.
const STUFFED: [(&[u8], &[u8]); 3] = [
    (&[0x03, 0xFF, 0xFF, 0xFD], &[0x03, 0xFF, 0xFF, 0xFD, 0xFD]),
    (&[0x03, 0xFF, 0xFF, 0xFD, 0xFD], &[0x03, 0xFF, 0xFF, 0xFD, 0xFD, 0xFD]),
    (&[0x03, 0xFF, 0xFF], &[0x03, 0xFF, 0xFF]),
];

/// [E3 P1 P9 X1-X7]
#[test]
fn packets() {
    for (id, body, packet) in PACKETS {
        let mut out = vec![0xEE; packet.len() + 2];
        assert_eq!(exports::encode(id, body[0], &body[1..], &mut out, 1), packet.len() as i64);
        assert_eq!(out, [&[0xEE], packet, &[0xEE]].concat());
        assert_eq!(exports::test::verdict(packet, 0), (1, 0, packet.len()));

        assert_eq!(packet_of(id, body), packet);
        assert!(well_formed(packet));
    }
}

/// Ping to 1 with its body changed by 0F and the low byte of its checksum by 22 is a packet; with only one of the two changed it
/// is none.
#[test]
fn ping_spoiled_up_to_its_checksum() {
    let [(_, _, ping), ..] = PACKETS;
    let changed = |by: [u8; 2]| [&ping[..7], &[ping[7] ^ by[0], ping[8] ^ by[1]], &ping[9..]].concat();
    let spoiled = [0xFF, 0xFF, 0xFD, 0x00, 0x01, 0x03, 0x00, 0x0E, 0x3B, 0x4E];
    assert_eq!(changed([0x0F, 0x22]), spoiled);
    assert_eq!(packet_of(1, &[0x0E]), spoiled);
    assert!(well_formed(&spoiled));
    assert_eq!(exports::test::verdict(&spoiled, 0), (1, 0, 10));
    for by in [[0x0F, 0], [0, 0x22]] {
        assert!(!well_formed(&changed(by)));
        assert_eq!(exports::test::verdict(&changed(by), 0), (2, 1, 0));
    }
}

/// The packet goes through the reader to a device, and its status comes back.
fn exchange(table: &mut [u8; 136], packet: &[u8]) -> Vec<u8> {
    let (mut held, mut count, mut found) = ([0; 1030], 0, [0; 1031]);
    let step = exports::feed(&mut held, &mut count, packet, &mut found);
    assert_eq!((step.kind, step.id, step.taken, step.count), (1, packet[4], packet.len(), packet.len()));
    let mut body = [0; 1022];
    let n = exports::unstuff(&found[7..step.count - 2], &mut body) as usize;
    let (mut reply, mut copy, none) = ([0; 32], *table, exports::Registered::default());
    let answer = exports::device(table, none, step.kind, step.id, &body[..n], &mut reply);
    let status = reply[..answer.count as usize].to_vec();
    // and in one call
    let (mut body, mut reply) = ([0; 1022], [0; 32]);
    assert_eq!(exports::exchange(&mut copy, none, &found[..step.count], &mut body, &mut reply), answer);
    assert_eq!((&copy, &reply[..status.len()]), (&*table, &status[..]));
    status
}

/// Instruction and status, as they go over the line, of a fresh device that has measured 166. [X2 X5-X7]
#[test]
fn exchanges() {
    let mut table = [0; 136];
    assert_eq!(exports::fresh(&mut table), 0);
    assert_eq!(exports::measure(&mut table, 166, 0), 0);
    let packets = PACKETS.map(|(_, _, packet)| packet);
    let [ping, ping_status, ping_all, read, read_status, write, write_status] = packets;
    assert_eq!(exchange(&mut table, ping), ping_status);
    assert_eq!(exchange(&mut table, ping_all), ping_status);
    assert_eq!(exchange(&mut table, read), read_status);
    let mut wanted = table;
    wanted[116..120].copy_from_slice(&512i32.to_le_bytes());
    assert_eq!(exchange(&mut table, write), write_status);
    assert_eq!(table, wanted);
}

/// Lists with an entry for device 2 beside that of device 1, to a fresh device 1 and to one that has measured 166: Bulk Read of
/// present position from 2 and of goal position from 1, and Bulk Write of goal position 512 to 1. [X21 X22]
#[test]
fn bulk_exchanges() {
    let read =
        [0xFF, 0xFF, 0xFD, 0x00, 0xFE, 0x0D, 0x00, 0x92, 0x02, 0x84, 0x00, 0x04, 0x00, 0x01, 0x74, 0x00, 0x04, 0x00, 0x60, 0x3A];
    let status = [0xFF, 0xFF, 0xFD, 0x00, 0x01, 0x08, 0x00, 0x55, 0x00, 0x00, 0x00, 0x00, 0x00, 0xBF, 0xB8];
    let write = [
        0xFF, 0xFF, 0xFD, 0x00, 0xFE, 0x12, 0x00, 0x93, 0x01, 0x74, 0x00, 0x04, 0x00, 0x00, 0x02, 0x00, 0x00, 0x02, 0x1F, 0x00,
        0x01, 0x00, 0x50, 0x19, 0xC4,
    ];
    for position in [0, 166] {
        let mut table = [0; 136];
        assert_eq!(exports::fresh(&mut table), 0);
        assert_eq!(exports::measure(&mut table, position, 0), 0);
        let before = table;
        assert_eq!(exchange(&mut table, &read), status);
        let (none, mut body, mut reply) = (exports::Registered::default(), [0; 1022], [0; 32]);
        let answer = exports::exchange(&mut table, none, &read, &mut body, &mut reply);
        assert_eq!((answer.count, answer.slot, table), (15, 1, before));

        let mut wanted = before;
        wanted[116..120].copy_from_slice(&512i32.to_le_bytes());
        assert!(exchange(&mut table, &write).is_empty());
        assert_eq!(table, wanted);
    }
}

/// Bodies sent to a fresh device: the error of the status, and what is then stored from address on. [T11 X15-X18]
#[test]
fn writes() {
    let cases: [(&[u8], u8, usize, &[u8]); 4] = [
        // -1 is a velocity, 331 is none, and two bytes are no item
        (&[0x03, 104, 0, 0xFF, 0xFF, 0xFF, 0xFF], 0, 104, &[0xFF; 4]),
        (&[0x03, 104, 0, 0x4B, 0x01, 0, 0], 4, 104, &[0; 4]),
        (&[0x03, 104, 0, 1, 0], 5, 104, &[0; 4]),
        // max 100 with min 200
        (&[0x03, 48, 0, 100, 0, 0, 0, 200, 0, 0, 0], 6, 48, &[0xFF, 0x0F, 0, 0, 0, 0, 0, 0]),
    ];
    for (body, error, address, stored) in cases {
        let mut table = [0; 136];
        assert_eq!(exports::fresh(&mut table), 0);
        let status = exchange(&mut table, &packet_of(1, body));
        assert_eq!(status, packet_of(1, &[0x55, error]), "{body:02x?}");
        assert_eq!(&table[address..address + stored.len()], stored, "{body:02x?}");
    }
}

/// Write of 512 to min position: a fresh device refuses it, one whose goal position is 512 stores it. [T14 X23 X24]
#[test]
fn min_position_up_to_the_goal() {
    let raise = [0xFF, 0xFF, 0xFD, 0x00, 0x01, 0x09, 0x00, 0x03, 0x34, 0x00, 0x00, 0x02, 0x00, 0x00, 0x8D, 0x09];
    let mut table = [0; 136];
    assert_eq!(exports::fresh(&mut table), 0);
    let mut wanted = table;
    assert_eq!(exchange(&mut table, &raise), packet_of(1, &[0x55, 6]));
    assert_eq!(table, wanted);
    for address in [116, 52] {
        wanted[address..address + 4].copy_from_slice(&512i32.to_le_bytes());
    }
    assert_eq!(exchange(&mut table, &packet_of(1, &[3, 116, 0, 0, 2, 0, 0])), packet_of(1, &[0x55, 0]));
    assert_eq!(exchange(&mut table, &raise), packet_of(1, &[0x55, 0]));
    assert_eq!(table, wanted);
}

/// [X8-X10]
#[test]
fn stuffing() {
    for (body, stuffed) in STUFFED {
        let mut out = [0xEE; 8];
        assert_eq!(exports::test::stuff(body[0], &body[1..], &mut out), stuffed.len());
        assert_eq!(&out[..stuffed.len()], stuffed);
        assert!(out[stuffed.len()..].iter().all(|&byte| byte == 0xEE));

        let mut out = [0xEE; 8];
        assert_eq!(exports::unstuff(stuffed, &mut out), body.len() as i64);
        assert_eq!(&out[..body.len()], body);
        assert!(out[body.len()..].iter().all(|&byte| byte == 0xEE));

        assert_eq!(stuff(body), stuffed);
        assert_eq!(unstuff(stuffed), body);
    }
}

/// Reg Write of 512 to goal position and Action, to a fresh device 1, with and without a Write of 4000 to max position in between.
/// [D48 D49 X25 X26]
#[test]
fn registered_at_other_limits() {
    let register = [0xFF, 0xFF, 0xFD, 0x00, 0x01, 0x09, 0x00, 0x04, 0x74, 0x00, 0x00, 0x02, 0x00, 0x00, 0xB9, 0x0E];
    let lower = [0xFF, 0xFF, 0xFD, 0x00, 0x01, 0x09, 0x00, 0x03, 0x30, 0x00, 0xA0, 0x0F, 0x00, 0x00, 0x5F, 0x69];
    let action = [0xFF, 0xFF, 0xFD, 0x00, 0x01, 0x03, 0x00, 0x05, 0x02, 0xCE];
    let (done, limit) = ([0xFF, 0xFF, 0xFD, 0x00, 0x01, 0x04, 0x00, 0x55, 0x00, 0xA1, 0x0C], [0xFF, 0xFF, 0xFD, 0x00, 0x01, 0x04, 0x00, 0x55, 0x06, 0xB5, 0x0C]);
    for changed in [false, true] {
        let (mut table, mut registered) = ([0; 136], exports::Registered::default());
        assert_eq!(exports::fresh(&mut table), 0);
        let mut wanted = table;
        let mut heard = |packet: &[u8], status: &[u8]| {
            let (mut body, mut reply) = ([0; 1022], [0; 32]);
            let answer = exports::exchange(&mut table, registered, packet, &mut body, &mut reply);
            assert_eq!((&reply[..answer.count as usize], answer.slot), (status, 0));
            registered = answer.registered;
        };
        heard(&register, &done);
        if changed {
            heard(&lower, &done);
        }
        heard(&action, if changed { &limit } else { &done });
        if changed {
            wanted[48..52].copy_from_slice(&4000i32.to_le_bytes());
        } else {
            wanted[116..120].copy_from_slice(&512i32.to_le_bytes());
        }
        assert_eq!((table, registered), (wanted, exports::Registered::default()));
    }
}
