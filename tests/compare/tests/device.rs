//! The device and the rules of its control table: the proved call and the reference answer the same and leave the same table,
//! registered write and reply buffer.

use compare::device_inputs::{body, has_list, id, instruction_of_a_life, registered, table, value, INSTRUCTIONS};
use compare::{DevicePair, Told, BAD_CHECKSUM, PACKET};
use reference::{fresh, Registered, Rng, Table, TABLE_BYTES};
use std::collections::BTreeMap;

const REPLY_BYTES: usize = 32;

/// How often each instruction (256 for a bad checksum, 257 for an empty body) met with each error, the alert bit aside.
type Errors = BTreeMap<(u16, u8), usize>;

fn count(errors: &mut Errors, kind: u8, body: &[u8], told: Told) {
    let what = match (kind, body.first()) {
        (BAD_CHECKSUM, _) => 256,
        (_, None) => 257,
        (_, Some(&instruction)) => u16::from(instruction),
    };
    if let Some(error) = told.error {
        *errors.entry((what, error & 0x7F)).or_insert(0) += 1;
    }
}

/// Every error that an instruction can meet with came up often.
fn assert_all_seen(errors: &Errors, least: usize) {
    let possible: [(u16, &[u8]); 13] = [
        (0x01, &[0, 5]),
        (0x02, &[0, 5, 7]),
        (0x03, &[0, 4, 5, 6, 7]),
        (0x04, &[0, 4, 5, 6, 7]),
        (0x05, &[0, 2, 4, 5, 6, 7]),
        (0x06, &[0, 4, 5]),
        (0x08, &[0, 5]),
        (0x82, &[0, 2, 7]),
        (0x83, &[2]),
        (0x92, &[0, 2, 7]),
        (0x93, &[2]),
        (256, &[3]),
        (257, &[2]),
    ];
    for (instruction, all) in possible {
        for &error in all {
            let seen = errors.get(&(instruction, error)).copied().unwrap_or(0);
            assert!(seen >= least, "instruction {instruction:#x} met with error {error} only {seen} times");
        }
        let impossible = (0..=255).find(|error| !all.contains(error) && errors.contains_key(&(instruction, *error)));
        assert_eq!(impossible, None, "instruction {instruction:#x}");
    }
}

/// Every instruction byte to every sort of ID with 0 to 20 parameters. [D1-D5 D8-D14 D19 D21 D26 D27 D31-D34 D43]
#[test]
fn every_instruction_id_and_parameter_count() {
    let mut rng = Rng::new(50);
    for instruction in 0..=255 {
        for parameters in 0..=20 {
            for sort in 0..7 {
                let table = table(&mut rng);
                let registered = registered(&mut rng, &table);
                let id = [table[7], table[7], 254, 253, 255, table[7] ^ 1, rng.byte()][sort];
                let mut device = DevicePair::new(&mut rng, &table, registered, REPLY_BYTES);
                let mut body = body(&mut rng, &table, instruction);
                body.resize(1 + parameters, 0);
                device.hear(PACKET, id, &body);
            }
        }
    }
}

/// Any instruction on any table; tagged are the rules that no other test is about. [D28 D35-D37 T6 T13 T18]
#[test]
fn random_calls() {
    let mut rng = Rng::new(51);
    let mut errors = Errors::new();
    let (mut silent, mut refused, mut longest) = (0, [0; 5], 0);
    for _ in 0..200_000 {
        let table = table(&mut rng);
        let registered = registered(&mut rng, &table);
        let room = REPLY_BYTES + rng.pick(&[0, 0, 1, 8]);
        let mut device = DevicePair::new(&mut rng, &table, registered, room);
        let instruction = if rng.one_in(20) { rng.byte() } else { rng.pick(&INSTRUCTIONS) };
        let mut body = body(&mut rng, &table, instruction);
        if rng.one_in(50) {
            body.clear();
        }
        let kind = if rng.one_in(20) { rng.pick(&[0, 2, 2, 2, 3, 25, 255]) } else { PACKET };
        let id = id(&mut rng, table[7]);
        let told = device.hear(kind, id, &body);
        longest = longest.max(told.count);
        if told.count < 0 {
            refused[(-told.count - 20) as usize] += 1;
        } else if told.count == 0 {
            silent += 1;
        } else {
            count(&mut errors, kind, &body, told);
        }
    }
    assert_all_seen(&errors, 40);
    // eight bytes with two places to stuff
    assert_eq!(longest, 21);
    assert!(silent > 20_000 && refused[3] > 5_000 && refused[1] + refused[2] + refused[4] == 0, "{silent}, {refused:?}");
}

/// Reads of every address and every length up to 10, and writes likewise, with the torque off and on. [T2 T7-T9 T15-T17]
#[test]
fn every_address_and_length() {
    let mut rng = Rng::new(52);
    for address in (0..=140).chain(256..=396).chain(65_280..=65_535) {
        for length in 0..=10 {
            for torque in [0, 1, 255] {
                let mut table = table(&mut rng);
                (table[64], table[68]) = (torque, 2);
                let mut device = DevicePair::new(&mut rng, &table, Registered::default(), REPLY_BYTES);
                let [low, high] = u16::to_le_bytes(address);
                device.hear(PACKET, table[7], &[2, low, high, length as u8, 0]);
                device.hear(PACKET, 254, &[0x82, low, high, length as u8, 0, table[7]]);
                device.hear(PACKET, 254, &[0x92, table[7], low, high, length as u8, 0]);
                let mut data = rng.bytes(length);
                device.hear(PACKET, 254, &[&[0x93, table[7], low, high, length as u8, 0], &data[..]].concat());
                device.hear(PACKET, table[7], &[&[4, low, high], &data[..]].concat());
                device.hear(PACKET, table[7], &[&[3, low, high], &data[..]].concat());
                data.fill(0);
                device.hear(PACKET, table[7], &[&[3, low, high], &data[..]].concat());
            }
        }
    }
}

/// A write of each four-byte item at, and one beside, both ends of its range, and of each one-byte item with every value.
/// [T3 T10 T11]
#[test]
fn ends_of_the_ranges() {
    let mut rng = Rng::new(53);
    let four: [(u8, i32, i32); 5] =
        [(20, -1_044_479, 1_044_479), (48, 0, 4_095), (52, 0, 4_095), (104, -330, 330), (116, 0, 4_095)];
    for (address, lowest, highest) in four {
        for (value, good) in [
            (lowest - 1, false),
            (lowest, true),
            (lowest + 1, true),
            (highest - 1, true),
            (highest, true),
            (highest + 1, false),
            (i32::MIN, false),
            (i32::MAX, false),
        ] {
            // min position goes as high as the goal position, max position as low
            let goal: i32 = if address == 52 { 4_095 } else { 0 };
            let table = stored(4_095, 0, goal);
            let mut device = DevicePair::new(&mut rng, &table, Registered::default(), REPLY_BYTES);
            let told = device.hear(PACKET, 1, &[&[3, address, 0][..], &value.to_le_bytes()].concat());
            assert_eq!(told.error, Some(if good { 0 } else { 4 }), "{value} at {address}");
            let same = device.table()[usize::from(address)..usize::from(address) + 4] == value.to_le_bytes();
            assert_eq!(same, good, "{value} at {address}");
        }
    }
    for (address, highest) in [(7, 252), (8, 7), (64, 1), (65, 1), (68, 2)] {
        for value in 0..=255 {
            let mut device = DevicePair::new(&mut rng, &fresh(), Registered::default(), REPLY_BYTES);
            let told = device.hear(PACKET, 1, &[3, address, 0, value]);
            assert_eq!(told.error, Some(if value <= highest { 0 } else { 4 }), "{value} at {address}");
            assert_eq!(device.table()[usize::from(address)] == value, value <= highest || fresh()[usize::from(address)] == value);
        }
    }
}

/// Tables and reply buffers of other lengths, IDs above 252, counts above 8: refused in their order, whatever was heard.
/// [N5-N8 N10-N12]
#[test]
fn refusals() {
    let mut rng = Rng::new(54);
    let mut seen = [0; 5];
    for length in (0..=5).chain(130..=142).chain([272, 1_000]) {
        for own in [1, 252, 253, 254, 255] {
            for count in [0, 8, 9, 255] {
                for reply in [0, 1, 21, 31, 32, 33] {
                    for (kind, id) in [(PACKET, 1), (PACKET, 254), (PACKET, own), (BAD_CHECKSUM, 1), (BAD_CHECKSUM, 9), (0, 1)] {
                        let mut bytes = fresh().to_vec();
                        bytes.resize(length, 3);
                        if length > 7 {
                            bytes[7] = own;
                        }
                        let registered = Registered { address: 65, count, bytes: [1, 2, 3, 4, 5, 6, 7, 8], min: -1, max: i32::MAX };
                        let mut device = DevicePair::new(&mut rng, &bytes, registered, reply);
                        let body: &[u8] = rng.pick(&[&[1][..], &[], &[8], &[6, 1], &[0x55], &[3, 65, 0, 1], &[5]]);
                        let told = device.hear(kind, id, body);
                        let wanted = match (length, own, count, reply) {
                            (0..=135 | 137.., _, _, _) => 21,
                            (_, 253.., _, _) => 22,
                            (_, _, 9.., _) => 23,
                            (_, _, _, 0..=31) => 24,
                            _ => 20,
                        };
                        assert_eq!(told.count.min(0), if wanted == 20 { 0 } else { -wanted });
                        if wanted != 20 {
                            assert!(device.table() == bytes && device.registered == registered);
                        }
                        seen[(wanted - 20) as usize] += 1;
                    }
                }
            }
        }
    }
    assert!(seen.iter().all(|&count| count > 40), "{seen:?}");
}

/// Whole lives: one table from fresh on, thousands of calls of every sort, the registered write handed on.
/// [D6 D7 D12-D20 D30 D42 M5 T12 T14]
#[test]
fn lives() {
    let mut rng = Rng::new(56);
    let mut errors = Errors::new();
    // by Sync and by Bulk lists
    let (mut stored, mut slots) = ([0; 2], [0; 2]);
    for _ in 0..60 {
        let mut device = DevicePair::new(&mut rng, &[0; TABLE_BYTES], Registered::default(), REPLY_BYTES);
        device.fresh();
        for _ in 0..5_000 {
            if rng.one_in(30) {
                let hardware_error = if rng.one_in(3) { rng.byte() } else { 0 };
                let position = value(&mut rng, device.table());
                device.measure(position, hardware_error);
            }
            if rng.one_in(400) {
                // a board that somebody has tampered with
                let (place, byte) = (rng.between(8, TABLE_BYTES - 1), rng.byte());
                device.change(|table| table[place] = byte);
            }
            if rng.one_in(100) {
                device.registered = registered(&mut rng, device.table());
                device.registered.count %= 9;
            }
            let instruction = instruction_of_a_life(&mut rng);
            let body = if rng.one_in(60) { vec![] } else { body(&mut rng, device.table(), instruction) };
            let kind = if rng.one_in(40) { rng.pick(&[0, 2, 2, 9]) } else { PACKET };
            let id = if has_list(instruction) && !rng.one_in(5) { 254 } else { id(&mut rng, device.table()[7]) };
            let before = device.table().to_vec();
            let told = device.hear(kind, id, &body);
            count(&mut errors, kind, &body, told);
            for (i, [read, write]) in [[0x82, 0x83], [0x92, 0x93]].into_iter().enumerate() {
                stored[i] += usize::from(instruction == write && device.table() != before);
                slots[i] += usize::from(instruction == read && told.slot > 0);
            }
            // a device that has gone quiet or is locked would try nothing any more
            if rng.one_in(40) {
                device.hear(PACKET, 254, &[8]);
            }
        }
    }
    assert_all_seen(&errors, 20);
    assert!(stored.iter().all(|&n| n > 1_000) && slots.iter().all(|&n| n > 500), "{stored:?} stored, {slots:?} slots above 0");
}

/// A registered write is judged again by the table as it is at Action, and is dropped also where it is refused then. Where a limit
/// has changed, it is refused whether or not it would be good. [D15 D49 M4 T14]
#[test]
fn overtaken_registered_writes() {
    let mut rng = Rng::new(58);
    let cases: [(&[u8], &[&[u8]], u8); 15] = [
        // the goal lies outside the limits by now
        (&[116, 0, 0, 8, 0, 0], &[&[3, 48, 0, 0, 4, 0, 0]], 6),
        (&[116, 0, 0, 4, 0, 0], &[&[3, 116, 0, 0, 8, 0, 0], &[3, 52, 0, 0, 8, 0, 0]], 6),
        // the other limit has moved
        (&[48, 0, 100, 0, 0, 0], &[&[3, 116, 0, 200, 0, 0, 0], &[3, 52, 0, 200, 0, 0, 0]], 6),
        // the goal has moved, and the limit would pass it
        (&[48, 0, 100, 0, 0, 0], &[&[3, 116, 0, 101, 0, 0, 0]], 6),
        (&[48, 0, 100, 0, 0, 0], &[&[3, 116, 0, 100, 0, 0, 0]], 0),
        // the torque locks ROM by now, and not RAM
        (&[8, 0, 3], &[&[3, 64, 0, 1]], 7),
        (&[65, 0, 1], &[&[3, 64, 0, 1]], 0),
        // the goal suits the limits from before and those by now: max has changed, min, both; whatever was registered
        (&[116, 0, 0, 2, 0, 0], &[&[3, 48, 0, 0xA0, 0x0F, 0, 0]], 6),
        (&[116, 0, 0, 2, 0, 0], &[&[3, 116, 0, 9, 0, 0, 0], &[3, 52, 0, 9, 0, 0, 0]], 6),
        (&[116, 0, 0, 8, 0, 0], &[&[3, 48, 0, 0, 8, 0, 0]], 6),
        (&[65, 0, 1], &[&[3, 48, 0, 0xFE, 0x0F, 0, 0]], 6),
        // 06 comes before the write rule, which would give 07
        (&[8, 0, 3], &[&[3, 48, 0, 0xA0, 0x0F, 0, 0], &[3, 64, 0, 1]], 6),
        // they were changed and changed back, or written as they were
        (&[116, 0, 0, 2, 0, 0], &[&[3, 48, 0, 0xA0, 0x0F, 0, 0], &[3, 48, 0, 0xFF, 0x0F, 0, 0]], 0),
        (&[65, 0, 1], &[&[3, 48, 0, 0xFF, 0x0F, 0, 0, 0, 0, 0, 0]], 0),
        // another Reg Write in its place carries the limits from then
        (&[65, 0, 1], &[&[3, 48, 0, 0xA0, 0x0F, 0, 0], &[4, 65, 0, 1]], 0),
    ];
    for (write, between, error) in cases {
        let mut device = DevicePair::new(&mut rng, &fresh(), Registered::default(), REPLY_BYTES);
        assert_eq!(device.hear(PACKET, 1, &[&[4], write].concat()).error, Some(0));
        assert_eq!((device.table()[69], usize::from(device.registered.count)), (1, write.len() - 2));
        for body in between {
            assert_eq!(device.hear(PACKET, 1, body).error, Some(0));
        }
        let mut stored = device.table().to_vec();
        // a refused Reg Write and an Action with a parameter leave it
        assert_eq!(device.hear(PACKET, 1, &[4, 104, 0, 1]).error, Some(5));
        assert_eq!(device.hear(PACKET, 1, &[5, 0]).error, Some(5));
        assert_eq!(device.table(), stored);
        assert_eq!(device.hear(PACKET, 1, &[5]).error, Some(error));
        assert_eq!((device.table()[69], device.registered), (0, Registered::default()));
        let at = usize::from(write[0]);
        stored[69] = 0;
        if error == 0 {
            stored[at..at + write.len() - 2].copy_from_slice(&write[2..]);
        }
        assert_eq!(device.table(), stored);
        assert_eq!(device.hear(PACKET, 1, &[5]).error, Some(2));
    }
}

/// Any limits are accepted in a lent registered write, and only compared. [D48 D49 N14]
#[test]
fn lent_limits() {
    let mut rng = Rng::new(61);
    let numbers = [i32::MIN, -1, 0, 1, 4_095, 4_096, i32::MAX];
    for (max, min) in numbers.iter().flat_map(|&max| numbers.map(|min| (max, min))) {
        for (lent_max, lent_min) in numbers.iter().flat_map(|&max| numbers.map(|min| (max, min))) {
            let write = Registered { address: 65, count: 1, bytes: [1, 0, 0, 0, 0, 0, 0, 0], min: lent_min, max: lent_max };
            let mut table = stored(max, min, 0);
            table[69] = 1;
            let mut device = DevicePair::new(&mut rng, &table, write, REPLY_BYTES);
            assert_eq!(device.hear(PACKET, 1, &[1]).error, Some(0));
            assert_eq!(device.registered, write);
            let same = (lent_min, lent_max) == (min, max);
            assert_eq!(device.hear(PACKET, 1, &[5]).error, Some(if same { 0 } else { 6 }), "{write:?} at {min} to {max}");
            (table[69], table[65]) = (0, same.into());
            assert_eq!((device.table(), device.registered), (&table[..], Registered::default()));
        }
    }
}

/// A fresh table with these numbers in it.
fn stored(max: i32, min: i32, goal: i32) -> Table {
    let mut table = fresh();
    for (address, number) in [(48, max), (52, min), (116, goal)] {
        table[address..address + 4].copy_from_slice(&number.to_le_bytes());
    }
    table
}

fn number(table: &[u8], address: usize) -> i32 {
    i32::from_le_bytes(table[address..address + 4].try_into().unwrap())
}

fn goal_inside(table: &[u8]) -> bool {
    (number(table, 52)..=number(table, 48)).contains(&number(table, 116))
}

/// What is stored as max, min and goal position; numbers written from an address on; the error. Of each device that is wrong in
/// one of these something is answered otherwise: it looks at the limits alone, at max or at min alone, at the limits from before,
/// at the goal as an unsigned number.
const AROUND_THE_GOAL: [([i32; 3], u8, &[i32], u8); 24] = [
    // one limit, up to the goal and past it
    ([4_095, 0, 100], 48, &[100], 0),
    ([4_095, 0, 100], 48, &[99], 6),
    ([4_095, 0, 100], 52, &[100], 0),
    ([4_095, 0, 100], 52, &[101], 6),
    // both in one write
    ([4_095, 0, 100], 48, &[100, 100], 0),
    ([4_095, 0, 100], 48, &[99, 50], 6),
    ([4_095, 0, 100], 48, &[200, 101], 6),
    ([4_095, 0, 100], 48, &[99, 101], 6),
    ([4_095, 0, 0], 52, &[1], 6),
    ([4_095, 0, 4_095], 48, &[4_094], 6),
    // the goal lies outside already: wider limits have to reach it
    ([50, 0, 100], 48, &[99], 6),
    ([50, 0, 100], 48, &[100], 0),
    ([50, 10, 100], 52, &[0], 6),
    ([500, 200, 100], 52, &[101], 6),
    ([500, 200, 100], 52, &[100], 0),
    ([500, 200, 100], 48, &[4_095], 6),
    // a goal that is written goes by the limits, as ever
    ([50, 10, 100], 116, &[50], 0),
    ([50, 10, 20], 116, &[51], 6),
    ([50, 10, 20], 116, &[9], 6),
    // below zero: -3 is between -5 and 4,095, and -1 is below 0
    ([100, -5, -3], 48, &[4_095], 0),
    ([100, -5, -6], 48, &[4_095], 6),
    ([100, 0, -1], 48, &[4_095], 6),
    ([-1, -1, -1], 48, &[0], 0),
    // whatever is not one of the three leaves a goal that is outside where it is
    ([50, 0, 100], 104, &[7], 0),
];

/// Write, Reg Write, Sync Write and Bulk Write go by the goal position that is stored. [D12 T3 T11 T14 T19]
#[test]
fn limits_around_the_stored_goal() {
    let mut rng = Rng::new(60);
    for ([max, min, goal], address, numbers, error) in AROUND_THE_GOAL {
        let table = stored(max, min, goal);
        let data: Vec<u8> = numbers.iter().flat_map(|number| number.to_le_bytes()).collect();
        let mut after = table;
        if error == 0 {
            after[usize::from(address)..usize::from(address) + data.len()].copy_from_slice(&data);
        }
        let shown = format!("{numbers:?} at {address}, with {max}, {min}, {goal}");
        let write = [&[3, address, 0], &data[..]].concat();
        let mut device = DevicePair::new(&mut rng, &table, Registered::default(), REPLY_BYTES);
        assert_eq!(device.hear(PACKET, 1, &write).error, Some(error), "{shown}");
        assert_eq!(device.table(), after, "{shown}");

        for list in [&[0x83, address, 0, data.len() as u8, 0, 1], &[0x93, 1, address, 0, data.len() as u8, 0]] {
            let mut device = DevicePair::new(&mut rng, &table, Registered::default(), REPLY_BYTES);
            device.hear(PACKET, 254, &[list, &data[..]].concat());
            assert_eq!(device.table(), after, "{shown}");
        }

        // an older registered write stays where this one is refused
        let older = Registered { address: 65, count: 1, bytes: [1, 0, 0, 0, 0, 0, 0, 0], min, max };
        let mut device = DevicePair::new(&mut rng, &table, older, REPLY_BYTES);
        assert_eq!(device.hear(PACKET, 1, &[&[4], &write[1..]].concat()).error, Some(error), "{shown}");
        assert_eq!(device.registered == older, error != 0, "{shown}");
        assert_eq!(device.hear(PACKET, 1, &[5]).error, Some(0), "{shown}");
        let lamp = if error == 0 { 0 } else { 1 };
        after[65] = lamp;
        assert_eq!(device.table(), after, "{shown}");
    }
}

/// Reboot puts the goal position at min position, Factory Reset at that of the limits which it has just reset. [D16 D17 T20]
#[test]
fn resets_around_the_goal() {
    let mut rng = Rng::new(61);
    for [max, min, goal] in [[600, 500, 550], [500, 500, 500], [4_095, 1, 4_095], [-5, -10, -7], [9_000, 5_000, 6_000]] {
        for (body, limits) in [(&[8][..], [max, min]), (&[6, 1], [4_095, 0]), (&[6, 2], [4_095, 0]), (&[6, 0xFF], [4_095, 0])] {
            let mut device = DevicePair::new(&mut rng, &stored(max, min, goal), Registered::default(), REPLY_BYTES);
            assert_eq!(device.hear(PACKET, 1, body).error, Some(0));
            assert_eq!([48, 52, 116].map(|at| number(device.table(), at)), [limits[0], limits[1], limits[1]], "{body:?}");
        }
    }
}

/// From a fresh call on, and from any table in which it is so, the goal position stays between the limits: after every call,
/// refused ones too, whatever is lent to it. [T20]
#[test]
fn goal_stays_within_the_limits() {
    let mut rng = Rng::new(62);
    let (mut moved, mut refused, mut resets) = (0, 0, 0);
    for life in 0..60 {
        let mut start = table(&mut rng);
        if !goal_inside(&start) {
            let (max, min) = (number(&start, 48), number(&start, 52));
            start = if max < min { stored(min, max, max) } else { stored(max, min, min) };
        }
        let mut device = DevicePair::new(&mut rng, &start, Registered::default(), REPLY_BYTES);
        if life % 2 == 0 {
            device.change(|table| table.fill(0xA5));
            device.fresh();
        }
        for _ in 0..3_000 {
            let before = device.table().to_vec();
            match rng.between(0, 99) {
                0..=3 => {
                    let position = value(&mut rng, &before);
                    device.measure(position, rng.byte());
                }
                // any registered write, also one that no call has left and one that is refused
                4..=7 => device.registered = registered(&mut rng, &before),
                8 => {
                    device.hear(PACKET, 254, &[8]);
                }
                _ => {}
            }
            let instruction = instruction_of_a_life(&mut rng);
            let body = body(&mut rng, &before, instruction);
            let told = device.hear(PACKET, if rng.one_in(3) { 254 } else { before[7] }, &body);
            assert!(goal_inside(device.table()), "{body:02x?}, {before:02x?}");
            moved += usize::from(before[48..56] != device.table()[48..56]);
            refused += usize::from(told.error.is_some_and(|error| error & 0x7F == 6));
            resets += usize::from(instruction == 6 && before != device.table());
        }
    }
    assert!(moved > 2_000 && refused > 2_000 && resets > 200, "{moved} moved limits, {refused} refusals, {resets} resets");
}

/// Every place of our own entry in a list of 253, and lists that go wrong only at their last entry. [D22-D25]
#[test]
fn long_sync_lists() {
    let mut rng = Rng::new(57);
    for place in 0..=252 {
        let table = table(&mut rng);
        let mut ids: Vec<u8> = (0..=252).collect();
        ids.swap(place, usize::from(table[7]));
        let mut bad_end = ids.clone();
        bad_end.push(rng.pick(&[253, 254, 255, table[7], ids[0]]));
        for ids in [ids, bad_end] {
            let mut device = DevicePair::new(&mut rng, &table, Registered::default(), REPLY_BYTES);
            device.change(|table| table[68] = 2);
            let told = device.hear(PACKET, 254, &[&[0x82, 132, 0, 4, 0], &ids[..]].concat());
            let whole = ids.len() == 253;
            assert_eq!((told.count > 0, told.slot), (whole, if whole { place } else { 0 }));
            for (address, data) in [(104, &[9, 0, 0, 0][..]), (65, &[1]), (104, &[0, 1]), (116, &[0; 4])] {
                let entries: Vec<u8> = ids.iter().flat_map(|&id| [&[id], data].concat()).collect();
                let body = [&[0x83, address, 0, data.len() as u8, 0], &entries[..]].concat();
                device.hear(PACKET, 254, &body);
                device.hear(PACKET, 254, &body[..body.len() - 1]);
            }
        }
    }
}

/// A Bulk list of all devices but one, our entry at each place, and an end that is whole or bad in one way. The other entries
/// have addresses and lengths of their own, so that none can stand in for ours. [D44-D47]
#[test]
fn long_bulk_lists() {
    let mut rng = Rng::new(60);
    for place in 0..=251 {
        let mut table = table(&mut rng);
        (table[64], table[68]) = (0, 2);
        let (own, free) = (table[7], 5);
        let mut ids: Vec<u8> = (0..=252).filter(|&id| id != own && id != free).collect();
        ids.insert(place, own);
        let (mut reads, mut writes) = (vec![0x92], vec![0x93]);
        for &id in &ids {
            let (address, data) = match id {
                _ if id == own => ([104, 0], &[9, 1, 0, 0][..]),
                _ => ([id, 1], &[1, 2, 3][..1 + usize::from(id % 3)]),
            };
            let entry = [&[id], &address[..], &[data.len() as u8, 0]].concat();
            reads.extend(&entry);
            writes.extend([&entry[..], data].concat());
        }
        // an end, and whether it is whole in a list to read and in one to write
        let ends: [(&[u8], bool, bool); 12] = [
            (&[], true, true),
            (&[free, 104, 0, 1, 0], true, false),
            (&[free, 104, 0, 1, 0, 1], false, true),
            (&[free, 104, 0, 0, 0], false, false),
            (&[253, 104, 0, 1, 0, 1], false, false),
            (&[254, 104, 0, 1, 0], false, false),
            (&[255, 104, 0, 1, 0, 1], false, false),
            (&[own, 104, 0, 1, 0], false, false),
            (&[ids[0], 104, 0, 1, 0, 1], false, false),
            (&[free], false, false),
            (&[free, 104, 0, 1], false, false),
            (&[free, 104, 0, 1, 1, 1], false, false),
        ];
        for (end, good_read, good_write) in ends {
            let mut device = DevicePair::new(&mut rng, &table, Registered::default(), REPLY_BYTES);
            let told = device.hear(PACKET, 254, &[&reads[..], end].concat());
            assert_eq!((told.count > 0, told.slot), (good_read, if good_read { place } else { 0 }), "{end:02x?}");
            let told = device.hear(PACKET, 254, &[&writes[..], end].concat());
            assert_eq!((told.count, device.table()[104..108] == [9, 1, 0, 0]), (0, good_write), "{end:02x?}");
        }
    }
}

/// Both Bulk instructions to the own ID: 02 with any parameters, Bulk Read from level 1 on and Bulk Write from level 2; the table
/// stays. Fast Bulk Read is as undefined as before. [D32 D33 D43]
#[test]
fn bulk_to_the_own_id() {
    let mut rng = Rng::new(61);
    let lists: [&[u8]; 5] = [&[], &[1], &[1, 65, 0, 1, 0], &[1, 65, 0, 1, 0, 1], &[2, 65, 0, 0, 0]];
    for (instruction, lowest) in [(0x92, 1), (0x93, 2), (0x9A, 2)] {
        for level in [0, 1, 2, 3, 255] {
            for list in lists {
                let mut device = DevicePair::new(&mut rng, &fresh(), Registered::default(), REPLY_BYTES);
                device.change(|table| table[68] = level);
                let before = device.table().to_vec();
                let told = device.hear(PACKET, 1, &[&[instruction], list].concat());
                assert_eq!((told.error, told.slot), ((level >= lowest).then_some(2), 0), "{instruction:#x} at level {level}");
                assert_eq!(device.table(), before);
            }
        }
    }
}

/// Of the two Bulk instructions only Bulk Read is answered, from level 1 on and where the read is refused too; a Bulk Write is
/// silent, carried out or not. [D31-D34 D46 D47]
#[test]
fn bulk_to_all() {
    let mut rng = Rng::new(62);
    for level in [0, 1, 2, 255] {
        let mut device = DevicePair::new(&mut rng, &fresh(), Registered::default(), REPLY_BYTES);
        device.change(|table| table[68] = level);
        let answered = level > 0;
        for (address, error) in [(6, 0), (2, 7)] {
            let told = device.hear(PACKET, 254, &[0x92, 9, 0, 0, 2, 0, 1, address, 0, 1, 0]);
            assert_eq!((told.error, told.slot), (answered.then_some(error), usize::from(answered)));
        }
        for (value, stored) in [(1, 1), (2, 1), (0, 0)] {
            let told = device.hear(PACKET, 254, &[0x93, 9, 65, 0, 2, 0, 7, 7, 1, 65, 0, 1, 0, value]);
            assert_eq!((told.count, device.table()[65]), (0, stored));
        }
    }
}

/// Bodies longer than any packet carries, lengths whose low byte is 0, lists with more entries than there are IDs. [D4 D45]
#[test]
fn long_bodies() {
    let mut rng = Rng::new(59);
    for length in [20usize, 128, 135, 136, 137, 255, 256, 257, 260, 512, 1_022, 4_096, 65_280, 65_534, 65_535] {
        let [low, high] = (length as u16).to_le_bytes();
        for address in [0u16, 7, 48, 104, 116, 132, 135, 136, 65_280, 65_535] {
            let [a, b] = address.to_le_bytes();
            let table = table(&mut rng);
            let (own, other) = (table[7], if table[7] == 0 { 252 } else { table[7] - 1 });
            let mut device = DevicePair::new(&mut rng, &table, Registered::default(), REPLY_BYTES);
            device.change(|table| table[68] = 2);
            let data = vec![rng.pick(&[0, 1, 0xFF]); length];
            for instruction in [3, 4] {
                let body = [&[instruction, a, b], &data[..]].concat();
                assert!(device.hear(PACKET, own, &body).error.is_some_and(|error| error & 0x7F == 7));
                device.hear(PACKET, 254, &body);
            }
            assert!(device.hear(PACKET, own, &[2, a, b, low, high]).error.is_some_and(|error| error & 0x7F == 7));
            // the own read is refused, in its slot: an X of 256 is not 0
            let told = device.hear(PACKET, 254, &[0x82, a, b, low, high, other, own]);
            assert!(told.slot == 1 && told.error.is_some_and(|error| error & 0x7F == 7));
            let list = [&[other], &data[..], &[own], &data[..]].concat();
            for cut in [0, 1, length, length + 1] {
                device.hear(PACKET, 254, &[&[0x83, a, b, low, high], &list[..list.len() - cut]].concat());
            }
            let told = device.hear(PACKET, 254, &[0x92, other, 0, 0, 0, 1, own, a, b, low, high]);
            assert!(told.slot == 1 && told.error.is_some_and(|error| error & 0x7F == 7));
            let entry = [&[a, b, low, high], &data[..]].concat();
            let list = [&[other], &entry[..], &[own], &entry[..]].concat();
            for cut in [0, 1, length, length + 1, length + 5] {
                device.hear(PACKET, 254, &[&[0x93], &list[..list.len() - cut]].concat());
            }
        }
    }
    for count in [253, 254, 255, 256, 257, 300, 1_018, 5_000] {
        let ids: Vec<u8> = (0..count).map(|i| (i % 253) as u8).collect();
        let mut device = DevicePair::new(&mut rng, &fresh(), Registered::default(), REPLY_BYTES);
        let told = device.hear(PACKET, 254, &[&[0x82, 7, 0, 1, 0], &ids[..]].concat());
        assert_eq!((told.count > 0, told.slot), (count == 253, usize::from(count == 253)));
        let entries: Vec<u8> = ids.iter().flat_map(|&id| [id, 1]).collect();
        device.hear(PACKET, 254, &[&[0x83, 65, 0, 1, 0], &entries[..]].concat());
        assert_eq!(device.table()[65] == 1, count == 253);
    }
}
