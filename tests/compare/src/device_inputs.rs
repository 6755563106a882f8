//! Random inputs of a device: tables, registered writes and instructions that lead to the corners of the rules.

use crate::{around_the_longest, front, noise, record, segment, worst_noise};
use reference::{framed, fresh, packet_of, stuff, Board, Registered, Rng, Table, LONGEST_PACKET, TABLE_BYTES};

/// Address and bytes of each item.
const ITEMS: [(usize, usize); 15] = [
    (0, 2),
    (6, 1),
    (7, 1),
    (8, 1),
    (20, 4),
    (48, 4),
    (52, 4),
    (64, 1),
    (65, 1),
    (68, 1),
    (69, 1),
    (70, 1),
    (104, 4),
    (116, 4),
    (132, 4),
];
const WRITABLE: [(usize, usize); 10] = [(7, 1), (8, 1), (20, 4), (48, 4), (52, 4), (64, 1), (65, 1), (68, 1), (104, 4), (116, 4)];
/// The writable items that lie side by side, and what a write of all of them has.
const SIDE_BY_SIDE: [(usize, usize); 3] = [(7, 2), (48, 8), (64, 2)];

pub const INSTRUCTIONS: [u8; 11] = [0x01, 0x02, 0x03, 0x04, 0x05, 0x06, 0x08, 0x82, 0x83, 0x92, 0x93];

/// The longest body of a packet.
const LONGEST_BODY: usize = 1_022;

/// The ends of the ranges, and numbers beside them.
const ENDS: [i32; 29] = [
    0,
    1,
    -1,
    2,
    3,
    7,
    8,
    252,
    253,
    254,
    255,
    256,
    330,
    331,
    -330,
    -331,
    4_094,
    4_095,
    4_096,
    65_535,
    65_536,
    1_044_479,
    1_044_480,
    -1_044_479,
    -1_044_480,
    i32::MIN,
    i32::MAX,
    -4_095,
    -256,
];

/// Numbers at the ends of the ranges and beside them; near the limits and the goal position that the table has.
pub fn value(rng: &mut Rng, table: &[u8]) -> i32 {
    let stored = |address: usize| i32::from_le_bytes(table[address..address + 4].try_into().unwrap());
    match rng.between(0, 4) {
        0 | 1 => rng.between(0, 4_095) as i32,
        2 => rng.pick(&ENDS),
        3 => {
            let near = stored(rng.pick(&[48, 52, 116]));
            near.wrapping_add(rng.pick(&[-1, 0, 0, 1]))
        }
        _ => rng.word() as i32,
    }
}

fn set(table: &mut [u8], address: usize, bytes: &[u8]) {
    table[address..address + bytes.len()].copy_from_slice(bytes);
}

/// Fresh tables, lived-in ones, and any bytes; their ID is valid.
pub fn table(rng: &mut Rng) -> Table {
    let mut table = fresh();
    if rng.one_in(5) {
        return table;
    }
    if rng.one_in(4) {
        table = rng.bytes(TABLE_BYTES).try_into().unwrap();
        if rng.one_in(2) {
            table[64] = 0;
        }
    } else {
        for (address, bytes) in ITEMS {
            if rng.one_in(2) && bytes == 4 {
                let value = value(rng, &table);
                set(&mut table, address, &value.to_le_bytes());
            }
        }
        if rng.one_in(2) {
            let (a, b) = (rng.between(0, 4_095) as i32, rng.between(0, 4_095) as i32);
            set(&mut table, 48, &a.max(b).to_le_bytes());
            set(&mut table, 52, &a.min(b).to_le_bytes());
        }
        table[64] = rng.pick(&[0, 0, 0, 1, 2, 255]);
        if rng.one_in(3) {
            let undefined = rng.pick(&[2, 5, 9, 19, 24, 47, 56, 63, 66, 67, 71, 103, 108, 115, 120, 131]);
            table[undefined] = rng.byte();
        }
    }
    if rng.one_in(5) {
        // what has to be stuffed in a status
        for address in [0, 1, 6].into_iter().chain(20..24).chain(48..56).chain(104..108).chain(116..120).chain(132..136) {
            table[address] = rng.pick(&[0xFF, 0xFF, 0xFD]);
        }
    }
    table[7] = rng.pick(&[0, 1, 1, 7, 251, 252]);
    table[68] = rng.pick(&[0, 1, 2, 2, 2, 3, 128, 255]);
    table[70] = rng.pick(&[0, 0, 0, 1, 0x20, 0x80, 0xFF]);
    table
}

/// The limits that a registered write carries: mostly those in the table, else others near them or anywhere.
fn limits(rng: &mut Rng, table: &[u8]) -> (i32, i32) {
    let stored = |at: usize| table.get(at..at + 4).map_or(0, |bytes| i32::from_le_bytes(bytes.try_into().unwrap()));
    let (min, max) = (stored(52), stored(48));
    match rng.between(0, 11) {
        0 => (min.wrapping_add(rng.pick(&[1, -1])), max),
        1 => (min, max.wrapping_add(rng.pick(&[1, -1]))),
        2 => (max, min),
        3 => (rng.word() as i32, rng.word() as i32),
        4 => rng.pick(&[(0, 0), (i32::MIN, i32::MAX), (min, min), (max, max), (min ^ i32::MIN, max)]),
        _ => (min, max),
    }
}

/// Registered writes: none, good ones, and such as no call has left; the count may be too large.
pub fn registered(rng: &mut Rng, table: &[u8]) -> Registered {
    let bytes: [u8; 8] = match rng.between(0, 2) {
        0 => [0; 8],
        1 => {
            let (a, b) = (value(rng, table), value(rng, table));
            [a.to_le_bytes(), b.to_le_bytes()].concat().try_into().unwrap()
        }
        _ => rng.bytes(8).try_into().unwrap(),
    };
    let (min, max) = limits(rng, table);
    let (address, count) = match rng.between(0, 9) {
        0 | 1 => return Registered::default(),
        2 => (rng.word() as usize, 0),
        3 => (rng.word() as usize, usize::from(rng.byte())),
        4 => (rng.between(0, 140), rng.between(0, 9)),
        5 => {
            let (address, count) = rng.pick(&WRITABLE);
            (address + 256 * rng.between(1, 255), count)
        }
        6 => rng.pick(&SIDE_BY_SIDE),
        _ => rng.pick(&WRITABLE),
    };
    Registered { address: address as u16, count: count as u8, bytes, min, max }
}

/// An address and data to write there: mostly whole items, now and then cut, too long, or anywhere.
fn write(rng: &mut Rng, table: &[u8]) -> Vec<u8> {
    let (mut address, mut length) = match rng.between(0, 9) {
        0 => rng.pick(&ITEMS),
        1 => (rng.between(0, 140), rng.between(0, 12)),
        2 => rng.pick(&SIDE_BY_SIDE),
        _ => rng.pick(&WRITABLE),
    };
    if rng.one_in(12) {
        address = match rng.between(0, 3) {
            0 => address.saturating_sub(1),
            1 => address + 1,
            2 => rng.between(130, 140),
            // the low byte is that of an item
            _ => address + 256 * rng.between(1, 255),
        };
    }
    if rng.one_in(12) {
        length = rng.pick(&[0, 1, 2, 3, 4, 5, 7, 8, 9, length + 1]);
    }
    let mut data = Vec::new();
    while data.len() < length {
        match length {
            1 | 2 => data.push(if rng.one_in(2) { rng.between(0, 3) as u8 } else { value(rng, table) as u8 }),
            _ => data.extend(value(rng, table).to_le_bytes()),
        }
    }
    data.truncate(length);
    [&(address as u16).to_le_bytes()[..], &data].concat()
}

fn read(rng: &mut Rng) -> Vec<u8> {
    let (address, length) = match rng.between(0, 4) {
        0 => (rng.between(0, 140), rng.between(0, 12)),
        1 => (rng.word() as u16 as usize, rng.word() as u16 as usize),
        2 => rng.pick(&SIDE_BY_SIDE),
        _ => rng.pick(&ITEMS),
    };
    // address or length with the low byte of a good one
    let (address, length) = match rng.between(0, 19) {
        0 => (address + 256 * rng.between(1, 255), length),
        1 => (address, length + 256 * rng.between(1, 255)),
        _ => (address, length),
    };
    [(address as u16).to_le_bytes(), (length as u16).to_le_bytes()].concat()
}

/// IDs, none of them twice, with ours among them or not.
fn ids(rng: &mut Rng, own: u8, count: usize) -> Vec<u8> {
    let mut ids: Vec<u8> = (0..=252).collect();
    for i in 0..ids.len() {
        let j = rng.between(i, ids.len() - 1);
        ids.swap(i, j);
    }
    ids.truncate(count);
    if rng.one_in(8) {
        ids.retain(|&id| id != own);
    } else if !ids.contains(&own) && !ids.is_empty() {
        let place = rng.between(0, ids.len() - 1);
        ids[place] = own;
    }
    ids
}

/// The IDs of a list; now and then one that none has, or one twice, far behind ours too.
fn ids_of_a_list(rng: &mut Rng, own: u8) -> Vec<u8> {
    let count = if rng.one_in(6) { rng.between(100, 253) } else { rng.between(0, 12) };
    let mut ids = ids(rng, own, count);
    if !ids.is_empty() && rng.one_in(6) {
        let wrong = if rng.one_in(2) { rng.pick(&[253, 254, 255]) } else { rng.pick(&ids) };
        let place = if rng.one_in(2) { ids.len() } else { rng.between(0, ids.len()) };
        ids.insert(place, wrong);
    }
    ids
}

/// Now and then cut, or a byte longer.
fn cut(rng: &mut Rng, parameters: &mut Vec<u8>) {
    if rng.one_in(10) && !parameters.is_empty() {
        let kept = parameters.len() - rng.between(1, parameters.len().min(6));
        parameters.truncate(kept);
    }
    if rng.one_in(20) {
        parameters.push(rng.byte());
    }
}

/// A Sync list, whole or broken in one of the ways that the rules name.
fn sync(rng: &mut Rng, table: &[u8], with_bytes: bool) -> Vec<u8> {
    let own = table[7];
    let ids = ids_of_a_list(rng, own);
    let first = if with_bytes { write(rng, table) } else { read(rng) };
    let length = if with_bytes { first.len() - 2 } else { usize::from(first[2]) + 256 * usize::from(first[3]) };
    let mut parameters = [&first[..2], &(length as u16).to_le_bytes()].concat();
    for id in ids {
        parameters.push(id);
        if with_bytes {
            let data = if id == own { first[2..].to_vec() } else { rng.bytes(length) };
            parameters.extend(data);
        }
    }
    cut(rng, &mut parameters);
    parameters
}

/// What a Bulk list has behind an ID: address, length and, to write, data.
fn bulk_entry(rng: &mut Rng, table: &[u8], with_bytes: bool) -> Vec<u8> {
    if !with_bytes {
        return read(rng);
    }
    let write = write(rng, table);
    let (address, data) = write.split_at(2);
    [address, &(data.len() as u16).to_le_bytes(), data].concat()
}

/// A Bulk list, whole or broken in one of the ways that the rules name. The other entries are for devices of any sort.
fn bulk(rng: &mut Rng, table: &[u8], with_bytes: bool) -> Vec<u8> {
    let own = table[7];
    let ids = ids_of_a_list(rng, own);
    let empty = if rng.one_in(8) { rng.pick(&[&[0][..], &ids].concat()) } else { own };
    let mut parameters = Vec::new();
    for id in ids {
        let mut entry = bulk_entry(rng, table, with_bytes);
        if id != own {
            let length = rng.between(1, 6);
            entry = [rng.bytes(2), vec![length as u8, 0], rng.bytes(if with_bytes { length } else { 0 })].concat();
            if id == empty {
                entry.truncate(4);
                entry[2] = 0;
            }
        }
        parameters.push(id);
        parameters.extend(entry);
    }
    cut(rng, &mut parameters);
    parameters
}

/// A body for this instruction, mostly with the right count of parameters.
pub fn body(rng: &mut Rng, table: &[u8], instruction: u8) -> Vec<u8> {
    let mut parameters = match instruction {
        0x02 => read(rng),
        0x03 | 0x04 => write(rng, table),
        0x06 => vec![if rng.one_in(6) { rng.byte() } else { rng.pick(&[1, 2, 255]) }],
        0x82 => sync(rng, table, false),
        0x83 => sync(rng, table, true),
        0x92 => bulk(rng, table, false),
        0x93 => bulk(rng, table, true),
        _ => vec![],
    };
    if rng.one_in(15) {
        let count = rng.between(0, 20);
        parameters.resize(count, 1);
    }
    [&[instruction], &parameters[..]].concat()
}

pub fn id(rng: &mut Rng, own: u8) -> u8 {
    match rng.between(0, 19) {
        0 => rng.byte(),
        1 => rng.pick(&[253, 255]),
        2..=5 => 254,
        _ => own,
    }
}

/// Whether an instruction has a list, which is sent to all devices.
pub fn has_list(instruction: u8) -> bool {
    matches!(instruction, 0x82 | 0x83 | 0x92 | 0x93)
}

/// How often each instruction comes in a life: so that much is written and little reset.
pub fn instruction_of_a_life(rng: &mut Rng) -> u8 {
    match rng.between(0, 99) {
        0..=6 => 0x01,
        7..=20 => 0x02,
        21..=50 => 0x03,
        51..=68 => 0x04,
        69..=80 => 0x05,
        81 => 0x06,
        82..=83 => 0x08,
        84..=86 => 0x82,
        87..=91 => 0x83,
        92..=93 => 0x92,
        94..=97 => 0x93,
        _ => rng.byte(),
    }
}

/// The ID and the body of an instruction for a device with this table, mostly: some are for others, empty, or of any length.
pub fn instruction(rng: &mut Rng, table: &[u8]) -> (u8, Vec<u8>) {
    let instruction = instruction_of_a_life(rng);
    let body = match rng.between(0, 299) {
        0..=4 => vec![],
        5 => {
            let length = crate::length(rng);
            [&[instruction], &crate::body(rng, length)[..]].concat()
        }
        _ => body(rng, table, instruction),
    };
    let id = if has_list(instruction) && !rng.one_in(5) { 254 } else { id(rng, table[7]) };
    (id, body)
}

/// A packet with an instruction, as long as it fits into one.
pub fn packet(rng: &mut Rng, table: &[u8]) -> Vec<u8> {
    let (id, body) = instruction(rng, table);
    let fits = stuff(&body).len() <= LONGEST_BODY;
    packet_of(id, if fits { &body } else { &body[..500] })
}

/// What stands on the line of a device: mostly a packet with an instruction; or a damaged one, one cut short, one inside a
/// damaged one, one behind a front that promises far more, another device's status, noise.
pub fn part(rng: &mut Rng, table: &[u8]) -> Vec<u8> {
    let mut packet = packet(rng, table);
    let id = packet[4];
    match rng.between(0, 24) {
        0 => {
            let length = rng.between(1, 30);
            noise(rng, length)
        }
        1 => segment(rng, 1, 60),
        2 | 3 => {
            let place = rng.between(0, packet.len() - 1);
            packet[place] ^= 1 << rng.between(0, 7);
            packet
        }
        4 | 5 => {
            let mut outer = framed(id, &[&[rng.byte()], &packet[..], &[rng.byte()]].concat());
            *outer.last_mut().expect("no packet is empty") ^= rng.pick(&[0, 1, 0x80]);
            outer
        }
        6 => {
            let count = rng.between(0, 8);
            packet_of(id, &[&[0x55, 0], &rng.bytes(count)[..]].concat())
        }
        7 => {
            packet.truncate(rng.between(0, packet.len() - 1));
            packet
        }
        8 => [&vec![0xFF; rng.between(1, 6)][..], &packet].concat(),
        9 => [front(rng), packet].concat(),
        _ => packet,
    }
}

/// What stands on the line of a device between two gaps, now and then many bytes at once.
pub fn line(rng: &mut Rng, table: &[u8]) -> Vec<u8> {
    match rng.between(0, 79) {
        0 => worst_noise(rng.between(140, 250)),
        1 | 2 => around_the_longest(rng),
        3 => {
            let length = rng.between(1_000, 1_100);
            [rng.bytes(length), packet(rng, table)].concat()
        }
        _ => (0..rng.between(1, 6)).flat_map(|_| part(rng, table)).collect(),
    }
}

/// A board that is not refused: all 0 beside its table, in which anything may stand, and a registered write or none.
pub fn board(rng: &mut Rng) -> Board {
    let table = table(rng);
    let mut registered = registered(rng, &table);
    registered.count %= 9;
    Board { table, registered, ..Board::start() }
}

/// Anything in every part of a board; count, ID and registered write may be such that it is refused.
pub fn any_board(rng: &mut Rng) -> Board {
    let (held, count) = record(rng);
    let Board { mut table, mut registered, .. } = board(rng);
    if rng.one_in(8) {
        table[7] = rng.pick(&[253, 254, 255]);
    }
    if rng.one_in(8) {
        registered.count = rng.pick(&[9, 10, 128, 255]);
    }
    let mut packet = [0; LONGEST_PACKET];
    packet.fill_with(|| rng.byte());
    Board { held, count, packet, table, registered }
}
