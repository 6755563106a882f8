//! The calls that keep nothing.

use crate::Operation;
use compare::{any_plan, body, body_of_stuffed_length, goals, id, joined, length, place};
use compare::{some_room, spoiled, stuffed_well_or_not, v1_length};
use reference::{stuff, v1, Rng};

pub fn several(rng: &mut Rng, draw: fn(&mut Rng) -> Operation) -> Vec<Operation> {
    (0..rng.between(1, 4)).map(|_| draw(rng)).collect()
}

pub fn checksum(rng: &mut Rng) -> Operation {
    let start = if rng.one_in(3) { 0 } else { rng.word() as u16 };
    Operation::Checksum { start, bytes: some_body(rng) }
}

/// Few bytes after the flips, as in a packet, or any number of them.
pub fn flip(rng: &mut Rng) -> Operation {
    let count = rng.between(0, 8);
    let after = if rng.one_in(4) { rng.word() as usize >> rng.between(0, 63) } else { rng.between(0, 1_100) };
    Operation::Flip { crc: rng.word() as u16, after, flips: rng.bytes(count) }
}

pub fn encode(rng: &mut Rng) -> Operation {
    let mut body = some_body(rng);
    if body.is_empty() {
        body.push(rng.byte());
    }
    let (room, at) = place(rng, 9 + stuff(&body).len());
    let instruction = body.remove(0);
    Operation::Encode { id: id(rng), instruction, room, at, params: body }
}

pub fn encode_v1(rng: &mut Rng) -> Operation {
    let length = v1_length(rng);
    let params = body(rng, length);
    let (room, at) = place(rng, 6 + length);
    let protocol = rng.pick(&v1::BOTH);
    let id = if rng.one_in(3) { rng.pick(&[253, 255]) } else { id(rng) };
    Operation::EncodeV1 { protocol, id, instruction: rng.byte(), room, at, params }
}

pub fn unstuff(rng: &mut Rng) -> Operation {
    let raw = some_body(rng);
    let [raw, stuffed, changed, cut] = stuffed_well_or_not(rng, &raw);
    let form = match rng.between(0, 3) {
        0 => raw,
        1 => stuffed,
        2 => changed,
        _ => cut,
    };
    let room = some_room(rng, reference::unstuff(&form).len());
    Operation::Unstuff { room, body: form }
}

/// Any reply: mark, ID and count are good or not, and its bytes are often such that have to be stuffed.
pub fn status(rng: &mut Rng) -> Operation {
    let marked = |rng: &mut Rng| if rng.one_in(3) { rng.byte() } else { rng.pick(&[0xFF, 0xFF, 0xFD]) };
    let bytes = std::array::from_fn(|_| marked(rng));
    Operation::Status {
        room: rng.pick(&[0, 11, 22, 30, 31, 32, 32, 32, 32, 33, 40]),
        slot: rng.word() as usize >> rng.between(0, 63),
        speaks: rng.pick(&[0, 1, 1, 1, 2, 255]),
        id: rng.pick(&[0, 1, 1, 252, 252, 253, 254, 255]),
        error: rng.pick(&[0, 1, 0x87, 0xFF, 0xFF, 0xFD]),
        count: rng.pick(&[0, 1, 2, 3, 4, 7, 8, 8, 9, 255]),
        bytes,
    }
}

/// Goals for few IDs or many, now and then a list that is refused; for the planner or for the test, of a plan that is right or wrong.
pub fn plan(rng: &mut Rng) -> Operation {
    let wanted = rng.pick(&[0, 1, 5, 60, 253]);
    let mut wanted = goals(rng, wanted);
    let packets = any_plan(rng, &wanted);
    if rng.one_in(3) {
        wanted[rng.between(0, 252)] = rng.pick(&[-2, 4096, i32::MIN, i32::MAX]);
    }
    if rng.one_in(4) {
        wanted.resize(rng.between(0, 260), -1);
    }
    let bytes = wanted.iter().flat_map(|goal| goal.to_le_bytes()).collect();
    if rng.one_in(2) {
        let entries = wanted.iter().filter(|&&goal| goal >= 0).count();
        let room = some_room(rng, 5 * entries + 14 * entries.div_ceil(203));
        return Operation::Plan { room, goals: bytes };
    }
    let plan = if rng.one_in(3) || wanted.len() != 253 { joined(&packets) } else { spoiled(rng, &wanted, packets) };
    Operation::Check { goals: bytes, plan }
}

/// Any body, often one whose stuffed form is about as long as a packet can carry.
fn some_body(rng: &mut Rng) -> Vec<u8> {
    if rng.one_in(12) {
        let stuffed = rng.between(1_018, 1_026);
        return body_of_stuffed_length(rng, stuffed);
    }
    let length = length(rng);
    body(rng, length)
}
