//! Bytes on the line: a reader by itself, and whole exchanges.

use super::board::Board;
use crate::Operation;
use compare::{around_the_longest, chunks, device_inputs, record, segment, v1_record, v1_segment, worst_noise};
use reference::{v1, Rng};

/// A reader's calls as a careless user makes them.
pub fn reader(rng: &mut Rng) -> Vec<Operation> {
    let mut operations = Vec::new();
    if rng.one_in(3) {
        let (held, count) = record(rng);
        operations.push(Operation::Record { count, past: 0, held: held.to_vec() });
    }
    for _ in 0..rng.between(1, 3) {
        let line = line(rng);
        calls(rng, &line, &mut operations);
    }
    operations
}

/// The calls of a reader of Protocol 1.0 or Mercury.
pub fn reader_v1(rng: &mut Rng) -> Vec<Operation> {
    let (held, count) = if rng.one_in(2) { v1_record(rng) } else { ([rng.byte(); v1::MOST_HELD], 0) };
    let mut operations = vec![Operation::RecordV1 { protocol: rng.pick(&v1::BOTH), count, past: 0, held: held.to_vec() }];
    operations.extend(vec![Operation::GapV1; rng.between(0, 5)]);
    for _ in 0..rng.between(1, 3) {
        let parts = rng.between(1, 6);
        let longest = if rng.one_in(5) { 240 } else { 30 };
        let line = v1_segment(rng, parts, longest);
        for chunk in chunks(rng, &line) {
            let chunk = chunk.to_vec();
            operations.push(if rng.one_in(4) { Operation::FeedV1 { chunk } } else { Operation::ArriveV1 { chunk } });
            if rng.one_in(12) {
                operations.push(Operation::GapV1);
            }
        }
        operations.extend(vec![Operation::GapV1; rng.between(0, 4)]);
    }
    operations
}

/// A whole segment for the plain reader, from its start, from some offset, or from past its end.
pub fn plain(rng: &mut Rng) -> Operation {
    let segment = line(rng);
    let from = match rng.between(0, 9) {
        0 => rng.pick(&[segment.len(), segment.len() + 1, 1 << 32, usize::MAX - 9, usize::MAX]),
        1..=3 => rng.between(0, segment.len()),
        _ => 0,
    };
    Operation::Plain { from, segment }
}

pub fn line(rng: &mut Rng) -> Vec<u8> {
    match rng.between(0, 99) {
        0 => return worst_noise(rng.between(1, 250)),
        1..=4 => return around_the_longest(rng),
        _ => {}
    }
    let parts = rng.between(1, 5);
    let longest = if rng.one_in(15) { 1_030 } else { 40 };
    segment(rng, parts, longest)
}

/// Gaps in odd places and not finished, fed on after such a gap, rests dropped or fed twice, empty chunks, bytes past the count.
fn calls(rng: &mut Rng, line: &[u8], operations: &mut Vec<Operation>) {
    let between_gaps = rng.pick(&[2, 6, 30, 200]);
    for chunk in chunks(rng, line) {
        let chunk = chunk.to_vec();
        if rng.one_in(between_gaps) {
            operations.push(if rng.one_in(4) { Operation::Finish } else { Operation::Gap });
        }
        if rng.one_in(10) {
            operations.push(Operation::Scribble { byte: rng.byte() });
        }
        match rng.between(0, 19) {
            0 => operations.push(Operation::Feed { chunk }),
            1 => operations.extend([Operation::Feed { chunk: chunk.clone() }, Operation::Feed { chunk }]),
            2..=6 => {
                operations.push(Operation::Feed { chunk });
                operations.extend(vec![Operation::Rest; rng.between(0, 3)]);
            }
            _ => operations.push(Operation::Arrive { chunk }),
        }
    }
    for _ in 0..rng.between(0, 4) {
        operations.push(match rng.between(0, 3) {
            0 => Operation::Feed { chunk: vec![] },
            1 => Operation::Finish,
            _ => Operation::Gap,
        });
    }
}

/// Instructions over the line to a device, and its statuses back.
pub fn exchange(rng: &mut Rng) -> Vec<Operation> {
    let mut operations = Vec::new();
    let draw = if rng.one_in(20) { Board::odd } else { Board::sound };
    let mut board = draw(rng, &mut operations);
    for _ in 0..rng.between(1, 8) {
        board.meanwhile(rng, &mut operations);
        let mut line = Vec::new();
        for _ in 0..rng.between(1, 5) {
            let part = device_inputs::part(rng, &board.known());
            board.follow_line(&part);
            line.extend(part);
        }
        for chunk in chunks(rng, &line) {
            operations.push(Operation::Exchange { chunk: chunk.to_vec() });
            if rng.one_in(60) {
                operations.push(Operation::Silence);
            }
        }
        if !rng.one_in(6) {
            operations.push(Operation::Silence);
        }
    }
    operations
}
