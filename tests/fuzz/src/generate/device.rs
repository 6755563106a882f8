//! Calls on a control table, and lives of a device.

use super::board::{some_length, Board};
use crate::Operation;
use compare::{device_inputs, PACKET};
use reference::{Rng, TABLE_BYTES};

/// Fresh and measurement calls on tables of any length and contents.
pub fn table(rng: &mut Rng) -> Vec<Operation> {
    let mut operations = Vec::new();
    for _ in 0..rng.between(1, 6) {
        let length = if rng.one_in(3) { some_length(rng) } else { TABLE_BYTES };
        operations.push(Operation::Board { reply: rng.between(0, 40), table: rng.bytes(length) });
        for _ in 0..rng.between(1, 4) {
            operations.push(if rng.one_in(3) {
                Operation::Fresh
            } else {
                Operation::Measure { position: device_inputs::value(rng, &[0; TABLE_BYTES]), error: rng.byte() }
            });
        }
    }
    operations
}

/// Many instructions in a row. An odd board refuses them all, so that it is soon changed.
pub fn life(rng: &mut Rng) -> Vec<Operation> {
    let mut operations = Vec::new();
    let mut board = Board::sound(rng, &mut operations);
    let calls = if rng.one_in(20) { rng.between(200, 600) } else { rng.between(1, 50) };
    let mut odd_for = 0;
    for _ in 0..calls {
        if odd_for == 1 {
            board = Board::sound(rng, &mut operations);
        } else if rng.one_in(25) {
            board = Board::odd(rng, &mut operations);
            odd_for = rng.between(2, 4);
        }
        odd_for = odd_for.saturating_sub(1);
        board.meanwhile(rng, &mut operations);
        let (id, body) = board.instruction(rng);
        if rng.one_in(4) {
            board.receive(rng, id, &body, &mut operations);
            continue;
        }
        let kind = if rng.one_in(25) { rng.pick(&[0, 2, 2, 2, 3, 9, 25, 255]) } else { PACKET };
        board.hear(kind, id, body, &mut operations);
    }
    operations
}
