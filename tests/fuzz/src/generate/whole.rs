//! Lives of a board, from the bytes of the line to the table. The generator follows it by the reference.

use crate::Operation;
use compare::chunks;
use compare::device_inputs::{any_board, board, line, registered, value};
use reference::{measure_call, Board, Rng, MOST_HELD};

/// One that is not refused and whose record began with 0, or any.
pub fn life(rng: &mut Rng) -> Vec<Operation> {
    let mut life = Life { board: if rng.one_in(2) { board(rng) } else { any_board(rng) }, operations: Vec::new() };
    life.tell(if rng.one_in(2) { 0 } else { rng.byte() });
    for _ in 0..rng.between(0, 3) {
        life.gap();
    }
    for _ in 0..rng.between(1, 6) {
        let line = line(rng, &life.board.table);
        life.hear(rng, &line);
    }
    life.operations
}

struct Life {
    board: Board,
    operations: Vec<Operation>,
}

impl Life {
    /// With this byte for all of the record past its count.
    fn tell(&mut self, past: u8) {
        let Board { held, count, table, registered, .. } = self.board;
        let held = held[..count.min(MOST_HELD)].to_vec();
        self.operations.push(Operation::BoardRecord { count, past, held, table, registered });
    }

    fn hear(&mut self, rng: &mut Rng, line: &[u8]) {
        let between_gaps = rng.pick(&[2, 6, 30, 200]);
        for chunk in chunks(rng, line) {
            if rng.one_in(between_gaps) {
                self.gap();
            }
            self.meanwhile(rng);
            self.feed(chunk, rng.one_in(5));
        }
        if !rng.one_in(4) {
            self.operations.push(Operation::BoardFinish);
            while matches!(self.board.gap().kind, 1 | 2) {}
        }
    }

    fn gap(&mut self) {
        self.operations.push(Operation::BoardGap);
        self.board.gap();
    }

    /// One call, or as many as there are events.
    fn feed(&mut self, chunk: &[u8], once: bool) {
        let mut left = chunk;
        loop {
            let step = self.board.feed(left);
            left = &left[step.taken..];
            if once || !matches!(step.kind, 1 | 2) {
                break;
            }
        }
        let chunk = chunk.to_vec();
        self.operations.push(if once { Operation::BoardFeed { chunk } } else { Operation::BoardArrive { chunk } });
    }

    /// What happens to a board beside the line.
    fn meanwhile(&mut self, rng: &mut Rng) {
        match rng.between(0, 149) {
            0..=7 => {
                let (position, error) = (value(rng, &self.board.table), rng.pick(&[0, 0, 1, 0xFF]));
                self.operations.push(Operation::BoardMeasure { position, error });
                measure_call(&mut self.board.table, position, error).expect("a board's table has its length");
            }
            8 => self.tell(rng.byte()),
            9 => {
                self.board.registered = registered(rng, &self.board.table);
                self.tell(0);
            }
            // one that is refused would do nothing any more
            10..=14 => {
                self.board = board(rng);
                self.tell(0);
            }
            _ => {}
        }
    }
}
