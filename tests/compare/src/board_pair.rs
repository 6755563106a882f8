use crate::device_pair::{exported, exported_reply};
use crate::{hex, must_agree, Calls, Comparison, Difference, Guarded, PROVED};
use exports::BoardStep;
use reference::{measure_call, Board, Rng};
use std::hint::black_box;

/// What a board's calls borrow, with bytes around all of it that no call may touch.
#[derive(Clone)]
struct Borrowed {
    held: Guarded,
    /// The count is the one in the middle.
    count: [usize; 3],
    packet: Guarded,
    table: Guarded,
}

impl Borrowed {
    fn new(rng: &mut Rng, board: &Board) -> Borrowed {
        Borrowed {
            held: Guarded::new(rng, &board.held),
            count: [rng.word() as usize, board.count, rng.word() as usize],
            packet: Guarded::new(rng, &board.packet),
            table: Guarded::new(rng, &board.table),
        }
    }

    /// The same memory, with what this board has.
    fn with(mut self, board: &Board) -> Borrowed {
        self.held.bytes_mut().copy_from_slice(&board.held);
        self.count[1] = board.count;
        self.packet.bytes_mut().copy_from_slice(&board.packet);
        self.table.bytes_mut().copy_from_slice(&board.table);
        self
    }

    fn same(&self, comparison: &Comparison, wanted: &Borrowed) -> Result<(), Difference> {
        comparison.same("the count of held bytes, with the words around it", self.count, wanted.count)?;
        comparison.same_guarded("the held bytes", &self.held, &wanted.held)?;
        comparison.same_guarded("the packet buffer", &self.packet, &wanted.packet)?;
        comparison.same_guarded("the table", &self.table, &wanted.table)
    }
}

/// One board's life, lived twice: every call goes to the proved code and to the reference, and all that is answered and left must
/// be the same.
pub struct BoardPair {
    ours: Borrowed,
    expected: Board,
    exports: Calls,
}

impl BoardPair {
    pub fn new(rng: &mut Rng, board: Board) -> BoardPair {
        BoardPair::of(PROVED, rng, board)
    }

    pub fn of(exports: Calls, rng: &mut Rng, board: Board) -> BoardPair {
        BoardPair { ours: Borrowed::new(rng, &board), expected: board, exports }
    }

    /// As both sides have left it.
    pub fn board(&self) -> &Board {
        &self.expected
    }

    /// The same change on both sides, as firmware or chance may make it.
    pub fn change(&mut self, change: impl FnOnce(&mut Board)) {
        change(&mut self.expected);
        self.ours = self.ours.clone().with(&self.expected);
    }

    pub fn feed(&mut self, chunk: &[u8]) -> BoardStep {
        self.call(Some(chunk))
    }

    pub fn gap(&mut self) -> BoardStep {
        self.call(None)
    }

    /// A feeding call with a chunk, or a gap call.
    pub fn call(&mut self, chunk: Option<&[u8]>) -> BoardStep {
        must_agree(self.try_call(chunk))
    }

    pub fn measure(&mut self, position: i32, hardware_error: u8) {
        must_agree(self.try_measure(position, hardware_error));
    }

    /// The measurement call on the board's table.
    pub fn try_measure(&mut self, position: i32, hardware_error: u8) -> Result<i64, Difference> {
        let (around, before) = (self.ours.clone(), self.expected.table);
        let answer = (self.exports.measure)(self.ours.table.bytes_mut(), position, hardware_error);
        let wanted = measure_call(&mut self.expected.table, position, hardware_error);
        let given = || format!("position {position}, hardware error {hardware_error}, table {}", hex(&before));
        let comparison = Comparison { export: "dxl_measure", given: &given };
        comparison.same("the answer", answer, wanted.map_or_else(|refusal| -i64::from(refusal), |()| 0))?;
        self.ours.same(&comparison, &around.with(&self.expected))?;
        Ok(answer)
    }

    pub fn try_call(&mut self, chunk: Option<&[u8]>) -> Result<BoardStep, Difference> {
        let (around, before) = (self.ours.clone(), self.expected.clone());
        let mut lent = chunk.map(<[u8]>::to_vec);
        let registered = exported(before.registered);

        let Borrowed { held, count, packet, table } = &mut self.ours;
        let (held, count, packet, table) = (held.array_mut(), &mut count[1], packet.array_mut(), table.array_mut());
        let step = match &lent {
            Some(chunk) => (self.exports.board_feed)(held, count, chunk, packet, table, registered),
            None => (self.exports.board_gap)(held, count, packet, table, registered),
        };
        let wanted = match chunk {
            Some(chunk) => self.expected.feed(chunk),
            None => self.expected.gap(),
        };

        let given = || shown(&before, chunk);
        let export = if chunk.is_some() { "dxl_board_feed_parts" } else { "dxl_board_gap_parts" };
        let comparison = Comparison { export, given: &given };
        comparison.same("the answer", step, exported_step(wanted))?;
        self.ours.same(&comparison, &around.with(&self.expected))?;
        comparison.same_bytes("the chunk", black_box(&mut lent).as_deref().unwrap_or_default(), chunk.unwrap_or_default())?;
        Ok(step)
    }

    /// Feeds a chunk, and again what was not taken of it, as long as there are events; answers the calls that gave one.
    pub fn arrive(&mut self, mut chunk: &[u8]) -> Vec<BoardStep> {
        let next = || {
            let step = self.feed(chunk);
            chunk = &chunk[step.taken..];
            is_event(&step).then_some(step)
        };
        std::iter::from_fn(next).collect()
    }

    /// Gap calls as long as there are events, likewise.
    pub fn finish(&mut self) -> Vec<BoardStep> {
        std::iter::from_fn(|| Some(self.gap()).filter(is_event)).collect()
    }
}

/// And neither a refusal nor an answer without an event.
fn is_event(step: &BoardStep) -> bool {
    matches!(step.kind, 1 | 2)
}

fn shown(board: &Board, chunk: Option<&[u8]>) -> String {
    let Board { held, count, table, registered, .. } = board;
    let (held, chunk) = (hex(&held[..held.len().min(*count)]), hex(chunk.unwrap_or_default()));
    format!("{count} held: {held}, chunk {chunk}, {registered:?}, table {}", hex(table))
}

fn exported_step(step: reference::BoardStep) -> BoardStep {
    let reference::BoardStep { taken, count, kind, id, instruction, error, reply, registered } = step;
    let (reply, registered) = (exported_reply(reply), exported(registered));
    BoardStep { taken, count, kind, id, instruction, error, reply, registered }
}
