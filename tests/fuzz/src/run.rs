//! Runs a case: every call goes to an export and to the reference, and all that is answered and left must be the same.

use crate::{Case, Operation};
use compare::{compare_checksum, compare_encode, compare_flipped, compare_log_check, compare_log_last, compare_log_salvage};
use compare::compare_log_write;
use compare::{compare_next_event, compare_plan, compare_plan_check, compare_status, compare_unstuff, compare_v1_encode};
use compare::{BoardPair, BAD_CHECKSUM, PACKET};
use compare::{hex, Calls, Comparison, DevicePair, Difference, Encoded, Guarded, ReaderPair, Stepped, Told, V1ReaderPair};
use exports::{BoardStep, Reply};
use reference::{fresh, v1, Board, Event, Registered, Rng, MOST_HELD};
use std::collections::BTreeMap;

/// Room for any unstuffed body.
const LONGEST_BODY: usize = 1_022;
const REPLY_BYTES: usize = 32;

/// A difference and the operation at which it shows.
#[derive(Clone, PartialEq, Eq, Debug)]
pub struct Found {
    pub operation: usize,
    pub difference: Difference,
}

/// How often each export gave each sort of answer: 0 or the refusal of a call that answers a count, the kind of a reader's call.
/// The errors of statuses and the slots above 0 are counted by themselves.
#[derive(Clone, PartialEq, Eq, Debug, Default)]
pub struct Tally {
    pub calls: u64,
    pub answers: BTreeMap<(&'static str, i64), u64>,
}

impl Tally {
    fn call(&mut self, export: &'static str, answer: i64) {
        self.calls += 1;
        self.note(export, answer);
    }

    fn note(&mut self, what: &'static str, number: i64) {
        *self.answers.entry((what, number)).or_insert(0) += 1;
    }

    pub fn seen(&self, what: &'static str, number: i64) -> u64 {
        self.answers.get(&(what, number)).copied().unwrap_or(0)
    }
}

/// The first difference, if there is one.
pub fn run(calls: &Calls, case: &Case, tally: &mut Tally) -> Result<(), Found> {
    let mut world = World::new(calls, case.memory, tally);
    for (at, operation) in case.operations.iter().enumerate() {
        world.perform(operation).map_err(|difference| Found { operation: at, difference })?;
    }
    Ok(())
}

/// What the calls of a case borrow.
struct World<'a> {
    calls: &'a Calls,
    rng: Rng,
    reader: ReaderPair,
    /// What the last feeding call has left.
    rest: Vec<u8>,
    /// A reader of Protocol 1.0 or Mercury.
    v1_reader: V1ReaderPair,
    device: DevicePair,
    board: BoardPair,
    /// The reader at the other end of the line. It holds nothing between two statuses.
    host: ReaderPair,
    tally: &'a mut Tally,
}

impl<'a> World<'a> {
    fn new(calls: &'a Calls, memory: u64, tally: &'a mut Tally) -> World<'a> {
        let mut rng = Rng::new(memory);
        let past = rng.byte();
        let reader = ReaderPair::of(*calls, &mut rng, [past; MOST_HELD], 0);
        let host = ReaderPair::of(*calls, &mut rng, [past; MOST_HELD], 0);
        let device = DevicePair::of(*calls, &mut rng, &fresh(), Registered::default(), REPLY_BYTES);
        let v1_reader = V1ReaderPair::of(*calls, v1::Protocol::P1, &mut rng, [past; v1::MOST_HELD], 0);
        let board = BoardPair::of(*calls, &mut rng, Board::start());
        World { calls, rng, reader, rest: Vec::new(), v1_reader, device, board, host, tally }
    }

    fn perform(&mut self, operation: &Operation) -> Result<(), Difference> {
        match operation {
            Operation::Checksum { start, bytes } => {
                compare_checksum(self.calls, &mut self.rng, *start, bytes)?;
                self.tally.call("dxl_crc16", 0);
            }
            Operation::Flip { crc, after, flips } => {
                compare_flipped(self.calls, &mut self.rng, *crc, flips, *after)?;
                self.tally.call("dxl_crc16_flipped", 0);
            }
            &Operation::Encode { id, instruction, room, at, ref params } => {
                let answer = compare_encode(self.calls, &mut self.rng, Encoded { id, instruction, params, room, at })?;
                self.tally.call("dxl_encode", answer.min(0));
            }
            &Operation::EncodeV1 { protocol, id, instruction, room, at, ref params } => {
                let what = Encoded { id, instruction, params, room, at };
                let answer = compare_v1_encode(self.calls, protocol, &mut self.rng, what)?;
                let export = match protocol {
                    v1::Protocol::P1 => "dxl_p1_encode",
                    v1::Protocol::Mercury => "dxl_mercury_encode",
                };
                self.tally.call(export, answer.min(0));
            }
            Operation::Unstuff { room, body } => drop(self.unstuff(body, *room)?),
            Operation::Plain { from, segment } => self.plain(segment, *from)?,
            &Operation::Status { room, slot, speaks, id, error, count, bytes } => {
                let filler = self.rng.bytes(room);
                let mut ours = Guarded::new(&mut self.rng, &filler);
                let mut expected = ours.clone();
                let reply = Reply { speaks, id, error, count, bytes, slot };
                let answer = compare_status(self.calls, reply, &mut ours, &mut expected)?;
                self.tally.call("dxl_status", answer.min(0));
            }
            Operation::LogWrite { room, lengths, bytes } => {
                let answer = compare_log_write(self.calls, &mut self.rng, bytes, lengths, *room)?;
                self.tally.call("dxl_log_write", answer.min(0));
            }
            Operation::Ask { id, log } => {
                let sound = compare_log_check(self.calls, &mut self.rng, log)?;
                self.tally.call("dxl_log_check", sound);
                let answer = compare_log_last(self.calls, &mut self.rng, log, *id)?;
                self.tally.call("dxl_log_last", answer.found);
            }
            Operation::Salvage { room, report, log } => {
                let answer = compare_log_salvage(self.calls, &mut self.rng, log, *room, *report)?;
                self.tally.call("dxl_log_salvage", answer.count.min(0));
                self.tally.call("entries dropped", i64::from(answer.dropped > 0));
            }
            Operation::Plan { room, goals } => {
                let answer = compare_plan(self.calls, &mut self.rng, &numbers(goals), *room)?;
                self.tally.call("dxl_plan", answer.min(0));
            }
            Operation::Check { goals, plan } => {
                let answer = compare_plan_check(self.calls, &mut self.rng, &numbers(goals), plan)?;
                self.tally.call("dxl_plan_check", answer);
            }
            Operation::Record { count, past, held } => self.record(*count, *past, held),
            Operation::Scribble { byte } => self.reader.scribble(*byte),
            Operation::Feed { chunk } => drop(self.feed(chunk)?),
            Operation::Rest => {
                let rest = std::mem::take(&mut self.rest);
                self.feed(&rest)?;
            }
            Operation::Arrive { chunk } => self.arrive(chunk, |_, _| Ok(()))?,
            Operation::Gap => drop(self.gap()?),
            Operation::Finish => self.finish(|_, _| Ok(()))?,
            Operation::RecordV1 { protocol, count, past, held } => {
                let mut record = [*past; v1::MOST_HELD];
                record[..held.len()].copy_from_slice(held);
                self.v1_reader = V1ReaderPair::of(*self.calls, *protocol, &mut self.rng, record, *count);
            }
            Operation::FeedV1 { chunk } => drop(self.call_v1(Some(chunk))?),
            Operation::ArriveV1 { chunk } => {
                let mut taken = 0;
                while let (step, Some(_)) = self.call_v1(Some(&chunk[taken..]))? {
                    taken += step.taken;
                }
            }
            Operation::GapV1 => drop(self.call_v1(None)?),
            Operation::Exchange { chunk } => self.arrive(chunk, World::hear_event)?,
            Operation::Silence => self.finish(World::hear_event)?,
            _ => self.on_device(operation)?,
        }
        Ok(())
    }

    fn on_device(&mut self, operation: &Operation) -> Result<(), Difference> {
        match *operation {
            Operation::Board { reply, ref table } => {
                self.device = DevicePair::of(*self.calls, &mut self.rng, table, self.device.registered, reply);
            }
            Operation::Registered { address, count, bytes, min, max } => {
                self.device.registered = Registered { address, count, bytes, min, max };
            }
            Operation::Poke { address, byte } => self.device.change(|table| {
                if let Some(place) = table.get_mut(address) {
                    *place = byte;
                }
            }),
            Operation::Fresh => {
                let answer = self.device.try_fresh()?;
                self.tally.call("dxl_fresh", answer);
            }
            Operation::Measure { position, error } => {
                let answer = self.device.try_measure(position, error)?;
                self.tally.call("dxl_measure", answer);
            }
            Operation::Hear { kind, id, ref body } => self.hear(kind, id, body)?,
            Operation::Receive { room, ref packet } => self.receive(packet, room)?,
            _ => self.on_board(operation)?,
        }
        Ok(())
    }

    fn on_board(&mut self, operation: &Operation) -> Result<(), Difference> {
        match *operation {
            Operation::BoardRecord { count, past, ref held, table, registered } => {
                let mut board = Board { held: [past; MOST_HELD], count, table, registered, ..Board::start() };
                board.held[..held.len()].copy_from_slice(held);
                board.packet.fill_with(|| self.rng.byte());
                self.board = BoardPair::of(*self.calls, &mut self.rng, board);
            }
            Operation::BoardFeed { ref chunk } => _ = self.call_board(Some(chunk))?,
            Operation::BoardArrive { ref chunk } => {
                let mut taken = 0;
                while let Some(step) = self.call_board(Some(&chunk[taken..]))? {
                    taken += step.taken;
                }
            }
            Operation::BoardGap => _ = self.call_board(None)?,
            Operation::BoardFinish => while self.call_board(None)?.is_some() {},
            Operation::BoardMeasure { position, error } => {
                let answer = self.board.try_measure(position, error)?;
                self.tally.call("dxl_measure", answer);
            }
            _ => unreachable!("the others are no operations on a board"),
        }
        Ok(())
    }

    fn unstuff(&mut self, body: &[u8], room: usize) -> Result<Vec<u8>, Difference> {
        let (answer, unstuffed) = compare_unstuff(self.calls, &mut self.rng, body, room)?;
        self.tally.call("dxl_unstuff", answer.min(0));
        Ok(unstuffed)
    }

    fn plain(&mut self, segment: &[u8], mut from: usize) -> Result<(), Difference> {
        loop {
            let answer = compare_next_event(self.calls, &mut self.rng, segment, from)?;
            self.tally.call("dxl_next_event", i64::from(answer.kind));
            if answer.kind == 0 {
                return Ok(());
            }
            from = answer.next;
        }
    }

    fn record(&mut self, count: usize, past: u8, bytes: &[u8]) {
        let mut held = [past; MOST_HELD];
        held[..bytes.len()].copy_from_slice(bytes);
        self.reader = ReaderPair::of(*self.calls, &mut self.rng, held, count);
    }

    fn feed(&mut self, chunk: &[u8]) -> Result<Stepped, Difference> {
        let (step, event) = self.reader.try_feed(chunk)?;
        self.rest = chunk[step.taken..].to_vec();
        self.tally.call("dxl_feed", i64::from(step.kind));
        self.tally.call("dxl_reader_feed", i64::from(step.kind));
        Ok((step, event))
    }

    fn gap(&mut self) -> Result<Stepped, Difference> {
        let (step, event) = self.reader.try_gap()?;
        self.tally.call("dxl_gap", i64::from(step.kind));
        self.tally.call("dxl_reader_gap", i64::from(step.kind));
        Ok((step, event))
    }

    /// A feeding call, or a gap call, of the reader of the old boards.
    fn call_v1(&mut self, chunk: Option<&[u8]>) -> Result<Stepped, Difference> {
        let (step, event) = match chunk {
            Some(chunk) => self.v1_reader.try_feed(chunk)?,
            None => self.v1_reader.try_gap()?,
        };
        self.tally.call(self.v1_reader.export(chunk.is_some()), i64::from(step.kind));
        Ok((step, event))
    }

    /// A feeding call, or a gap call, of the board, and the status that it asks for; the answer where that is an event.
    fn call_board(&mut self, chunk: Option<&[u8]>) -> Result<Option<BoardStep>, Difference> {
        let step = self.board.try_call(chunk)?;
        let export = if chunk.is_some() { "dxl_board_feed_parts" } else { "dxl_board_gap_parts" };
        self.tally.call(export, i64::from(step.kind));
        if !matches!(step.kind, 1 | 2) {
            return Ok(None);
        }
        self.tally.note("error of a board", i64::from(step.error));
        if step.reply.speaks > 0 {
            self.send(step.reply)?;
        }
        Ok(Some(step))
    }

    fn send(&mut self, reply: Reply) -> Result<(), Difference> {
        let mut ours = Guarded::new(&mut self.rng, &[0; REPLY_BYTES]);
        let mut expected = ours.clone();
        let count = compare_status(self.calls, reply, &mut ours, &mut expected)?;
        self.tally.call("dxl_status", count.min(0));
        self.read_back(&ours.bytes()[..count as usize])
    }

    fn arrive(&mut self, chunk: &[u8], hand_on: fn(&mut Self, Event) -> Result<(), Difference>) -> Result<(), Difference> {
        let mut taken = 0;
        while let (step, Some(event)) = self.feed(&chunk[taken..])? {
            taken += step.taken;
            hand_on(self, event)?;
        }
        Ok(())
    }

    fn finish(&mut self, hand_on: fn(&mut Self, Event) -> Result<(), Difference>) -> Result<(), Difference> {
        while let (_, Some(event)) = self.gap()? {
            hand_on(self, event)?;
        }
        Ok(())
    }

    fn hear_event(&mut self, event: Event) -> Result<(), Difference> {
        match event {
            Event::Packet { id, bytes } => {
                let body = self.unstuff(&bytes[7..bytes.len() - 2], LONGEST_BODY)?;
                self.hear(PACKET, id, &body)
            }
            Event::BadChecksum { id } => self.hear(BAD_CHECKSUM, id, &[]),
        }
    }

    fn hear(&mut self, kind: u8, id: u8, body: &[u8]) -> Result<(), Difference> {
        let told = self.device.try_hear(kind, id, body)?;
        self.tally.call("dxl_device", told.count.min(0));
        self.tally.call("dxl_carry_out", first_refusal(told));
        self.answered(told)
    }

    fn receive(&mut self, packet: &[u8], room: usize) -> Result<(), Difference> {
        let filler = self.rng.bytes(room);
        let told = self.device.try_hear_packet(packet, &Guarded::new(&mut self.rng, &filler))?;
        self.tally.call("dxl_exchange", told.count.min(0));
        self.tally.call("dxl_carry_out_packet", first_refusal(told));
        self.answered(told)
    }

    fn answered(&mut self, told: Told) -> Result<(), Difference> {
        let Told { count, slot, error } = told;
        if let Some(error) = error {
            self.tally.note("error", i64::from(error & 0x7F));
            self.tally.note("slot above 0", i64::from(slot > 0));
            let status = self.device.reply()[..count as usize].to_vec();
            self.read_back(&status)?;
        }
        Ok(())
    }

    /// A reader hears the status as one packet.
    fn read_back(&mut self, status: &[u8]) -> Result<(), Difference> {
        let (step, event) = self.host.try_feed(status)?;
        self.tally.call("dxl_feed", i64::from(step.kind));
        let given = || format!("status {}", hex(status));
        let comparison = Comparison { export: "dxl_feed", given: &given };
        comparison.same("a status read back", event, Some(Event::Packet { id: status[4], bytes: status.to_vec() }))
    }
}

/// Of the first of two calls, which does not look at the reply buffer.
fn first_refusal(told: Told) -> i64 {
    if told.count == -24 { 0 } else { told.count.min(0) }
}

/// Numbers of four bytes each, lowest first; what is left of the bytes is ignored.
fn numbers(bytes: &[u8]) -> Vec<i32> {
    bytes.chunks_exact(4).map(|four| i32::from_le_bytes([four[0], four[1], four[2], four[3]])).collect()
}
