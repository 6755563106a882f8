use crate::{hex, must_agree, Calls, Comparison, Difference, Guarded, PROVED};
use exports::{Reader, Step};
use reference::{feed_record, gap_record, Event, Rng, LONGEST_PACKET, MOST_HELD};
use std::hint::black_box;

/// What a reader's calls borrow, with bytes around all of it that no call may touch.
#[derive(Clone)]
struct Borrowed {
    held: Guarded,
    /// The count is the one in the middle.
    count: [usize; 3],
    packet: Guarded,
}

/// The record as C has it in one struct, with bytes before and after it.
#[repr(C)]
#[derive(Clone)]
struct Framed {
    before: [u8; MARGIN],
    reader: Reader,
    after: [u8; MARGIN],
}

const MARGIN: usize = 16;

/// One reader's life, lived three times: every call goes to the proved code, once on the record's parts and once on the record,
/// and to the reference, and all that is answered and left must be the same.
pub struct ReaderPair {
    ours: Borrowed,
    record: Box<Framed>,
    record_packet: Guarded,
    expected: Borrowed,
    /// What the packet buffer is filled with before each call; never 0, so that a byte not written shows.
    filler: u8,
    exports: Calls,
    pub calls: usize,
}

/// What a call answered, and the event in it.
pub type Stepped = (Step, Option<Event>);

impl ReaderPair {
    /// A record with these bytes and this count, which may be too large.
    pub fn with_record(rng: &mut Rng, held: [u8; MOST_HELD], count: usize) -> ReaderPair {
        ReaderPair::of(PROVED, rng, held, count)
    }

    pub fn of(exports: Calls, rng: &mut Rng, held: [u8; MOST_HELD], count: usize) -> ReaderPair {
        let around = [rng.word() as usize, count, rng.word() as usize];
        let packet = Guarded::new(rng, &[0; LONGEST_PACKET]);
        let record_packet = packet.clone();
        let margin = [rng.byte(); MARGIN];
        let record = Box::new(Framed { before: margin, reader: Reader { bytes: held, count }, after: margin });
        let ours = Borrowed { held: Guarded::new(rng, &held), count: around, packet };
        ReaderPair { expected: ours.clone(), ours, record, record_packet, filler: 1, exports, calls: 0 }
    }

    /// A fresh reader: it holds nothing, and its record may have any bytes.
    pub fn fresh(rng: &mut Rng) -> ReaderPair {
        let past = rng.byte();
        ReaderPair::with_record(rng, [past; MOST_HELD], 0)
    }

    /// Writes a byte to all of the record that lies past its count: no call may care.
    pub fn scribble(&mut self, byte: u8) {
        let count = self.ours.count[1].min(MOST_HELD);
        for held in [self.ours.held.bytes_mut(), self.expected.held.bytes_mut(), &mut self.record.reader.bytes] {
            held[count..].fill(byte);
        }
    }

    pub fn held(&self) -> &[u8] {
        &self.ours.held.bytes()[..self.ours.count[1].min(MOST_HELD)]
    }

    pub fn feed(&mut self, chunk: &[u8]) -> Stepped {
        must_agree(self.try_feed(chunk))
    }

    pub fn gap(&mut self) -> Stepped {
        must_agree(self.try_gap())
    }

    pub fn try_feed(&mut self, chunk: &[u8]) -> Result<Stepped, Difference> {
        self.call(Some(chunk))
    }

    pub fn try_gap(&mut self) -> Result<Stepped, Difference> {
        self.call(None)
    }

    fn call(&mut self, chunk: Option<&[u8]>) -> Result<Stepped, Difference> {
        self.calls += 1;
        self.filler = self.filler % 255 + 1;
        let before = self.held().to_vec();
        let count_before = self.ours.count[1];
        for packet in [&mut self.ours.packet, &mut self.record_packet, &mut self.expected.packet] {
            packet.bytes_mut().fill(self.filler);
        }
        let around = self.record.before;
        // each call gets a chunk of its own: what one of them writes into it is not what the other reads
        let mut lent = chunk.map(<[u8]>::to_vec);
        let mut record_lent = lent.clone();

        let Borrowed { held, count, packet } = &mut self.ours;
        let (held, count, packet) = (held.array_mut(), &mut count[1], packet.array_mut());
        let step = match &lent {
            Some(chunk) => (self.exports.feed)(held, count, chunk, packet),
            None => (self.exports.gap)(held, count, packet),
        };
        let (record, packet) = (&mut self.record.reader, self.record_packet.array_mut());
        let record_step = match &record_lent {
            Some(chunk) => (self.exports.reader_feed)(record, chunk, packet),
            None => (self.exports.reader_gap)(record, packet),
        };
        let Borrowed { held, count, packet } = &mut self.expected;
        let (held, count, packet) = (held.array_mut(), &mut count[1], packet.array_mut());
        let wanted = match chunk {
            Some(chunk) => feed_record(held, count, chunk, packet),
            None => gap_record(held, count, packet),
        };
        let wanted = Step { taken: wanted.taken, count: wanted.count, kind: wanted.kind, id: wanted.id };

        let given = || format!("{count_before} held: {}, chunk {}", hex(&before), hex(chunk.unwrap_or_default()));
        let comparison = Comparison { export: if chunk.is_some() { "dxl_feed" } else { "dxl_gap" }, given: &given };
        comparison.same("the answer", step, wanted)?;
        comparison.same("the count of held bytes, with the words around it", self.ours.count, self.expected.count)?;
        comparison.same_guarded("the held bytes", &self.ours.held, &self.expected.held)?;
        comparison.same_guarded("the packet buffer", &self.ours.packet, &self.expected.packet)?;
        comparison.same_bytes("the chunk", black_box(&mut lent).as_deref().unwrap_or_default(), chunk.unwrap_or_default())?;
        let on_record = Comparison { export: if chunk.is_some() { "dxl_reader_feed" } else { "dxl_reader_gap" }, given: &given };
        on_record.same("the answer", record_step, wanted)?;
        self.same_record(&on_record, around)?;
        on_record.same_bytes(
            "the chunk",
            black_box(&mut record_lent).as_deref().unwrap_or_default(),
            chunk.unwrap_or_default(),
        )?;
        Ok((step, self.event(step)))
    }

    /// The record that a call on it left, beside the reference's.
    fn same_record(&self, comparison: &Comparison, around: [u8; MARGIN]) -> Result<(), Difference> {
        let Framed { before, reader, after } = &*self.record;
        comparison.same("the count of held bytes", reader.count, self.expected.count[1])?;
        comparison.same_bytes("the held bytes", &reader.bytes, self.expected.held.bytes())?;
        comparison.same_bytes("the bytes before the record", before, &around)?;
        comparison.same_bytes("the bytes after the record", after, &around)?;
        comparison.same_guarded("the packet buffer", &self.record_packet, &self.expected.packet)
    }

    /// The event as our call gave it.
    fn event(&self, step: Step) -> Option<Event> {
        match step.kind {
            1 => Some(Event::Packet { id: step.id, bytes: self.ours.packet.bytes()[..step.count].to_vec() }),
            2 => Some(Event::BadChecksum { id: step.id }),
            _ => None,
        }
    }

    /// Feeds a chunk, and again what was not taken of it, until a call has no event.
    pub fn arrive(&mut self, mut chunk: &[u8], events: &mut Vec<Event>) {
        loop {
            let (step, event) = self.feed(chunk);
            chunk = &chunk[step.taken..];
            match event {
                Some(event) => events.push(event),
                None => return,
            }
        }
    }

    /// Gap calls until nothing is left.
    pub fn finish(&mut self, events: &mut Vec<Event>) {
        while let (_, Some(event)) = self.gap() {
            events.push(event);
        }
    }
}
