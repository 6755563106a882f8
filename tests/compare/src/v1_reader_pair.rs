use crate::{hex, must_agree, Calls, Comparison, Difference, Guarded, Stepped, PROVED};
use exports::Step;
use reference::v1::{feed_record, gap_record, Protocol, LONGEST_PACKET, MOST_HELD};
use reference::{Event, Rng};
use std::hint::black_box;

/// What a call borrows, with bytes around all of it that no call may touch.
#[derive(Clone)]
struct Borrowed {
    held: Guarded,
    /// The count is the one in the middle.
    count: [usize; 3],
    packet: Guarded,
}

/// The life of a reader of Protocol 1.0 or Mercury, lived twice: every call goes to the proved code and to the reference, and all
/// that is answered and left must be the same.
pub struct V1ReaderPair {
    protocol: Protocol,
    exports: Calls,
    ours: Borrowed,
    expected: Borrowed,
    /// What the packet buffer is filled with before each call; never 0, so that a byte not written shows.
    filler: u8,
}

impl V1ReaderPair {
    /// Held bytes and a count, which may be too large.
    pub fn of(exports: Calls, protocol: Protocol, rng: &mut Rng, held: [u8; MOST_HELD], count: usize) -> V1ReaderPair {
        let around = [rng.word() as usize, count, rng.word() as usize];
        let packet = Guarded::new(rng, &[0; LONGEST_PACKET]);
        let ours = Borrowed { held: Guarded::new(rng, &held), count: around, packet };
        V1ReaderPair { protocol, exports, expected: ours.clone(), ours, filler: 1 }
    }

    pub fn with_record(protocol: Protocol, rng: &mut Rng, held: [u8; MOST_HELD], count: usize) -> V1ReaderPair {
        V1ReaderPair::of(PROVED, protocol, rng, held, count)
    }

    /// It holds nothing, and its record may have any bytes.
    pub fn fresh(protocol: Protocol, rng: &mut Rng) -> V1ReaderPair {
        let past = rng.byte();
        V1ReaderPair::with_record(protocol, rng, [past; MOST_HELD], 0)
    }

    pub fn held(&self) -> &[u8] {
        &self.ours.held.bytes()[..self.ours.count[1].min(MOST_HELD)]
    }

    pub fn feed(&mut self, chunk: &[u8]) -> Stepped {
        must_agree(self.try_feed(chunk))
    }

    pub fn gap(&mut self) -> Stepped {
        must_agree(self.try_gap())
    }

    pub fn try_feed(&mut self, chunk: &[u8]) -> Result<Stepped, Difference> {
        self.call(Some(chunk))
    }

    pub fn try_gap(&mut self) -> Result<Stepped, Difference> {
        self.call(None)
    }

    /// The names of the exports for this call.
    pub fn export(&self, fed: bool) -> &'static str {
        match (self.protocol, fed) {
            (Protocol::P1, true) => "dxl_p1_feed",
            (Protocol::P1, false) => "dxl_p1_gap",
            (Protocol::Mercury, true) => "dxl_mercury_feed",
            (Protocol::Mercury, false) => "dxl_mercury_gap",
        }
    }

    fn call(&mut self, chunk: Option<&[u8]>) -> Result<Stepped, Difference> {
        self.filler = self.filler % 255 + 1;
        let (before, count_before) = (self.held().to_vec(), self.ours.count[1]);
        for packet in [&mut self.ours.packet, &mut self.expected.packet] {
            packet.bytes_mut().fill(self.filler);
        }
        let mut lent = chunk.map(<[u8]>::to_vec);
        let (feed, gap) = match self.protocol {
            Protocol::P1 => (self.exports.p1_feed, self.exports.p1_gap),
            Protocol::Mercury => (self.exports.mercury_feed, self.exports.mercury_gap),
        };
        let Borrowed { held, count, packet } = &mut self.ours;
        let (held, count, packet) = (held.array_mut(), &mut count[1], packet.array_mut());
        let step = match &lent {
            Some(chunk) => feed(held, count, chunk, packet),
            None => gap(held, count, packet),
        };
        let Borrowed { held, count, packet } = &mut self.expected;
        let (held, count, packet) = (held.array_mut(), &mut count[1], packet.array_mut());
        let wanted = match chunk {
            Some(chunk) => feed_record(self.protocol, held, count, chunk, packet),
            None => gap_record(self.protocol, held, count, packet),
        };
        let wanted = Step { taken: wanted.taken, count: wanted.count, kind: wanted.kind, id: wanted.id };

        let given = || format!("{count_before} held: {}, chunk {}", hex(&before), hex(chunk.unwrap_or_default()));
        let comparison = Comparison { export: self.export(chunk.is_some()), given: &given };
        comparison.same("the answer", step, wanted)?;
        comparison.same("the count of held bytes, with the words around it", self.ours.count, self.expected.count)?;
        comparison.same_guarded("the held bytes", &self.ours.held, &self.expected.held)?;
        comparison.same_guarded("the packet buffer", &self.ours.packet, &self.expected.packet)?;
        comparison.same_bytes("the chunk", black_box(&mut lent).as_deref().unwrap_or_default(), chunk.unwrap_or_default())?;
        Ok((step, self.event(step)))
    }

    /// The event as our call gave it.
    fn event(&self, step: Step) -> Option<Event> {
        match step.kind {
            1 => Some(Event::Packet { id: step.id, bytes: self.ours.packet.bytes()[..step.count].to_vec() }),
            2 => Some(Event::BadChecksum { id: step.id }),
            _ => None,
        }
    }

    /// Feeds the chunk, and what is left of it, until there is no event.
    pub fn arrive(&mut self, mut chunk: &[u8], events: &mut Vec<Event>) {
        while let (step, Some(event)) = self.feed(chunk) {
            chunk = &chunk[step.taken..];
            events.push(event);
        }
    }

    /// Gap calls until nothing is left.
    pub fn finish(&mut self, events: &mut Vec<Event>) {
        while let (_, Some(event)) = self.gap() {
            events.push(event);
        }
    }
}
