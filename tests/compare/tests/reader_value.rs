//! The feeding call by value, beside the reference, call by call.

use compare::{hex, must_agree, record, segment, worst_noise, Comparison, Difference, Guarded};
use exports::test::{feed_value, Fed};
use exports::Reader;
use reference::{feed_record, packet_of, Rng, Step, LONGEST_PACKET, MOST_HELD};
use std::hint::black_box;

/// One record that is read on twice: by value, and by the reference.
struct Life {
    held: Guarded,
    expected: Guarded,
    count: usize,
}

impl Life {
    fn new(rng: &mut Rng, held: [u8; MOST_HELD], count: usize) -> Life {
        let held = Guarded::new(rng, &held);
        Life { expected: held.clone(), held, count }
    }

    fn feed(&mut self, chunk: &[u8]) -> Step {
        let (held, count) = (self.expected.bytes().to_vec(), self.count);
        let mut packet = [0; LONGEST_PACKET];
        let step = feed_record(self.expected.array_mut(), &mut self.count, chunk, &mut packet);
        let given = || format!("count {count} of {}, chunk {}", hex(&held), hex(chunk));
        must_agree(self.value_gives(count, chunk, step, packet, &given));
        step
    }

    /// The record that was lent stays as it was; the one that is answered is the next.
    fn value_gives(
        &mut self,
        count: usize,
        chunk: &[u8],
        step: Step,
        packet: [u8; LONGEST_PACKET],
        given: &dyn Fn() -> String,
    ) -> Result<(), Difference> {
        let comparison = Comparison { export: "dxl_test_feed_value", given };
        let before = self.held.clone();
        let mut lent = chunk.to_vec();
        let got = feed_value(black_box(&mut self.held).array_mut(), count, &lent);
        comparison.same_guarded("the lent record", &self.held, &before)?;
        self.held.bytes_mut().copy_from_slice(&got.reader.bytes);
        let Step { taken, count, kind, id } = step;
        let wanted_reader = Reader { bytes: *self.expected.array_mut(), count: self.count };
        let wanted = Fed { step: exports::Step { taken, count, kind, id }, packet, reader: wanted_reader };
        comparison.same("the answer", got, wanted)?;
        comparison.same_bytes("the chunk", black_box(&mut lent), chunk)
    }

    /// The chunk, and its rest again until no event comes.
    fn arrive(&mut self, mut chunk: &[u8]) -> usize {
        let mut events = 0;
        loop {
            let step = self.feed(chunk);
            if step.kind == 0 {
                return events;
            }
            events += 1;
            chunk = &chunk[step.taken..];
        }
    }
}

/// How many calls gave no event, a packet, a bad checksum, a refusal.
#[derive(Default, Debug)]
struct Kinds([usize; 4]);

impl Kinds {
    fn count(&mut self, step: Step) {
        self.0[if step.kind == 25 { 3 } else { usize::from(step.kind) }] += 1;
    }
}

/// A segment in chunks of any size, some dropped and some fed twice.
fn odd_calls(rng: &mut Rng, life: &mut Life, longest: usize, kinds: &mut Kinds) {
    let parts = rng.between(1, 5);
    let line = segment(rng, parts, longest);
    let largest = rng.pick(&[1, 3, 40, 300, 3_000]);
    let mut at = 0;
    while at < line.len() {
        let end = (at + rng.between(0, largest)).min(line.len());
        let step = life.feed(&line[at..end]);
        kinds.count(step);
        if step.kind == 25 {
            return;
        }
        at = match rng.between(0, 19) {
            0 => end,
            1 => at,
            _ => at + step.taken,
        };
    }
    kinds.count(life.feed(&[]));
}

#[test]
fn fresh_records() {
    let mut rng = Rng::new(90);
    let mut kinds = Kinds::default();
    for list in 0..4_000 {
        let past = rng.byte();
        let mut life = Life::new(&mut rng, [past; MOST_HELD], 0);
        let longest = if list % 20 == 0 { 1_030 } else { 40 };
        odd_calls(&mut rng, &mut life, longest, &mut kinds);
    }
    let Kinds([none, packets, bad_checksums, refused]) = kinds;
    assert!(none > 10_000 && packets > 2_000 && bad_checksums > 1_000 && refused == 0, "{kinds:?}");
}

/// Any bytes and any count are a record. [F2 F15 F16]
#[test]
fn odd_records() {
    let mut rng = Rng::new(91);
    let mut kinds = Kinds::default();
    for _ in 0..4_000 {
        let (held, count) = record(&mut rng);
        let mut life = Life::new(&mut rng, held, count);
        odd_calls(&mut rng, &mut life, 60, &mut kinds);
    }
    let Kinds([none, packets, bad_checksums, refused]) = kinds;
    assert!(none > 2_000 && packets > 2_000 && bad_checksums > 2_000 && refused > 500, "{kinds:?}");
}

/// The longest packet, whose last byte no record has room for; and the worst noise. [F3]
#[test]
fn full_records() {
    let mut rng = Rng::new(92);
    let mut life = Life::new(&mut rng, [0; MOST_HELD], 0);
    let longest = packet_of(252, &[0x11; 1_022]);
    assert_eq!(longest.len(), LONGEST_PACKET);
    let events: usize = longest.iter().map(|byte| life.arrive(&[*byte])).sum();
    assert_eq!((events, life.count), (1, 0));
    let line = worst_noise(200);
    let events: usize = line.chunks(64).map(|chunk| life.arrive(chunk)).sum();
    assert_eq!(events, (line.len() - LONGEST_PACKET) / 7 + 1);
}
