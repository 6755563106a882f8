//! The reader: the proved calls and the reference answer the same and leave the same record and packet buffer, call by call; and
//! the promise over whole lists of calls.

use compare::{front, noise, packet, published, record, segment, worst_noise, NoisyLine, ReaderPair, Rest, Status};
use reference::{packet_of, reading, Event, Rng, LONGEST_PACKET, MOST_HELD};

const PING: [u8; 10] = [0xFF, 0xFF, 0xFD, 0x00, 0x01, 0x03, 0x00, 0x01, 0x19, 0x4E];

fn events_of(segment: &[u8]) -> Vec<Event> {
    reading(segment).into_iter().map(|found| found.event).collect()
}

/// The chunks arrive, then the gap: all events of the segment come out, in order.
fn read_in_chunks<'a>(reader: &mut ReaderPair, chunks: impl Iterator<Item = &'a [u8]>, wanted: &[Event]) {
    let mut events = Vec::new();
    chunks.for_each(|chunk| reader.arrive(chunk, &mut events));
    reader.finish(&mut events);
    assert_eq!(events, wanted);
    assert!(reader.held().is_empty());
}

/// Every way of cutting: bit i says whether there is a cut after byte i.
fn read_in_every_way(reader: &mut ReaderPair, segment: &[u8]) {
    let wanted = events_of(segment);
    for cuts in 0..1u32 << segment.len().saturating_sub(1) {
        let mut chunks = Vec::new();
        let mut start = 0;
        for end in 1..=segment.len() {
            if end == segment.len() || cuts >> (end - 1) & 1 == 1 {
                chunks.push(&segment[start..end]);
                start = end;
            }
        }
        read_in_chunks(reader, chunks.into_iter(), &wanted);
    }
}

/// Short segments: a packet or a damaged one with noise around it, or noise alone.
fn short_segment(rng: &mut Rng, length: usize) -> Vec<u8> {
    let body = if length > 10 { rng.between(1, length - 9) } else { 1 };
    let mut middle = if rng.one_in(5) { vec![] } else { packet(rng, body) };
    if rng.one_in(3) && !middle.is_empty() {
        let place = rng.between(0, middle.len() - 1);
        middle[place] ^= 1 << rng.between(0, 7);
    }
    let before = rng.between(0, length.saturating_sub(middle.len()));
    let mut segment = [noise(rng, before), middle].concat();
    let after = length.saturating_sub(segment.len());
    segment.extend(noise(rng, after));
    segment.truncate(length);
    segment
}

/// [F5 F12 F13 Q6 V1 V2]
#[test]
fn every_way_of_cutting() {
    let mut rng = Rng::new(40);
    let mut reader = ReaderPair::fresh(&mut rng);
    let mut events = 0;
    for length in 0..=14 {
        for _ in 0..if length == 14 { 6 } else { 4 } {
            let segment = short_segment(&mut rng, length);
            events += events_of(&segment).len();
            read_in_every_way(&mut reader, &segment);
        }
    }
    read_in_every_way(&mut reader, &[&[0xFF, 0xFF, 0xFD], &PING[..], &[0xFF]].concat());
    assert!(events > 8 && reader.calls > 200_000, "{events} events, {} calls", reader.calls);
}

/// [F8 M3 Q6 V2 V6]
#[test]
fn every_two_and_three_chunks() {
    let mut rng = Rng::new(41);
    let mut reader = ReaderPair::fresh(&mut rng);
    let (mut lists, mut events) = (0, 0);
    while lists < 30_000 {
        let parts = rng.between(1, 4);
        let segment = segment(&mut rng, parts, 20);
        if segment.len() > 80 {
            continue;
        }
        let wanted = events_of(&segment);
        events += wanted.len();
        for first in 0..=segment.len() {
            // the third chunk is empty where the second cut is at the end, and so is the second where both are the same
            for second in first..=segment.len() {
                let chunks = [&segment[..first], &segment[first..second], &segment[second..]];
                read_in_chunks(&mut reader, chunks.into_iter(), &wanted);
                lists += 1;
            }
        }
    }
    assert!(events > 30, "{events} events");
}

/// Segments with packets up to the longest: every two chunks. [Q6]
#[test]
fn every_two_chunks_of_long_segments() {
    let mut rng = Rng::new(42);
    let mut reader = ReaderPair::fresh(&mut rng);
    for _ in 0..6 {
        let before = rng.between(0, 9);
        let body = rng.between(1_000, 1_022);
        let mut segment = noise(&mut rng, before);
        segment.extend(packet_of(3, &vec![7; body]));
        if rng.one_in(2) {
            let place = rng.between(before + 7, segment.len() - 1);
            segment[place] ^= 0x10;
        }
        segment.extend(PING);
        let after = rng.between(0, 9);
        segment.extend(noise(&mut rng, after));
        let wanted = events_of(&segment);
        for cut in 0..=segment.len() {
            read_in_chunks(&mut reader, [&segment[..cut], &segment[cut..]].into_iter(), &wanted);
        }
    }
}

/// How many calls gave each kind of answer.
#[derive(Default, Debug)]
struct Kinds {
    none: usize,
    packets: usize,
    bad_checksums: usize,
    refused: usize,
    /// Events that needed no new byte.
    nothing_taken: usize,
    /// Bytes fed to what an unfinished gap has left.
    after_open_gap: usize,
}

impl Kinds {
    fn count(&mut self, step: exports::Step, fed: bool) {
        match step.kind {
            0 => self.none += 1,
            1 => self.packets += 1,
            2 => self.bad_checksums += 1,
            25 => self.refused += 1,
            kind => panic!("there is no kind {kind}"),
        }
        self.nothing_taken += usize::from(fed && (1..=2).contains(&step.kind) && step.taken == 0);
    }
}

/// Calls as a careless user makes them: gaps in odd places and not finished, fed on after such a gap, rests dropped or fed twice,
/// empty chunks.
fn odd_calls(rng: &mut Rng, reader: &mut ReaderPair, longest: usize, kinds: &mut Kinds) {
    let parts = rng.between(1, 5);
    let line = segment(rng, parts, longest);
    let largest = rng.pick(&[1, 3, 9, 40, 300, 3_000]);
    let calls_between_gaps = rng.pick(&[2, 6, 30, 200]);
    let mut at = 0;
    while at < line.len() {
        if rng.one_in(calls_between_gaps) {
            let (step, _) = reader.gap();
            kinds.count(step, false);
            kinds.after_open_gap += usize::from((1..=2).contains(&step.kind) && !reader.held().is_empty());
        }
        if rng.one_in(10) {
            reader.scribble(rng.byte());
        }
        let end = (at + rng.between(0, largest)).min(line.len());
        let (step, _) = reader.feed(&line[at..end]);
        kinds.count(step, true);
        at = match rng.between(0, 19) {
            0 => end,
            1 => at,
            _ => at + step.taken,
        };
        if step.kind == 25 {
            return;
        }
    }
    for _ in 0..rng.between(0, 6) {
        let (step, _) = if rng.one_in(3) { reader.feed(&[]) } else { reader.gap() };
        kinds.count(step, false);
    }
}

/// [F4-F7 F10 F12 F14 F15 Q1 Q2 Q4]
#[test]
fn odd_lists_of_calls() {
    let mut rng = Rng::new(43);
    let mut kinds = Kinds::default();
    for list in 0..20_000 {
        let mut reader = ReaderPair::fresh(&mut rng);
        let longest = if list % 20 == 0 { 1_030 } else { 40 };
        for _ in 0..rng.between(1, 2) {
            odd_calls(&mut rng, &mut reader, longest, &mut kinds);
        }
    }
    let Kinds { none, packets, bad_checksums, refused, nothing_taken, after_open_gap } = kinds;
    assert!(none > 50_000 && packets > 20_000 && bad_checksums > 10_000 && refused == 0, "{kinds:?}");
    assert!(nothing_taken > 2_000 && after_open_gap > 1_000, "{kinds:?}");
}

/// Any bytes and any count are a record; above 1,030 it is refused. [F2 F15 F16 N9 N12]
#[test]
fn borrowed_records() {
    let mut rng = Rng::new(44);
    let mut kinds = Kinds::default();
    for _ in 0..8_000 {
        let (held, count) = record(&mut rng);
        let mut reader = ReaderPair::with_record(&mut rng, held, count);
        odd_calls(&mut rng, &mut reader, 60, &mut kinds);
        if count > MOST_HELD {
            assert_eq!(reader.feed(&[]).0.kind, 25);
            assert_eq!(reader.gap().0.kind, 25);
        }
    }
    let Kinds { none, packets, bad_checksums, refused, .. } = kinds;
    assert!(none > 5_000 && packets > 5_000 && bad_checksums > 5_000 && refused > 1_000, "{kinds:?}");
}

/// The worst noise in chunks of several sizes; again and again the reader is full. [F7 M3 V4]
#[test]
fn headers_side_by_side() {
    let mut rng = Rng::new(45);
    let mut reader = ReaderPair::fresh(&mut rng);
    let line = worst_noise(400);
    let wanted = events_of(&line);
    assert_eq!(wanted.len(), (line.len() - LONGEST_PACKET) / 7 + 1);
    for size in [1, 7, 64, 1_000, 1_030, 1_031, 4_096] {
        read_in_chunks(&mut reader, line.chunks(size), &wanted);
    }
}

/// The longest packet byte by byte, good and bad, with every count up to 1,030 held on the way. [F3 F9 V8]
#[test]
fn longest_packet_byte_by_byte() {
    let mut rng = Rng::new(46);
    let mut reader = ReaderPair::fresh(&mut rng);
    let good = packet_of(252, &vec![0x11; 1_022]);
    let mut bad = good.clone();
    bad[1_000] ^= 1;
    for line in [&good, &bad] {
        assert_eq!(line.len(), LONGEST_PACKET);
        let mut most = 0;
        for (i, byte) in line.iter().enumerate() {
            let (step, event) = reader.feed(&[*byte]);
            assert_eq!((step.taken, event.is_some()), (1, i == LONGEST_PACKET - 1));
            most = most.max(reader.held().len());
        }
        assert_eq!(most, MOST_HELD);
        read_in_chunks(&mut reader, [].into_iter(), &[]);
    }
}

/// [F9 K6 V3]
#[test]
fn published_packets() {
    let mut rng = Rng::new(47);
    let mut reader = ReaderPair::fresh(&mut rng);
    let rows = published();
    let line: Vec<u8> = rows.iter().flat_map(|row| row.bytes.clone()).collect();
    let wanted = events_of(&line);
    for size in [1, 5, 64, 4_096] {
        read_in_chunks(&mut reader, line.chunks(size), &wanted);
    }
    let mut good = 0;
    for row in rows.iter().filter(|row| row.status == Status::Good) {
        let event = Event::Packet { id: row.bytes[4], bytes: row.bytes.clone() };
        read_in_chunks(&mut reader, [&row.bytes[..]].into_iter(), &[event]);
        good += 1;
    }
    assert!(good > 80, "{good} packets");
}

fn noisy_line(rng: &mut Rng) -> NoisyLine {
    let length = if rng.one_in(4) { 0 } else { rng.between(0, 40) };
    let mut before = noise(rng, length);
    if rng.one_in(2) {
        before.extend(front(rng));
    }
    let packets = (0..rng.between(0, 8))
        .map(|_| {
            let length = if rng.one_in(3) { rng.between(1, 500) } else { rng.between(1, 12) };
            packet_of(rng.pick(&[0, 1, 7, 252, 254]), &compare::body(rng, length))
        })
        .collect();
    NoisyLine::new(before, packets, Rest::draw(rng))
}

/// The promise over lists of calls, of our reader: noise, then packets, then anything, fed in any chunks after any earlier calls
/// that end in a finished gap. [F11 Q1 Q5 Q7-Q14 V7 V10]
#[test]
fn packets_after_noise_all_come_out() {
    let mut rng = Rng::new(48);
    let (mut lists, mut without_gap, mut in_noise, mut arriving) = (0, 0, 0, 0);
    while lists < 4_000 {
        let line = noisy_line(&mut rng);
        if line.noise_makes_a_packet() {
            continue;
        }
        lists += 1;
        let mut reader = ReaderPair::fresh(&mut rng);
        if rng.one_in(2) {
            odd_calls(&mut rng, &mut reader, 60, &mut Kinds::default());
            reader.finish(&mut Vec::new());
        }

        let mut events = Vec::new();
        let mut taken = 0;
        let largest = rng.pick(&[20, 100, 500, 5_000]);
        let patient = rng.one_in(2);
        while taken < line.bytes.len() {
            let size = rng.between(0, largest).min(line.bytes.len() - taken);
            let chunk = &line.bytes[taken..taken + size];
            let quiet = if patient {
                reader.arrive(chunk, &mut events);
                taken += size;
                true
            } else {
                let (step, event) = reader.feed(chunk);
                taken += step.taken;
                let quiet = event.is_none();
                events.extend(event);
                quiet
            };
            if taken < line.noise {
                continue;
            }

            // the events given are the first ones of the reading
            let found = reading(&line.bytes[..taken]);
            assert!(found.len() >= events.len());
            assert!(events.iter().eq(found.iter().map(|found| &found.event).take(events.len())));
            let given = &found[..events.len()];
            // those that begin among the packets are packets
            let (packets, end) = line.packets_within(taken);
            let among: Vec<(usize, Event)> = given
                .iter()
                .filter(|found| (line.noise..end).contains(&found.at))
                .map(|found| (found.at, found.event.clone()))
                .collect();
            assert!(among.len() <= packets.len() && among == packets[..among.len()], "events among the packets");
            if line.still_arriving(packets.len()) {
                assert!(given.iter().all(|found| found.at < end), "an event in a packet that is still arriving");
                arriving += usize::from(taken > end);
            }
            // all of them without a gap, when a call gave no event and so many bytes have followed the noise
            if quiet && taken >= line.noise + MOST_HELD {
                assert_eq!(among, packets, "after {taken} bytes, {} of noise", line.noise);
                without_gap += packets.len();
            }
        }

        reader.finish(&mut events);
        let found = reading(&line.bytes);
        assert!(events.iter().eq(found.iter().map(|found| &found.event)), "all events of the reading");
        let (packets, end) = line.packets_within(line.bytes.len());
        assert_eq!(packets.len(), line.packets.len());
        let among = found.iter().filter(|found| (line.noise..end).contains(&found.at));
        assert!(among.map(|found| (found.at, found.event.clone())).eq(packets));
        in_noise += found.iter().filter(|found| found.at < line.noise).count();
    }
    assert!(without_gap > 2_000 && in_noise > 500 && arriving > 2_000, "{without_gap}, {in_noise}, {arriving}");
}
