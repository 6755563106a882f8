//! The plain reader: from every offset it answers as the reference does; its calls one after the other give the reading of the
//! segment; and the reader that holds bytes gives the same events, however the segment is cut.

use compare::{compare_next_event, must_agree, noise, published, segment, worst_noise, ReaderPair, PROVED};
use reference::{framed, packet_of, reading, Event, Found, Rng};

const PING: [u8; 10] = [0xFF, 0xFF, 0xFD, 0x00, 0x01, 0x03, 0x00, 0x01, 0x19, 0x4E];

fn next_event(rng: &mut Rng, segment: &[u8], from: usize) -> exports::Event {
    must_agree(compare_next_event(&PROVED, rng, segment, from))
}

/// The events of the calls from 0 on, each from where the one before says that reading goes on. A packet's bytes are those of the
/// segment.
fn plain(rng: &mut Rng, segment: &[u8]) -> Vec<Found> {
    let mut events = Vec::new();
    let mut from = 0;
    loop {
        let exports::Event { offset, count, next, kind, id } = next_event(rng, segment, from);
        let event = match kind {
            0 => return events,
            1 => Event::Packet { id, bytes: segment[offset..offset + count].to_vec() },
            2 => Event::BadChecksum { id },
            _ => panic!("there is no kind {kind}"),
        };
        events.push(Found { at: offset, next, event });
        from = next;
    }
}

fn offsets(rng: &mut Rng, segment: &[u8]) -> Vec<(usize, usize)> {
    plain(rng, segment).iter().map(|found| (found.at, found.next)).collect()
}

/// [R1 R5]
#[test]
fn every_offset_of_short_segments() {
    let mut rng = Rng::new(60);
    let (mut events, mut none) = (0, 0);
    for _ in 0..1_500 {
        let parts = rng.between(0, 5);
        let segment = segment(&mut rng, parts, 40);
        let past = [segment.len() + 1, segment.len() + 10, 1 << 32, usize::MAX - 4, usize::MAX];
        for from in (0..=segment.len()).chain(past) {
            let answer = next_event(&mut rng, &segment, from);
            events += usize::from(answer.kind > 0);
            none += usize::from(answer == exports::Event::default());
        }
    }
    assert!(events > 30_000 && none > 10_000, "{events} events, {none} answers without one");
}

/// [R2 R3 R6 V2 V7]
#[test]
fn calls_one_after_the_other() {
    let mut rng = Rng::new(61);
    let mut events = 0;
    for round in 0..4_000 {
        let parts = rng.between(0, 30);
        let longest = if round % 20 == 0 { 1_022 } else { 60 };
        let segment = if round % 7 == 0 { noise(&mut rng, 2_000) } else { segment(&mut rng, parts, longest) };
        let found = plain(&mut rng, &segment);
        assert_eq!(found, reading(&segment));
        events += found.len();
    }
    assert!(events > 20_000, "{events} events");
}

/// The chunks of a segment, cut anywhere, empty ones too, and the gap: the same events in the same order. [Q6 R7]
#[test]
fn same_as_the_reader_however_cut() {
    let mut rng = Rng::new(62);
    let mut reader = ReaderPair::fresh(&mut rng);
    let mut events = 0;
    for round in 0..3_000 {
        let parts = rng.between(0, 12);
        let longest = if round % 10 == 0 { 1_022 } else { 40 };
        let segment = if round % 50 == 0 { worst_noise(300) } else { segment(&mut rng, parts, longest) };
        let largest = rng.pick(&[1, 3, 9, 40, 300, 3_000]);
        let (mut given, mut at) = (Vec::new(), 0);
        while at < segment.len() {
            let end = segment.len().min(at + rng.between(0, largest));
            reader.arrive(&segment[at..end], &mut given);
            at = end;
        }
        reader.finish(&mut given);
        let found: Vec<Event> = plain(&mut rng, &segment).into_iter().map(|found| found.event).collect();
        assert_eq!(given, found);
        events += found.len();
    }
    assert!(events > 10_000, "{events} events");
}

/// Reading goes on at the byte behind the first one of a packet that failed: what is inside it comes out. [M3 R4 V4]
#[test]
fn a_packet_inside_a_failed_one() {
    let mut rng = Rng::new(63);
    let mut outer = framed(9, &[&PING[..], &[7]].concat());
    *outer.last_mut().expect("no packet is empty") ^= 1;
    assert_eq!(offsets(&mut rng, &outer), [(0, 1), (7, 17)]);
    assert_eq!(next_event(&mut rng, &outer, 0), exports::Event { offset: 0, count: 0, next: 1, kind: 2, id: 9 });
    assert_eq!(next_event(&mut rng, &outer, 1), exports::Event { offset: 7, count: 10, next: 17, kind: 1, id: 1 });
}

/// Right checksum, wrong stuffing: no event, and what is inside comes out. [R2 V5]
#[test]
fn a_packet_inside_wrong_stuffing() {
    let mut rng = Rng::new(64);
    let outer = framed(9, &[&[0xFF, 0xFF, 0xFD, 0x11], &PING[..]].concat());
    assert_eq!(offsets(&mut rng, &outer), [(11, 21)]);
}

/// A packet that would need more bytes than there are is passed by one byte, wherever it stands, and so is each of its bytes.
/// [R2 V6]
#[test]
fn nothing_is_waited_for() {
    let mut rng = Rng::new(65);
    let long = [0xFF, 0xFF, 0xFD, 0x00, 0x05, 0x00, 0x04];
    for cut in 1..=long.len() {
        let segment = [&long[..cut], &PING[..], &long[..cut], &PING[..], &PING[..9]].concat();
        assert_eq!(offsets(&mut rng, &segment), [(cut, cut + 10), (2 * cut + 10, 2 * cut + 20)]);
    }
}

/// The last event ends with the segment, or one byte is missing. [R3 R5]
#[test]
fn at_the_end() {
    let mut rng = Rng::new(66);
    for before in 0..20 {
        let segment = [&vec![0x11; before][..], &PING].concat();
        assert_eq!(offsets(&mut rng, &segment), [(before, before + 10)]);
        assert_eq!(offsets(&mut rng, &segment[..before + 9]), []);
        for from in before + 1..before + 12 {
            assert_eq!(next_event(&mut rng, &segment, from), exports::Event::default());
        }
    }
    assert_eq!(next_event(&mut rng, &[], 0), exports::Event::default());
}

/// The longest packet, and the lengths around it. [P5 R3]
#[test]
fn longest_packet() {
    let mut rng = Rng::new(67);
    for body in 1_020..=1_022 {
        let packet = packet_of(252, &vec![0x11; body]);
        assert_eq!(offsets(&mut rng, &[&packet[..], &PING].concat()), [(0, body + 9), (body + 9, body + 19)]);
    }
    let too_long = framed(252, &[0x11; 1_023]);
    assert_eq!(offsets(&mut rng, &[&too_long[..], &PING].concat()), [(1_032, 1_042)]);
}

/// More bytes than any reader holds, and a call from the middle of them. [R1 R6]
#[test]
fn a_long_capture() {
    let mut rng = Rng::new(68);
    let mut capture = Vec::new();
    while capture.len() < 300_000 {
        capture.extend(segment(&mut rng, 4, 900));
    }
    let found = reading(&capture);
    let mut from = 0;
    for wanted in &found {
        let exports::Event { offset, next, .. } = exports::next_event(&capture, from);
        assert_eq!((offset, next), (wanted.at, wanted.next));
        from = next;
    }
    assert_eq!(exports::next_event(&capture, from), exports::Event::default());
    assert!(found.len() > 500, "{} events", found.len());
    next_event(&mut rng, &capture, 150_000);
}

/// [K6 R6]
#[test]
fn published_packets() {
    let mut rng = Rng::new(69);
    let line: Vec<u8> = published().iter().flat_map(|row| row.bytes.clone()).collect();
    assert_eq!(plain(&mut rng, &line), reading(&line));
}
