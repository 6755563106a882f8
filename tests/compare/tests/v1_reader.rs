//! The readers of Protocol 1.0 and Mercury: the proved calls and the reference answer the same and leave the same held bytes and
//! packet buffer, call by call; and the promise over whole lists of calls.

use compare::{published_v1, v1_record, v1_segment, V1ReaderPair};
use reference::v1::{packet_of, reading, Protocol, BOTH, LONGEST_PACKET, MOST_HELD};
use reference::{Event, Rng};

/// The packet that the request gives as a check.
const READ: [u8; 8] = [0xFF, 0xFF, 0x01, 0x04, 0x02, 0x2B, 0x01, 0xCC];

fn events_of(protocol: Protocol, segment: &[u8]) -> Vec<Event> {
    reading(protocol, segment).into_iter().map(|found| found.event).collect()
}

/// The chunks arrive, then the gap: all events of the segment come out, in order.
fn read_in_chunks<'a>(reader: &mut V1ReaderPair, chunks: impl Iterator<Item = &'a [u8]>, wanted: &[Event]) {
    let mut events = Vec::new();
    chunks.for_each(|chunk| reader.arrive(chunk, &mut events));
    reader.finish(&mut events);
    assert_eq!(events, wanted);
    assert!(reader.held().is_empty());
}

/// Every cut into three chunks, empty ones too. [O6 O7]
#[test]
fn every_two_and_three_chunks() {
    let mut rng = Rng::new(140);
    for protocol in BOTH {
        let mut reader = V1ReaderPair::fresh(protocol, &mut rng);
        let (mut lists, mut events) = (0, 0);
        while lists < 30_000 {
            let parts = rng.between(1, 4);
            let segment = v1_segment(&mut rng, parts, 20);
            if segment.len() > 70 {
                continue;
            }
            let wanted = events_of(protocol, &segment);
            events += wanted.len();
            for first in 0..=segment.len() {
                for second in first..=segment.len() {
                    let chunks = [&segment[..first], &segment[first..second], &segment[second..]];
                    read_in_chunks(&mut reader, chunks.into_iter(), &wanted);
                    lists += 1;
                }
            }
        }
        assert!(events > 30, "{events} events");
    }
}

/// Segments with packets up to the longest, good and damaged: every two chunks.
#[test]
fn every_two_chunks_of_long_segments() {
    let mut rng = Rng::new(141);
    for protocol in BOTH {
        let mut reader = V1ReaderPair::fresh(protocol, &mut rng);
        for length in 249..=254 {
            let mut segment = vec![0xFF; rng.between(0, 4)];
            let before = segment.len();
            segment.extend(packet_of(3, &rng.bytes(length)));
            if rng.one_in(2) {
                let place = rng.between(before + 4, segment.len() - 1);
                segment[place] ^= 0x10;
            }
            segment.extend(READ);
            let wanted = events_of(protocol, &segment);
            for cut in 0..=segment.len() {
                read_in_chunks(&mut reader, [&segment[..cut], &segment[cut..]].into_iter(), &wanted);
            }
        }
    }
}

/// Any held bytes and any count, then calls in any order: feeds whose rest is dropped, gaps that are not finished. [O13]
#[test]
fn odd_lists_of_calls() {
    let mut rng = Rng::new(142);
    for protocol in BOTH {
        let mut kinds = [0; 26];
        let mut nothing_taken = 0;
        for _ in 0..4_000 {
            let (held, count) = v1_record(&mut rng);
            let mut reader = V1ReaderPair::with_record(protocol, &mut rng, held, count);
            for _ in 0..rng.between(1, 12) {
                let longest = if rng.one_in(6) { 240 } else { 20 };
                let chunk = if rng.one_in(9) { vec![] } else { v1_segment(&mut rng, 2, longest) };
                let (step, _) = if rng.one_in(3) { reader.gap() } else { reader.feed(&chunk) };
                kinds[usize::from(step.kind)] += 1;
                nothing_taken += usize::from(step.kind == 1 && step.taken == 0);
            }
        }
        assert!([0, 1, 2, 25].iter().all(|&kind: &usize| kinds[kind] > 500), "{kinds:?}");
        assert!(nothing_taken > 500, "{nothing_taken}");
    }
}

/// The count that is refused is the first above 258, also where Protocol 2.0 would accept it; nothing lent changes. [N9 O14]
#[test]
fn counts_that_are_refused() {
    let mut rng = Rng::new(143);
    for protocol in BOTH {
        for count in (250..1_040).chain([1 << 16, 1 << 32, usize::MAX]) {
            let kind = |(step, _): compare::Stepped| step.kind;
            let full = [0; MOST_HELD];
            let refused = count > MOST_HELD;
            let fed = kind(V1ReaderPair::with_record(protocol, &mut rng, full, count).feed(&READ));
            let ended = kind(V1ReaderPair::with_record(protocol, &mut rng, full, count).gap());
            assert_eq!((fed, ended), if refused { (25, 25) } else { (1, 0) }, "{count}");
        }
    }
}

/// The longest packet byte by byte, good and with one byte changed: 258 bytes are held before the last one. [O1 O3]
#[test]
fn longest_packet_byte_by_byte() {
    let mut rng = Rng::new(144);
    for (protocol, damaged) in BOTH.into_iter().flat_map(|protocol| [(protocol, false), (protocol, true)]) {
        let mut reader = V1ReaderPair::fresh(protocol, &mut rng);
        let mut packet = packet_of(252, &[0x20; 254]);
        assert_eq!(packet.len(), LONGEST_PACKET);
        packet[100] ^= u8::from(damaged);
        for (at, byte) in packet[..MOST_HELD].iter().enumerate() {
            assert_eq!(reader.feed(&[*byte]).1, None);
            assert_eq!(reader.held().len(), at + 1);
        }
        let wanted = if damaged { Event::BadChecksum { id: 252 } } else { Event::Packet { id: 252, bytes: packet.clone() } };
        assert_eq!(reader.feed(&packet[MOST_HELD..]).1, Some(wanted));
    }
}

/// FF FF FF begins no packet at its first byte, and 253 is an ID in Protocol 1.0 alone. [O2]
#[test]
fn runs_of_ff_and_the_id_253() {
    let mut rng = Rng::new(145);
    for protocol in BOTH {
        let mut reader = V1ReaderPair::fresh(protocol, &mut rng);
        for run in 0..300 {
            let line = [&vec![0xFF; run][..], &READ].concat();
            read_in_chunks(&mut reader, line.chunks(7), &[Event::Packet { id: 1, bytes: READ.to_vec() }]);
        }
        let of_253 = packet_of(253, &[1]);
        let wanted = match protocol {
            Protocol::P1 => vec![Event::Packet { id: 253, bytes: of_253.clone() }],
            Protocol::Mercury => vec![],
        };
        read_in_chunks(&mut reader, of_253.chunks(1), &wanted);
    }
}

/// Damage, then packets: what comes out before the gap are the first events of the reading, and at the gap all of them. [O8 O15]
#[test]
fn packets_after_noise_all_come_out() {
    let mut rng = Rng::new(146);
    for protocol in BOTH {
        for _ in 0..300 {
            let mut reader = V1ReaderPair::fresh(protocol, &mut rng);
            let damage = v1_segment(&mut rng, 3, 60);
            let packets: Vec<Vec<u8>> = (0..rng.between(1, 5)).map(|i| packet_of(i as u8, &[1, 2, 3])).collect();
            let segment = [damage, packets.concat()].concat();
            let wanted = events_of(protocol, &segment);
            let mut events = Vec::new();
            let largest = rng.between(1, 40);
            segment.chunks(largest).for_each(|chunk| reader.arrive(chunk, &mut events));
            assert_eq!(events, wanted[..events.len()]);
            reader.finish(&mut events);
            assert_eq!(events, wanted);
        }
    }
}

/// Every packet that the makers' pages print, and those made from their tables, one behind the other, cut anywhere.
#[test]
fn published_packets() {
    let mut rng = Rng::new(147);
    let packets = published_v1();
    let line: Vec<u8> = packets.iter().flat_map(|packet| packet.bytes.clone()).collect();
    let wanted: Vec<Event> =
        packets.iter().map(|packet| Event::Packet { id: packet.bytes[2], bytes: packet.bytes.clone() }).collect();
    for protocol in BOTH {
        let mut reader = V1ReaderPair::fresh(protocol, &mut rng);
        for largest in [1, 2, 5, 64, line.len()] {
            read_in_chunks(&mut reader, line.chunks(largest), &wanted);
        }
    }
}
