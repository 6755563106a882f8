//! Line logs: what is written, whether a file is sound, and where the last packet for an ID stands, beside the reference; and the
//! promises over all files on many of them.

use compare::{
    compare_log_check, compare_log_last, compare_log_write, damaged_log, must_agree, packet_ids, rooms, segment, PROVED,
};
use exports::Found;
use reference::{framed, log_of, packet_of, reading, Event, Rng};

const PING: [u8; 10] = [0xFF, 0xFF, 0xFD, 0x00, 0x01, 0x03, 0x00, 0x01, 0x19, 0x4E];
const REFUSED: Found = Found { found: -31, segment: 0, offset: 0 };

fn write(rng: &mut Rng, bytes: &[u8], lengths: &[u32], room: usize) -> i64 {
    must_agree(compare_log_write(&PROVED, rng, bytes, lengths, room))
}

fn check(rng: &mut Rng, log: &[u8]) -> i64 {
    must_agree(compare_log_check(&PROVED, rng, log))
}

fn last(rng: &mut Rng, log: &[u8], id: u8) -> Found {
    must_agree(compare_log_last(&PROVED, rng, log, id))
}

/// The log of these segments by the export.
fn written(segments: &[&[u8]]) -> Vec<u8> {
    let bytes = segments.concat();
    let lengths: Vec<u32> = segments.iter().map(|segment| segment.len() as u32).collect();
    let mut out = vec![0; 1_032 + 8 * lengths.len() + bytes.len()];
    assert_eq!(exports::log_write(&bytes, &lengths, &mut out), out.len() as i64);
    out
}

fn number_at(log: &[u8], at: usize) -> u32 {
    u32::from_le_bytes([log[at], log[at + 1], log[at + 2], log[at + 3]])
}

fn put(log: &mut [u8], at: usize, number: u32) {
    log[at..at + 4].copy_from_slice(&number.to_le_bytes());
}

fn some_segments(rng: &mut Rng, most: usize) -> Vec<Vec<u8>> {
    (0..rng.between(0, most))
        .map(|_| {
            let parts = rng.between(0, 6);
            segment(rng, parts, 40)
        })
        .collect()
}

fn as_parts(segments: &[Vec<u8>]) -> Vec<&[u8]> {
    segments.iter().map(|segment| &segment[..]).collect()
}

/// [I1-I5 X27 X28]
#[test]
fn one_ping_and_none() {
    let log = written(&[&PING]);
    assert_eq!(log.len(), 1_050);
    let front: Vec<u32> = (0..6).map(|i| number_at(&log, 4 * i)).collect();
    assert_eq!(front, [1, 16, 254, 24, 1_040, 10]);
    let index: Vec<u32> = (0..254).map(|i| number_at(&log, 24 + 4 * i)).collect();
    assert_eq!((index.iter().sum::<u32>(), index[1]), (1, 1));
    assert_eq!(log[1_040..], PING);
    let mut rng = Rng::new(70);
    assert_eq!(check(&mut rng, &log), 0);
    assert_eq!(last(&mut rng, &log, 1), Found { found: 1, segment: 0, offset: 0 });

    let empty = written(&[]);
    assert_eq!((empty.len(), number_at(&empty, 12)), (1_032, 16));
    assert_eq!((check(&mut rng, &empty), last(&mut rng, &empty, 254)), (0, Found::default()));
}

/// Every room around the exact one, lengths that add up and that do not, in 32 bits too. [I11-I14]
#[test]
fn writing() {
    let mut rng = Rng::new(71);
    let mut counts = [0; 3];
    for _ in 0..400 {
        let segments = some_segments(&mut rng, 5);
        let bytes = segments.concat();
        let mut lengths: Vec<u32> = segments.iter().map(|segment| segment.len() as u32).collect();
        match rng.between(0, 5) {
            0 => lengths.extend([1 << 31, 1 << 31]),
            1 => lengths.push(1),
            2 if !lengths.is_empty() => lengths[0] = lengths[0].wrapping_sub(1),
            _ => {}
        }
        for room in rooms(1_032 + 8 * lengths.len() + bytes.len()) {
            match write(&mut rng, &bytes, &lengths, room) {
                -31 => counts[0] += 1,
                -13 => counts[1] += 1,
                count => counts[2] += usize::from(count >= 1_032),
            }
        }
    }
    assert!(counts.iter().all(|&count| count > 200), "{counts:?}");
}

/// Where both refusals apply, 31 comes first. [I12 I13 N10 N15-N17]
#[test]
fn refusals_in_order() {
    let mut rng = Rng::new(72);
    assert_eq!(write(&mut rng, &PING, &[9], 0), -31);
    assert_eq!(write(&mut rng, &PING, &[10], 1_049), -13);
    assert_eq!(write(&mut rng, &[], &[u32::MAX; 3], 2_000), -31);
    let log = written(&[&PING]);
    assert_eq!(last(&mut rng, &log[..1_049], 253), REFUSED);
    assert_eq!(last(&mut rng, &log, 253).found, -32);
    assert_eq!(last(&mut rng, &log, 255).found, -32);
    let mut wrong = log.clone();
    put(&mut wrong, 24, 1);
    assert_eq!((check(&mut rng, &wrong), check(&mut rng, &[&wrong[..], &[0]].concat())), (-34, -31));
}

/// What is written is sound, and its answers are those of a reading of every segment, for every ID. [I6-I8 I15 I17 I19]
#[test]
fn answers_by_reading() {
    let mut rng = Rng::new(73);
    let (mut found, mut none) = (0, 0);
    for _ in 0..150 {
        let segments = some_segments(&mut rng, 6);
        let log = written(&as_parts(&segments));
        assert_eq!(check(&mut rng, &log), 0);
        for id in (0..=252).chain([254]) {
            let mut expected = Found::default();
            for (segment, bytes) in segments.iter().enumerate() {
                for event in reading(bytes) {
                    if matches!(event.event, Event::Packet { id: of, .. } if of == id) {
                        expected = Found { found: 1, segment, offset: event.at };
                    }
                }
            }
            assert_eq!(last(&mut rng, &log, id), expected);
            found += expected.found;
            none += 1 - expected.found;
        }
    }
    assert!(found > 300 && none > 300, "{found} found, {none} not");
}

/// The index number of 254 is the last one, and packets to all devices count for no other ID. [I5 I8]
#[test]
fn to_all_devices() {
    let mut rng = Rng::new(74);
    let all = packet_of(254, &[1]);
    let log = written(&[&PING, &all]);
    assert_eq!(number_at(&log, 32 + 4 * 253), 2);
    assert_eq!(last(&mut rng, &log, 254), Found { found: 1, segment: 1, offset: 0 });
    assert_eq!(last(&mut rng, &log, 1), Found { found: 1, segment: 0, offset: 0 });
    assert_eq!(last(&mut rng, &log, 252), Found::default());
}

/// A bad checksum has no part in the index. [I8]
#[test]
fn a_bad_checksum_does_not_count() {
    let mut failed = framed(7, &[1]);
    *failed.last_mut().expect("no packet is empty") ^= 1;
    let log = written(&[&failed]);
    assert_eq!((0..254).map(|i| number_at(&log, 24 + 4 * i)).sum::<u32>(), 0);
}

/// Every byte of a log changed, every byte cut off: refused, unless the change is in a segment and leaves the index right. [I9 I10 I16 I17]
#[test]
fn every_byte_damaged() {
    let mut rng = Rng::new(75);
    let log = written(&[&PING, &[], &packet_of(3, &[3, 0, 0])]);
    for end in 0..log.len() {
        assert_eq!(check(&mut rng, &log[..end]), -31);
        assert_eq!(last(&mut rng, &log[..end], 1), REFUSED);
    }
    let (mut layout, mut index) = (0, 0);
    for at in 0..log.len() {
        for bit in 0..8 {
            let mut damaged = log.clone();
            damaged[at] ^= 1 << bit;
            match check(&mut rng, &damaged) {
                -31 => layout += 1,
                -34 => index += 1,
                answer => assert!(answer == 0 && at >= 1_056, "byte {at}, bit {bit}: {answer}"),
            }
        }
    }
    assert!(layout > 300 && index > 500, "{layout} times 31, {index} times 34");
}

/// [I9 I10 I16 I18]
#[test]
fn damaged_logs() {
    let mut rng = Rng::new(76);
    let mut counts = [0; 3];
    for _ in 0..3_000 {
        let segments = some_segments(&mut rng, 4);
        let log = damaged_log(&mut rng, &as_parts(&segments));
        match check(&mut rng, &log) {
            0 => counts[0] += 1,
            -31 => counts[1] += 1,
            _ => counts[2] += 1,
        }
        let ids: Vec<u8> = segments.iter().flat_map(|segment| packet_ids(segment)).collect();
        for id in ids.into_iter().take(3).chain([0, 1, 252, 253, 254, 255]) {
            last(&mut rng, &log, id);
        }
    }
    assert!(counts.iter().all(|&count| count > 300), "{counts:?}");
}

/// Files of random numbers, and a count of segments as large as can be, in every length around the header. [I10]
#[test]
fn no_logs() {
    let mut rng = Rng::new(77);
    for length in 0..1_100 {
        let mut file = rng.bytes(length);
        check(&mut rng, &file);
        for (at, number) in [(0, u32::MAX), (4, 16), (8, 254), (12, 7)] {
            if length >= at + 4 {
                put(&mut file, at, number);
            }
        }
        assert_eq!(check(&mut rng, &file), -31);
    }
}

/// Two logs that agree in header, directory, one index number and the segment that it names give one answer, whatever else stands
/// in them. [I20]
#[test]
fn depends_only_on_what_is_read() {
    let mut rng = Rng::new(78);
    let mut found = 0;
    for _ in 0..300 {
        let segments = some_segments(&mut rng, 5);
        let log = log_of(&as_parts(&segments)).expect("a short log");
        let n = segments.len();
        let ids: Vec<u8> = segments.iter().flat_map(|segment| packet_ids(segment)).collect();
        for id in ids.into_iter().take(4).chain([0]) {
            let place = 16 + 8 * n + 4 * usize::from(id.min(253));
            let number = number_at(&log, place);
            let mut other = log.clone();
            for i in 0..254 {
                put(&mut other, 16 + 8 * n + 4 * i, rng.between(0, n) as u32);
            }
            put(&mut other, place, number);
            for k in 0..n {
                let (start, length) = (number_at(&log, 16 + 8 * k) as usize, number_at(&log, 20 + 8 * k) as usize);
                if k + 1 != number as usize {
                    let noise = rng.bytes(length);
                    other[start..start + length].copy_from_slice(&noise);
                }
            }
            let answer = last(&mut rng, &log, id);
            assert_eq!(last(&mut rng, &other, id), answer);
            found += answer.found;
        }
    }
    assert!(found > 200, "{found} found");
}

/// An index number that names a segment without such a packet: none, though another segment has one. [I19]
#[test]
fn no_other_segment_is_asked() {
    let mut rng = Rng::new(79);
    let mut log = written(&[&PING, &[7, 7, 7]]);
    put(&mut log, 32 + 4, 2);
    assert_eq!(last(&mut rng, &log, 1), Found::default());
    put(&mut log, 32 + 4, 3);
    assert_eq!(last(&mut rng, &log, 1), REFUSED);
}
