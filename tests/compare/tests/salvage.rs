//! Salvage of cut logs beside the reference, and the promises over all files on many of them.

use compare::{compare_log_salvage, cut_log, must_agree, rooms, segment, PROVED};
use exports::Salvaged;
use reference::{log_of, packet_of, Rng};

fn salvage(rng: &mut Rng, log: &[u8], room: usize, numbers: usize) -> Salvaged {
    must_agree(compare_log_salvage(&PROVED, rng, log, room, numbers))
}

fn entries(log: &[u8]) -> usize {
    (number_at(log, 0) as usize).min((log.len() - 1_032) / 8)
}

fn number_at(log: &[u8], at: usize) -> u32 {
    u32::from_le_bytes([log[at], log[at + 1], log[at + 2], log[at + 3]])
}

fn with_number(log: &[u8], at: usize, number: u32) -> Vec<u8> {
    let mut log = log.to_vec();
    log[at..at + 4].copy_from_slice(&number.to_le_bytes());
    log
}

/// The log that is written, and the report: number and reason of each dropped entry, and the figures.
fn salvaged(log: &[u8]) -> (Vec<u8>, Vec<(u32, u32)>, Salvaged) {
    let mut out = vec![0; log.len()];
    let mut report = vec![0; 2 * entries(log)];
    let answer = exports::log_salvage(log, &mut out, &mut report);
    out.truncate(usize::try_from(answer.count).expect("it is not refused"));
    let dropped = report.chunks(2).take(answer.dropped).map(|place| (place[0], place[1])).collect();
    (out, dropped, answer)
}

fn some_segments(rng: &mut Rng, most: usize) -> Vec<Vec<u8>> {
    (0..rng.between(0, most))
        .map(|_| {
            let parts = rng.between(0, 6);
            segment(rng, parts, 40)
        })
        .collect()
}

fn as_parts(segments: &[Vec<u8>]) -> Vec<&[u8]> {
    segments.iter().map(|segment| &segment[..]).collect()
}

fn two_pings() -> Vec<u8> {
    log_of(&[&packet_of(1, &[1]), &packet_of(2, &[1])]).expect("a short log")
}

/// The worked checks, with the bytes that are written. [I21-I28 X29-X33]
#[test]
fn two_pings_cut_and_damaged() {
    let log = two_pings();
    assert_eq!(log.len(), 1_068);
    let figures = |file: &[u8]| {
        let (_, dropped, s) = salvaged(file);
        (dropped, s.header_changed, s.index_changed, s.leftover)
    };
    assert_eq!(figures(&log[..1_067]), (vec![(1, 2)], 1, 1, 9));
    assert_eq!(salvaged(&log[..1_067]).0, log_of(&[&packet_of(1, &[1])]).expect("a short log"));
    assert_eq!(figures(&with_number(&log, 4, 99)), (vec![], 1, 0, 0));
    assert_eq!(salvaged(&with_number(&log, 4, 99)).0, log);
    assert_eq!(figures(&with_number(&log, 0, 3)), (vec![(0, 1), (2, 1)], 1, 4, 2));
    assert_eq!(salvaged(&with_number(&log, 0, 3)).0, log_of(&[&packet_of(2, &[1])]).expect("a short log"));
    assert_eq!(figures(&with_number(&log, 0, u32::MAX)), (vec![(0, 1), (1, 1), (2, 1), (3, 1)], 1, 4, 4));
    let empty = log_of(&[]).expect("a short log");
    assert_eq!(figures(&[&empty[..], &[1, 2, 3]].concat()), (vec![], 0, 0, 3));
}

/// A segment that overlaps the one before is dropped, one that starts behind a dropped one is kept, wherever that ended; of two
/// faults the start is named. [I22 I23]
#[test]
fn a_dropped_end_does_not_count() {
    let ping = packet_of(1, &[1]);
    let log = log_of(&[&ping, &ping, &ping]).expect("a short log");
    // the middle one starts a byte early and ends behind the file
    let early = with_number(&with_number(&log, 24, 1_065), 28, u32::MAX);
    assert_eq!(salvaged(&early).1, [(1, 1)]);
    let late = with_number(&log, 28, u32::MAX);
    let (written, dropped, figures) = salvaged(&late);
    assert_eq!((dropped, figures.leftover, figures.header_changed), (vec![(1, 2)], 10, 1));
    assert_eq!(written, log_of(&[&ping, &ping]).expect("a short log"));
    // the first one ends in the second, which is dropped; the third is kept
    let long = with_number(&log, 20, 11);
    assert_eq!(salvaged(&long).1, [(1, 1)]);
}

/// Cut and damaged logs, with room and without. [I21-I28 I31]
#[test]
fn damaged_logs() {
    let mut rng = Rng::new(130);
    let mut counts = [0; 4];
    for _ in 0..1_200 {
        let segments = some_segments(&mut rng, 5);
        let log = cut_log(&mut rng, &as_parts(&segments));
        let places = if log.len() < 1_032 { 0 } else { entries(&log) };
        let slack = rng.between(0, 3);
        let answer = salvage(&mut rng, &log, log.len() + slack, 2 * places + slack);
        counts[if answer.count < 0 { 0 } else { 1 + answer.dropped.min(2) }] += 1;
    }
    assert!(counts.iter().all(|&count| count > 80), "{counts:?}");
}

/// Each room around the exact ones; 33 comes first, and a refusal leaves both buffers. [I31 N18]
#[test]
fn refusals_in_their_order() {
    let mut rng = Rng::new(131);
    let log = two_pings();
    for cut in 0..1_068 {
        let file = &log[..cut];
        assert_eq!(salvage(&mut rng, file, 0, 0).count, if cut < 1_032 { -33 } else { -13 });
        let answer = salvage(&mut rng, file, 2_000, 9).count;
        assert!(if cut < 1_032 { answer == -33 } else { answer > 0 });
    }
    for room in rooms(log.len()) {
        for numbers in 0..8 {
            let answer = salvage(&mut rng, &log, room, numbers);
            assert_eq!(answer.count, if room < log.len() || numbers < 4 { -13 } else { 1_068 });
        }
    }
}

/// A file one byte too long, of which nothing is read. [I31 N18]
#[test]
fn a_file_past_the_bound() {
    let file = vec![0; 1 << 32];
    let (mut out, mut report) = ([7; 20], [7; 20]);
    assert_eq!(exports::log_salvage(&file, &mut out, &mut report), Salvaged { count: -33, ..Salvaged::default() });
    assert_eq!(exports::log_salvage(&file[1..], &mut out, &mut report), Salvaged { count: -13, ..Salvaged::default() });
    assert_eq!((out, report), ([7; 20], [7; 20]));
}

/// Files of random numbers, in every length around the header. [I21 I22]
#[test]
fn no_logs() {
    let mut rng = Rng::new(132);
    for length in 1_000..1_400 {
        let mut file = rng.bytes(length);
        salvage(&mut rng, &file, length, 2 * (length.saturating_sub(1_032) / 8));
        // few entries, so that some places lie in the file
        for i in (0..length / 4).filter(|i| i % 3 != 0) {
            file[4 * i + 2] = 0;
            file[4 * i + 3] = 0;
            file[4 * i + 1] %= 6;
        }
        salvage(&mut rng, &file, length, 2 * (length.saturating_sub(1_032) / 8));
    }
}

/// Sound logs, and logs that the call has written, stay as they are and nothing is reported. What is written is sound, and not longer
/// than the file. [I29 I30]
#[test]
fn salvaged_once_and_again() {
    let mut rng = Rng::new(133);
    let mut altered = 0;
    for _ in 0..1_500 {
        let segments = some_segments(&mut rng, 5);
        let sound = log_of(&as_parts(&segments)).expect("a short log");
        let (out, dropped, figures) = salvaged(&sound);
        assert_eq!((&out, dropped.len()), (&sound, 0));
        assert_eq!(figures, Salvaged { count: sound.len() as i64, ..Salvaged::default() });

        let log = cut_log(&mut rng, &as_parts(&segments));
        if log.len() < 1_032 {
            continue;
        }
        let (first, _, _) = salvaged(&log);
        assert_eq!(exports::log_check(&first), 0);
        assert!(first.len() <= log.len());
        let (second, _, figures) = salvaged(&first);
        assert_eq!((&second, figures), (&first, Salvaged { count: first.len() as i64, ..Salvaged::default() }));
        altered += i32::from(first != log);
    }
    assert!(altered > 500, "{altered} altered");
}
