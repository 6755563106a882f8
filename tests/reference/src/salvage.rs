//! Salvage of a cut log, by the words of its request. Which bytes lie in no kept segment is counted byte by byte.

use crate::log::{log_of, numbers};
use std::ops::Range;

const LONGEST_FILE: usize = 4_294_967_295;

/// What was altered.
#[derive(Clone, PartialEq, Eq, Debug, Default)]
pub struct Salvaged {
    /// Number and reason of each entry that was dropped.
    pub dropped: Vec<(u32, u32)>,
    pub header_changed: bool,
    pub index_changed: usize,
    pub leftover: usize,
}

/// The smaller of the header's count and of the entries that fit into the file.
fn segment_count(file: &[u8]) -> usize {
    numbers(&file[..4])[0].min((file.len() - 1_032) / 8)
}

/// The kept entries, and the dropped ones.
fn sorted(file: &[u8], old_end: usize, directory: &[usize]) -> (Vec<Range<usize>>, Vec<(u32, u32)>) {
    let (mut kept, mut dropped) = (Vec::<Range<usize>>::new(), Vec::new());
    for (number, entry) in directory.chunks(2).enumerate() {
        let (start, end) = (entry[0], entry[0] + entry[1]);
        let overlaps = kept.last().is_some_and(|last| start < last.end);
        if start < old_end || overlaps {
            dropped.push((number as u32, 1));
        } else if end > file.len() {
            dropped.push((number as u32, 2));
        } else {
            kept.push(start..end);
        }
    }
    (kept, dropped)
}

/// The sound log, and the report.
pub fn salvage(file: &[u8]) -> (Vec<u8>, Salvaged) {
    let m = segment_count(file);
    let old_end = 1_032 + 8 * m;
    let (kept, dropped) = sorted(file, old_end, &numbers(&file[16..16 + 8 * m]));
    let segments: Vec<&[u8]> = kept.iter().map(|place| &file[place.clone()]).collect();
    let log = log_of(&segments).expect("the segments of a file are no longer than the file");
    let index_at = |file: &[u8], n: usize| numbers(&file[16 + 8 * n..1_032 + 8 * n]);
    let (old_index, new_index) = (index_at(file, m), index_at(&log, kept.len()));
    let in_none = |place: &usize| !kept.iter().any(|segment| segment.contains(place));
    let report = Salvaged {
        dropped,
        header_changed: file[..16] != log[..16],
        index_changed: old_index.iter().zip(&new_index).filter(|(old, new)| old != new).count(),
        leftover: (old_end..file.len()).filter(in_none).count(),
    };
    (log, report)
}

/// The call: the log goes to the output's start, and two numbers for each dropped entry to the report's.
pub fn log_salvage(file: &[u8], out: &mut [u8], report: &mut [u32]) -> Result<(usize, Salvaged), u8> {
    if file.len() < 1_032 || file.len() > LONGEST_FILE {
        return Err(33);
    }
    if out.len() < file.len() || report.chunks_exact(2).count() < segment_count(file) {
        return Err(13);
    }
    let (log, salvaged) = salvage(file);
    out[..log.len()].copy_from_slice(&log);
    for (place, &(number, reason)) in report.chunks_exact_mut(2).zip(&salvaged.dropped) {
        place.copy_from_slice(&[number, reason]);
    }
    Ok((log.len(), salvaged))
}

#[cfg(test)]
mod tests {
    use super::*;
    use crate::packet_of;

    fn report(dropped: &[(u32, u32)], header_changed: bool, index_changed: usize, leftover: usize) -> Salvaged {
        Salvaged { dropped: dropped.to_vec(), header_changed, index_changed, leftover }
    }

    fn with_number(file: &[u8], at: usize, number: u32) -> Vec<u8> {
        let mut file = file.to_vec();
        file[at..at + 4].copy_from_slice(&number.to_le_bytes());
        file
    }

    #[test]
    fn two_pings() {
        let log = log_of(&[&packet_of(1, &[1]), &packet_of(2, &[1])]).unwrap();
        assert_eq!(log.len(), 1_068);
        assert_eq!(salvage(&log), (log.clone(), Salvaged::default()));
        assert_eq!(salvage(&log[..1_067]).1, report(&[(1, 2)], true, 1, 9));
        assert_eq!(salvage(&with_number(&log, 4, 99)), (log.clone(), report(&[], true, 0, 0)));
        assert_eq!(salvage(&with_number(&log, 0, 3)).1, report(&[(0, 1), (2, 1)], true, 4, 2));
        assert_eq!(salvage(&with_number(&log, 0, u32::MAX)).1, report(&[(0, 1), (1, 1), (2, 1), (3, 1)], true, 4, 4));
        let empty = log_of(&[]).unwrap();
        assert_eq!(salvage(&[&empty[..], &[1, 2, 3]].concat()), (empty, report(&[], false, 0, 3)));
    }
}
