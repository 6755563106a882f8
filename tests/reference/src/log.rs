//! A line log by the words of its request: header, directory, index, segments. The file is taken apart into numbers, and numbers
//! that do not fit 32 bits are never formed.

use crate::{next_event, Answer, Event};

const INDEX_COUNT: usize = 254;
const LONGEST_FILE: usize = 4_294_967_295;

/// The offsets of all packets with an ID in a segment, in their order.
fn packets(segment: &[u8], wanted: u8) -> Vec<usize> {
    let events = std::iter::successors(next_event(segment, 0), |found| next_event(segment, found.next));
    events.filter(|found| matches!(&found.event, Event::Packet { id, .. } if *id == wanted)).map(|found| found.at).collect()
}

/// The IDs of the index, in its order.
fn indexed() -> impl Iterator<Item = u8> {
    (0..=252).chain([254])
}

/// The last segment that has a packet with the ID, and the offset of the last one in it.
fn last_by_reading(segments: &[&[u8]], id: u8) -> Option<(usize, usize)> {
    let of_each = segments.iter().map(|segment| packets(segment, id));
    of_each.enumerate().filter_map(|(number, offsets)| offsets.last().map(|&offset| (number, offset))).last()
}

fn index_of(segments: &[&[u8]]) -> Vec<usize> {
    indexed().map(|id| last_by_reading(segments, id).map_or(0, |(number, _)| number + 1)).collect()
}

/// The log of these segments; none where it would be too long.
pub fn log_of(segments: &[&[u8]]) -> Option<Vec<u8>> {
    let n = segments.len();
    let bytes: usize = segments.iter().map(|segment| segment.len()).sum();
    if 1_032 + 8 * n + bytes > LONGEST_FILE {
        return None;
    }
    let mut numbers = vec![n, 16, INDEX_COUNT, 16 + 8 * n];
    let mut start = 1_032 + 8 * n;
    for segment in segments {
        numbers.extend([start, segment.len()]);
        start += segment.len();
    }
    numbers.extend(index_of(segments));
    let mut log: Vec<u8> = numbers.iter().flat_map(|&number| (number as u32).to_le_bytes()).collect();
    segments.iter().for_each(|segment| log.extend(*segment));
    Some(log)
}

pub fn log_write(bytes: &[u8], lengths: &[u32], out: &mut [u8]) -> Answer {
    let mut rest = bytes;
    let mut segments = Vec::new();
    for &length in lengths {
        let (segment, behind) = rest.split_at_checked(length as usize).ok_or(31)?;
        segments.push(segment);
        rest = behind;
    }
    if !rest.is_empty() {
        return Err(31);
    }
    let log = log_of(&segments).ok_or(31)?;
    out.get_mut(..log.len()).ok_or(13)?.copy_from_slice(&log);
    Ok(log.len())
}

/// A file whose layout is as stated.
struct LaidOut<'a> {
    segments: Vec<&'a [u8]>,
    index: Vec<usize>,
}

pub(crate) fn numbers(bytes: &[u8]) -> Vec<usize> {
    bytes.chunks_exact(4).map(|four| u32::from_le_bytes([four[0], four[1], four[2], four[3]]) as usize).collect()
}

fn laid_out(file: &[u8]) -> Option<LaidOut<'_>> {
    let header = numbers(file.get(..16)?);
    let n = header[0];
    if file.len() > LONGEST_FILE || header != [n, 16, INDEX_COUNT, 16 + 8 * n] {
        return None;
    }
    let directory = numbers(file.get(16..16 + 8 * n)?);
    let index = numbers(file.get(16 + 8 * n..1_032 + 8 * n)?);
    let mut end = 1_032 + 8 * n;
    let mut segments = Vec::new();
    for entry in directory.chunks(2) {
        if entry[0] != end {
            return None;
        }
        segments.push(file.get(end..end + entry[1])?);
        end += entry[1];
    }
    (end == file.len() && index.iter().all(|&number| number <= n)).then_some(LaidOut { segments, index })
}

/// Whether a file is a sound log.
pub fn log_check(file: &[u8]) -> Result<(), u8> {
    let log = laid_out(file).ok_or(31)?;
    if index_of(&log.segments) == log.index {
        Ok(())
    } else {
        Err(34)
    }
}

/// Segment and offset of the last packet for an ID, in the segment that the index names.
pub fn log_last(file: &[u8], id: u8) -> Result<Option<(usize, usize)>, u8> {
    let log = laid_out(file).ok_or(31)?;
    let entry = indexed().position(|indexed| indexed == id).ok_or(32)?;
    let Some(number) = log.index[entry].checked_sub(1) else { return Ok(None) };
    Ok(packets(log.segments[number], id).last().map(|&offset| (number, offset)))
}

#[cfg(test)]
mod tests {
    use super::*;
    use crate::packet_of;

    #[test]
    fn one_ping() {
        let ping = packet_of(1, &[1]);
        let log = log_of(&[&ping]).unwrap();
        assert_eq!(log.len(), 1_050);
        assert_eq!(numbers(&log[..24]), [1, 16, 254, 24, 1_040, 10]);
        let index = numbers(&log[24..1_040]);
        assert_eq!((index.iter().sum::<usize>(), index[1]), (1, 1));
        assert_eq!((log_check(&log), log_last(&log, 1), log_last(&log, 2)), (Ok(()), Ok(Some((0, 0))), Ok(None)));
        assert_eq!(log_of(&[]).unwrap().len(), 1_032);
    }

    #[test]
    fn the_last_of_the_last() {
        let ping = packet_of(1, &[1]);
        let all = packet_of(254, &[1]);
        let segments = [&[&ping[..], &ping[..]].concat()[..], &all, &[], &[&[7][..], &ping[..], &ping[..]].concat()[..], &all];
        let log = log_of(&segments).unwrap();
        assert_eq!(log_last(&log, 1), Ok(Some((3, 11))));
        assert_eq!(log_last(&log, 254), Ok(Some((4, 0))));
        assert_eq!((log_last(&log, 253), log_last(&log, 255), log_last(&log[..1_000], 255)), (Err(32), Err(32), Err(31)));
    }
}
