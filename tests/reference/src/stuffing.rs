//! Byte stuffing: after each FF FF FD of a body one FD is added.

use crate::Answer;

const PATTERN: [u8; 3] = [0xFF, 0xFF, 0xFD];
const ADDED: u8 = 0xFD;

/// FF FF FD stands just before this index.
fn pattern_ends_at(body: &[u8], end: usize) -> bool {
    end >= 3 && body[end - 3..end] == PATTERN
}

pub fn stuff(body: &[u8]) -> Vec<u8> {
    let mut stuffed = Vec::new();
    for i in 0..body.len() {
        stuffed.push(body[i]);
        if pattern_ends_at(body, i + 1) {
            stuffed.push(ADDED);
        }
    }
    stuffed
}

/// Every FF FF FD is followed by FD, and that within the body.
pub fn well_stuffed(body: &[u8]) -> bool {
    (0..=body.len()).all(|end| !pattern_ends_at(body, end) || body.get(end) == Some(&ADDED))
}

/// The body without the byte after each FF FF FD.
pub fn unstuff(body: &[u8]) -> Vec<u8> {
    (0..body.len()).filter(|&i| !pattern_ends_at(body, i)).map(|i| body[i]).collect()
}

/// Writes as much of the stuffed form of a first byte and the rest as there is room for, and answers how much that is.
pub fn stuff_into(first: u8, rest: &[u8], out: &mut [u8]) -> usize {
    let stuffed = stuff(&[&[first], rest].concat());
    let count = stuffed.len().min(out.len());
    out[..count].copy_from_slice(&stuffed[..count]);
    count
}

pub fn unstuff_into(body: &[u8], out: &mut [u8]) -> Answer {
    if !well_stuffed(body) {
        return Err(14);
    }
    let unstuffed = unstuff(body);
    if unstuffed.len() > out.len() {
        return Err(13);
    }
    out[..unstuffed.len()].copy_from_slice(&unstuffed);
    Ok(unstuffed.len())
}
