//! Line logs: written, asked and salvaged, whole or damaged.

use super::line::line;
use crate::Operation;
use compare::{cut_log, damaged_log, packet_ids, some_room};
use reference::Rng;

/// Some repeat what came before, so that an ID has packets in several segments, and several in one.
fn segments(rng: &mut Rng) -> Vec<Vec<u8>> {
    let mut segments: Vec<Vec<u8>> = Vec::new();
    for _ in 0..rng.between(0, 4) {
        let next = match rng.between(0, 5) {
            0 => Vec::new(),
            1 => segments.concat(),
            2 => line(rng).repeat(2),
            _ => line(rng),
        };
        segments.push(next);
    }
    segments
}

pub fn write(rng: &mut Rng) -> Operation {
    let segments = segments(rng);
    let bytes = segments.concat();
    let mut lengths: Vec<u32> = segments.iter().map(|segment| segment.len() as u32).collect();
    match rng.between(0, 7) {
        0 => lengths.push(rng.pick(&[1, 1 << 31, u32::MAX])),
        // two that add up to 0 where the sum wraps
        1 => lengths.extend([1 << 31, 1 << 31]),
        2 => drop(lengths.pop()),
        _ => {}
    }
    let room = some_room(rng, 1_032 + 8 * lengths.len() + bytes.len());
    Operation::LogWrite { room, lengths, bytes }
}

pub fn ask(rng: &mut Rng) -> Operation {
    let segments = segments(rng);
    let parts: Vec<&[u8]> = segments.iter().map(|segment| &segment[..]).collect();
    let ids: Vec<u8> = parts.iter().flat_map(|segment| packet_ids(segment)).collect();
    let id = match rng.between(0, 3) {
        0 => rng.pick(&[253, 255]),
        1 if rng.one_in(2) => rng.byte(),
        1 => rng.pick(&[252, 254]),
        _ if ids.is_empty() => 1,
        _ => rng.pick(&ids),
    };
    Operation::Ask { id, log: damaged_log(rng, &parts) }
}

pub fn salvage(rng: &mut Rng) -> Operation {
    let segments = segments(rng);
    let parts: Vec<&[u8]> = segments.iter().map(|segment| &segment[..]).collect();
    let log = cut_log(rng, &parts);
    let room = if rng.one_in(3) { some_room(rng, log.len()) } else { log.len() + rng.between(0, 9) };
    let told = log.get(..4).map_or(0, |four| u32::from_le_bytes([four[0], four[1], four[2], four[3]]) as usize);
    let entries = told.min(log.len().saturating_sub(1_032) / 8);
    let report = if rng.one_in(3) { some_room(rng, 2 * entries) } else { 2 * entries + rng.between(0, 4) };
    Operation::Salvage { room, report, log }
}
