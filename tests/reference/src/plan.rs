//! Plans of goals: what is accepted, and our own planner's plan.

use crate::packet::{packet_of, well_formed};
use crate::stuffing::unstuff;

/// IDs are 0 to 252.
const IDS: usize = 253;

/// The most entries of one packet: 1,022 body bytes, of which instruction, address and length take five.
const MOST: usize = (1022 - 5) / 5;

/// 41 for a list that is not 253 long, 42 for a number below -1 or above 4,095.
fn refusal(goals: &[i32]) -> Option<u8> {
    if goals.len() != IDS {
        return Some(41);
    }
    goals.iter().any(|&g| !(-1..=4095).contains(&g)).then_some(42)
}

/// The entries of a Sync Write of goals as (ID, goal), if the bytes are a well-formed packet of that kind with a list that devices
/// carry out and that is not empty.
fn goals_of(packet: &[u8]) -> Option<Vec<(u8, u32)>> {
    if !well_formed(packet) || packet[4] != 254 {
        return None;
    }
    let body = unstuff(&packet[7..packet.len() - 2]);
    let list = body.strip_prefix(&[0x83, 116, 0, 4, 0])?;
    if list.is_empty() || list.len() % 5 != 0 {
        return None;
    }
    let entries: Vec<(u8, u32)> = list.chunks(5).map(|e| (e[0], u32::from_le_bytes([e[1], e[2], e[3], e[4]]))).collect();
    let repeated = |i: usize| entries[..i].iter().any(|e| e.0 == entries[i].0);
    if (0..entries.len()).any(|i| entries[i].0 > 252 || repeated(i)) {
        return None;
    }
    Some(entries)
}

/// Whether the bytes are a plan of the goals: the packets are cut off one by one, by their length fields.
pub fn plan_check(goals: &[i32], plan: &[u8]) -> Result<bool, u8> {
    if let Some(number) = refusal(goals) {
        return Err(number);
    }
    let mut set = Vec::new();
    let mut rest = plan;
    while !rest.is_empty() {
        if rest.len() < 7 {
            return Ok(false);
        }
        let size = 7 + usize::from(rest[5]) + 256 * usize::from(rest[6]);
        if rest.len() < size {
            return Ok(false);
        }
        let Some(entries) = goals_of(&rest[..size]) else {
            return Ok(false);
        };
        set.extend(entries);
        rest = &rest[size..];
    }
    set.sort();
    Ok(set == wanted(goals))
}

/// The wanted goals as (ID, goal), IDs rising.
fn wanted(goals: &[i32]) -> Vec<(u8, u32)> {
    goals.iter().enumerate().filter(|(_, &g)| g >= 0).map(|(id, &g)| (id as u8, g as u32)).collect()
}

/// Our planner's plan.
pub fn plan(goals: &[i32]) -> Result<Vec<u8>, u8> {
    if let Some(number) = refusal(goals) {
        return Err(number);
    }
    let mut out = Vec::new();
    for group in wanted(goals).chunks(MOST) {
        let mut body = vec![0x83, 116, 0, 4, 0];
        for (id, goal) in group {
            body.push(*id);
            body.extend(goal.to_le_bytes());
        }
        out.extend(packet_of(254, &body));
    }
    Ok(out)
}

/// The planner's call: writes the plan to the start of out, where there is room.
pub fn plan_into(goals: &[i32], out: &mut [u8]) -> crate::Answer {
    let plan = plan(goals)?;
    if out.len() < plan.len() {
        return Err(13);
    }
    out[..plan.len()].copy_from_slice(&plan);
    Ok(plan.len())
}
