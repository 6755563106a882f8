//! Wanted goals, plans of them by any planner, and plans with one thing wrong.

use reference::{packet_of, Rng};

/// The entries of each packet, in order.
pub type Packets = Vec<Vec<(u8, i32)>>;

/// 253 numbers, of which about `wanted` in 253 are goals.
pub fn goals(rng: &mut Rng, wanted: usize) -> Vec<i32> {
    (0..253).map(|_| if rng.between(1, 253) <= wanted { rng.between(0, 4095) as i32 } else { -1 }).collect()
}

/// A Sync Write of these goals.
fn packet(entries: &[(u8, i32)]) -> Vec<u8> {
    let mut body = vec![0x83, 116, 0, 4, 0];
    for (id, goal) in entries {
        body.push(*id);
        body.extend(goal.to_le_bytes());
    }
    packet_of(254, &body)
}

/// The wanted goals in any order and in any number of packets.
pub fn any_plan(rng: &mut Rng, goals: &[i32]) -> Packets {
    let mut left: Vec<(u8, i32)> = (0..253).filter(|&id| goals[id] >= 0).map(|id| (id as u8, goals[id])).collect();
    for i in (1..left.len()).rev() {
        left.swap(i, rng.between(0, i));
    }
    let mut packets = Vec::new();
    while !left.is_empty() {
        let most = left.len().min(203);
        let n = rng.between(1, most);
        packets.push(left.split_off(left.len() - n));
    }
    packets
}

pub fn joined(packets: &[Vec<(u8, i32)>]) -> Vec<u8> {
    packets.iter().flat_map(|entries| packet(entries)).collect()
}

/// A plan with one thing wrong; now and then it is still right.
pub fn spoiled(rng: &mut Rng, goals: &[i32], mut packets: Packets) -> Vec<u8> {
    let p = rng.between(0, packets.len().max(1) - 1);
    let unwanted: Vec<u8> = (0..=255).filter(|&id| goals.get(usize::from(id)).map_or(true, |&g| g < 0)).collect();
    match rng.between(0, 9) {
        // an ID is left out
        0 if !packets.is_empty() => {
            packets[p].pop();
            packets.retain(|entries| !entries.is_empty());
        }
        // one stands again, in a packet of its own or in one that is there
        1 if !packets.is_empty() => {
            let again = packets[p][0];
            packets.push(vec![again]);
        }
        2 if !packets.is_empty() => {
            let again = packets[p][0];
            packets[p].push(again);
        }
        // another goal
        3 if !packets.is_empty() => packets[p][0].1 ^= 1 << rng.between(0, 31),
        // one that is not wanted, or no ID at all
        4 => packets.push(vec![(rng.pick(&unwanted), rng.pick(&[-1, 0, 7, 4095]))]),
        // an empty list
        5 => packets.insert(p.min(packets.len()), Vec::new()),
        // bytes behind, or fewer
        6 => {
            let more = rng.between(1, 12);
            return [joined(&packets), rng.bytes(more)].concat();
        }
        7 if !packets.is_empty() => {
            let bytes = joined(&packets);
            return bytes[..bytes.len() - rng.between(1, 9)].to_vec();
        }
        // a byte changed, with the checksum as it was or made anew
        8 if !packets.is_empty() => {
            let mut bytes = joined(&packets);
            let i = rng.between(0, bytes.len() - 1);
            bytes[i] ^= 1 << rng.between(0, 7);
            return bytes;
        }
        _ if !packets.is_empty() => {
            let mut body = vec![0x83, 116, 0, 4, 0];
            for (id, goal) in &packets[p] {
                body.push(*id);
                body.extend(goal.to_le_bytes());
            }
            let i = rng.between(0, body.len() - 1);
            body[i] ^= 1 << rng.between(0, 7);
            let to = rng.pick(&[254, 254, 1]);
            let before = joined(&packets[..p]);
            return [before, packet_of(to, &body), joined(&packets[p + 1..])].concat();
        }
        _ => return vec![0],
    }
    joined(&packets)
}
