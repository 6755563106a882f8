//! Random inputs that lead to the corners of the rules.

use reference::{framed, log_of, packet_of, reading, stuff, v1, Event, Rng, MOST_HELD};

/// A body rich in FF and FD, so that stuffing is met at every turn; sometimes any bytes.
pub fn body(rng: &mut Rng, length: usize) -> Vec<u8> {
    let alphabet: &[u8] = match rng.between(0, 5) {
        0 => &[0xFF, 0xFD],
        1 => &[0xFF, 0xFF, 0xFD],
        2 => &[0xFF, 0xFF, 0xFD, 0xFD, 0x00, 0x01],
        3 => &[0xFF, 0xFD, 0xFE, 0xFC, 0x7F, 0x03],
        4 => &[0x00, 0x01, 0x02],
        _ => return rng.bytes(length),
    };
    (0..length).map(|_| rng.pick(alphabet)).collect()
}

/// Lengths of a body: short ones, those around the longest, and beyond, now and then far beyond.
pub fn length(rng: &mut Rng) -> usize {
    match rng.between(0, 399) {
        0 => rng.between(10_000, 70_000),
        1..=9 => rng.between(1_025, 2_500),
        10..=40 => rng.between(1_018, 1_025),
        41..=80 => rng.between(500, 1_024),
        81..=160 => rng.between(13, 200),
        _ => rng.between(0, 12),
    }
}

/// A body, rich in FF and FD, whose stuffed form has so many bytes, or one more where that falls on an added byte.
pub fn body_of_stuffed_length(rng: &mut Rng, length: usize) -> Vec<u8> {
    let mut short = Vec::new();
    let mut stuffed = 0;
    for byte in body(rng, length) {
        if stuffed >= length {
            break;
        }
        short.push(byte);
        stuffed += if short.ends_with(&[0xFF, 0xFF, 0xFD]) { 2 } else { 1 };
    }
    short
}

/// Mostly valid IDs, the ends of their range often.
pub fn id(rng: &mut Rng) -> u8 {
    if rng.one_in(3) {
        rng.pick(&[0, 1, 252, 253, 254, 255])
    } else {
        rng.byte()
    }
}

/// Bytes in the form of a packet. Most are well-formed; some have a bad ID, a length out of bounds or wrong stuffing under a
/// right checksum.
pub fn packet(rng: &mut Rng, length: usize) -> Vec<u8> {
    let id = id(rng);
    let body = body(rng, length);
    if rng.one_in(4) {
        framed(id, &body)
    } else {
        packet_of(id, &body)
    }
}

/// Parameters of Protocol 1.0: few, those around the most that fit, and beyond.
pub fn v1_length(rng: &mut Rng) -> usize {
    match rng.between(0, 99) {
        0 => rng.between(256, 70_000),
        1..=40 => rng.between(251, 256),
        41..=55 => rng.between(13, 249),
        _ => rng.between(0, 12),
    }
}

/// Bytes in the form of a packet of Protocol 1.0, with a body of so many bytes, at most 254. Some have an ID that is not allowed.
pub fn v1_packet(rng: &mut Rng, length: usize) -> Vec<u8> {
    let id = id(rng);
    v1::packet_of(id, &body(rng, length))
}

/// A part of a segment of Protocol 1.0 or Mercury. Longer bodies have up to so many bytes, at most 240.
fn v1_part(rng: &mut Rng, longest: usize) -> Vec<u8> {
    let length = if rng.one_in(3) { rng.between(1, longest) } else { rng.between(1, longest.min(12)) };
    let mut whole = v1_packet(rng, length);
    match rng.between(0, 12) {
        // runs of FF, and fronts that promise few bytes, many, or too few
        0 | 1 => vec![0xFF; rng.between(1, 5)],
        2 => vec![0xFF, 0xFF, id(rng), rng.pick(&[0, 1, 2, 3, 9, 254, 255])],
        3 => rng.bytes(length),
        4 => {
            let kept = rng.between(0, whole.len());
            whole.truncate(kept);
            whole
        }
        5 | 6 => {
            let place = rng.between(2, whole.len() - 1);
            whole[place] ^= rng.between(1, 255) as u8;
            whole
        }
        7 | 8 => {
            // a packet inside one that is well-formed, or whose checksum is wrong
            let (before, after) = (rng.between(0, 3), rng.between(0, 5));
            let inside = [vec![0xFF; before], whole, rng.bytes(after)].concat();
            let mut outer = v1::packet_of(id(rng), &inside);
            if rng.one_in(2) {
                *outer.last_mut().expect("no packet is empty") ^= 1;
            }
            outer
        }
        _ => whole,
    }
}

/// Runs of FF, packets good and bad, cut, and inside each other, one after the other.
pub fn v1_segment(rng: &mut Rng, parts: usize, longest: usize) -> Vec<u8> {
    (0..parts).flat_map(|_| v1_part(rng, longest)).collect()
}

/// Any bytes and any count for a record of Protocol 1.0 or Mercury: often full, or with a count that is too large.
pub fn v1_record(rng: &mut Rng) -> ([u8; v1::MOST_HELD], usize) {
    let contents = if rng.one_in(3) { rng.bytes(v1::MOST_HELD) } else { v1_segment(rng, 30, 40) };
    let mut held = [rng.byte(); v1::MOST_HELD];
    let filled = contents.len().min(v1::MOST_HELD);
    held[..filled].copy_from_slice(&contents[..filled]);
    let count = match rng.between(0, 9) {
        0 => v1::MOST_HELD,
        1 => rng.between(v1::MOST_HELD - 9, v1::MOST_HELD),
        // where Protocol 2.0 would still accept it, too
        2 => rng.between(v1::MOST_HELD + 1, 1_031),
        3 => rng.pick(&[usize::MAX, usize::MAX - 258, 1 << 63, 1 << 32, (1 << 32) + 5, 1 << 16, 65_541]),
        4 | 5 => rng.between(0, 20),
        _ => rng.between(0, v1::MOST_HELD),
    };
    (held, count)
}

/// Noise that looks like the beginnings of packets: header bytes, IDs at the ends of their range, lengths that are soon there,
/// far off, or out of bounds.
pub fn noise(rng: &mut Rng, length: usize) -> Vec<u8> {
    let mut noise = Vec::new();
    while noise.len() < length {
        match rng.between(0, 5) {
            0 => noise.push(rng.byte()),
            1 | 2 => noise.extend(&[0xFF, 0xFF, 0xFD, 0x00][..rng.between(1, 4)]),
            3 => noise.push(rng.pick(&[0xFF, 0xFD, 0x00])),
            _ => {
                noise.extend([0xFF, 0xFF, 0xFD, 0x00, id(rng)]);
                let promised = match rng.between(0, 9) {
                    0..=4 => rng.between(0, 12),
                    5 | 6 => rng.between(13, 60),
                    7 => rng.between(61, 1_022),
                    8 => rng.between(1_023, 1_026),
                    _ => rng.between(0, 0xFFFF),
                };
                noise.extend([(promised % 256) as u8, (promised / 256) as u8]);
            }
        }
    }
    noise.truncate(length);
    noise
}

/// The front of a packet, often of the longest: it may swallow all that follows for a while.
pub fn front(rng: &mut Rng) -> Vec<u8> {
    let promised = if rng.one_in(2) { rng.between(1_020, 1_024) } else { rng.between(3, 1_024) };
    let [low, high] = (promised as u16).to_le_bytes();
    vec![0xFF, 0xFF, 0xFD, 0x00, rng.pick(&[0, 1, 7, 252, 254]), low, high]
}

/// A part of a segment. Longer bodies have up to so many bytes.
fn part(rng: &mut Rng, longest: usize) -> Vec<u8> {
    let length = if rng.one_in(3) { rng.between(1, longest) } else { rng.between(1, longest.min(12)) };
    let mut whole = packet(rng, length);
    match rng.between(0, 9) {
        0 | 1 => noise(rng, length),
        2 => {
            let kept = rng.between(0, whole.len());
            whole.truncate(kept);
            whole
        }
        3 => {
            let place = rng.between(0, whole.len() - 1);
            whole[place] ^= rng.between(1, 255) as u8;
            whole
        }
        4..=6 => {
            // packets inside a packet, whose checksum or stuffing is wrong, or which is well-formed
            let (before, after) = (rng.between(0, 3), rng.between(0, 12));
            let inside = [noise(rng, before), whole.clone(), noise(rng, after)].concat();
            let mut outer = match rng.between(0, 2) {
                0 => packet_of(id(rng), &inside),
                1 => framed(id(rng), &inside),
                _ => framed(id(rng), &[&[0xFF, 0xFF, 0xFD][..], &inside].concat()),
            };
            if rng.one_in(2) {
                *outer.last_mut().expect("no packet is empty") ^= 1;
            }
            outer
        }
        _ => whole,
    }
}

/// Noise, packets good and bad, cut, and inside each other, one after the other.
pub fn segment(rng: &mut Rng, parts: usize, longest: usize) -> Vec<u8> {
    (0..parts).flat_map(|_| part(rng, longest)).collect()
}

/// A packet about as long as one can be, good or damaged, and what may stand beside it.
pub fn around_the_longest(rng: &mut Rng) -> Vec<u8> {
    let (before, stuffed) = (rng.between(0, 9), rng.between(1_018, 1_024));
    let mut packet = packet_of(rng.pick(&[0, 1, 252, 254]), &body_of_stuffed_length(rng, stuffed));
    if rng.one_in(3) {
        let place = rng.between(0, packet.len() - 1);
        packet[place] ^= 1 << rng.between(0, 7);
    }
    [noise(rng, before), packet, segment(rng, 1, 12)].concat()
}

/// The line in chunks of any size, empty ones too, cut anywhere.
pub fn chunks<'a>(rng: &mut Rng, line: &'a [u8]) -> Vec<&'a [u8]> {
    let largest = rng.pick(&[1, 3, 9, 40, 300, 3_000]);
    let mut chunks = Vec::new();
    let mut at = 0;
    while at < line.len() {
        let end = line.len().min(at + rng.between(0, largest));
        chunks.push(&line[at..end]);
        at = end;
    }
    chunks
}

/// Headers seven bytes apart, each promising the longest packet.
pub fn worst_noise(headers: usize) -> Vec<u8> {
    [0xFF, 0xFF, 0xFD, 0x00, 0x01, 0x00, 0x04].repeat(headers)
}

/// Any bytes and any count for a reader's record: often full, or with a count that is too large.
pub fn record(rng: &mut Rng) -> ([u8; MOST_HELD], usize) {
    let mut held = [0; MOST_HELD];
    let contents = match rng.between(0, 3) {
        0 => noise(rng, MOST_HELD),
        1 => rng.bytes(MOST_HELD),
        2 => segment(rng, 100, 30),
        _ => segment(rng, 4, 1_022),
    };
    let filled = contents.len().min(MOST_HELD);
    held[..filled].copy_from_slice(&contents[..filled]);
    held[filled..].fill(rng.byte());
    let count = match rng.between(0, 9) {
        0 => MOST_HELD,
        1 => rng.between(MOST_HELD - 12, MOST_HELD),
        2 => rng.between(MOST_HELD + 1, MOST_HELD + 20),
        3 => rng.pick(&[usize::MAX, usize::MAX - 1_030, 1 << 63, 1 << 32, (1 << 32) + 5, 1 << 16, 65_541]),
        4 | 5 => rng.between(0, 30),
        _ => rng.between(0, MOST_HELD),
    };
    (held, count)
}

/// A buffer and an offset in it: the packet fits exactly, is one byte short of room, has room to spare, or starts past the end.
pub fn place(rng: &mut Rng, count: usize) -> (usize, usize) {
    let at = if rng.one_in(2) { 0 } else { rng.between(0, 60) };
    match rng.between(0, 7) {
        0 | 1 => (at + count, at),
        2 => ((at + count).saturating_sub(1), at),
        3 => (at + count + rng.between(1, 40), at),
        4 => (rng.between(0, count + 60), at),
        5 => (at, at + rng.between(0, 3)),
        // counts that would wrap around where at and the packet's length were added
        6 => (rng.between(0, count + 20), usize::MAX - rng.between(0, count + 20)),
        _ => (rng.between(0, count + 20), rng.pick(&[usize::MAX, usize::MAX / 2, usize::MAX / 2 + 1, 1 << 32, 1 << 16])),
    }
}

/// Room for nothing, one byte short, exact, and one more.
pub fn rooms(exact: usize) -> [usize; 4] {
    [0, exact.saturating_sub(1), exact, exact + 1]
}

/// One of these, or any.
pub fn some_room(rng: &mut Rng, exact: usize) -> usize {
    if rng.one_in(5) {
        rng.between(0, exact + 40)
    } else {
        rng.pick(&rooms(exact))
    }
}

/// Forms of a body: as it is, which is mostly not well stuffed; stuffed; that with one byte changed, which may be either; and cut.
pub fn stuffed_well_or_not(rng: &mut Rng, raw: &[u8]) -> [Vec<u8>; 4] {
    let stuffed = stuff(raw);
    let mut changed = stuffed.clone();
    if !changed.is_empty() {
        let at = rng.between(0, changed.len() - 1);
        changed[at] = rng.pick(&[0xFF, 0xFD, 0x00]);
    }
    let cut = stuffed[..rng.between(0, stuffed.len())].to_vec();
    [raw.to_vec(), stuffed, changed, cut]
}

/// The IDs of the packets in a segment, in their order.
pub fn packet_ids(segment: &[u8]) -> Vec<u8> {
    let packet_id = |event| if let Event::Packet { id, .. } = event { Some(id) } else { None };
    reading(segment).into_iter().filter_map(|found| packet_id(found.event)).collect()
}

/// A log of these segments, as it was written, or damaged in one thing.
pub fn damaged_log(rng: &mut Rng, segments: &[&[u8]]) -> Vec<u8> {
    let mut log = log_of(segments).expect("some segments make no long log");
    let n = segments.len();
    match rng.between(0, 9) {
        0 => log.truncate(rng.between(0, log.len())),
        1 => log.push(rng.byte()),
        2 => drop(log.pop()),
        3 => set_number(&mut log, 4 * rng.between(0, 3), rng.pick(&[0, 1, 15, 17, 253, 255, u32::MAX])),
        4 if n > 0 => {
            let at = 16 + 4 * rng.between(0, 2 * n - 1);
            let number = u32::from_le_bytes([log[at], log[at + 1], log[at + 2], log[at + 3]]);
            set_number(&mut log, at, rng.pick(&[number.wrapping_add(1), number.wrapping_sub(1), 0, u32::MAX]));
        }
        5..=6 => {
            let most = n + usize::from(rng.one_in(4));
            let number = rng.between(0, most);
            // the number of an ID that has packets, or any
            let ids: Vec<u8> = segments.iter().flat_map(|segment| packet_ids(segment)).collect();
            let place = if ids.is_empty() || rng.one_in(3) { rng.between(0, 253) } else { usize::from(rng.pick(&ids).min(253)) };
            set_number(&mut log, 16 + 8 * n + 4 * place, number as u32);
        }
        7 => {
            let at = rng.between(0, log.len() - 1);
            log[at] ^= 1 << rng.between(0, 7);
        }
        _ => {}
    }
    log
}

/// A log of these segments as power loss may leave it: damaged in several things, mostly in header and directory. A start or a length
/// is often that of another segment, so that segments overlap, or one off.
pub fn cut_log(rng: &mut Rng, segments: &[&[u8]]) -> Vec<u8> {
    let mut log = damaged_log(rng, segments);
    let n = segments.len();
    for _ in 0..rng.between(0, 3) {
        if log.len() < 1_032 + 8 * n || n == 0 {
            break;
        }
        let at = 16 + 4 * rng.between(0, 2 * n - 1);
        let from = 16 + 4 * rng.between(0, 2 * n - 1);
        let number = u32::from_le_bytes([log[from], log[from + 1], log[from + 2], log[from + 3]]);
        let long = log.len() as u32;
        set_number(&mut log, at, rng.pick(&[number, number.wrapping_add(1), number.wrapping_sub(1), long, long - 1]));
    }
    match rng.between(0, 6) {
        0 => log.truncate(rng.between(0, 1_031.min(log.len()))),
        1 if log.len() > 1_032 => log.truncate(rng.between(1_032, log.len())),
        2 if log.len() > 4 => set_number(&mut log, 0, rng.pick(&[n as u32 + 1, n as u32 + 7, u32::MAX])),
        3 => log.extend(rng.bytes(9)),
        _ => {}
    }
    log
}

fn set_number(log: &mut [u8], at: usize, number: u32) {
    log[at..at + 4].copy_from_slice(&number.to_le_bytes());
}
