//! Exports that are wrong in one thing each.

use compare::{Calls, PROVED};
use exports::{Answer, BoardStep, Carried, Event, Found, Reader, Registered, Reply, Salvaged, Step};
use std::hint::black_box;

pub struct Wrong {
    /// The export that differs.
    pub export: &'static str,
    /// In what it differs.
    pub what: &'static str,
    pub calls: Calls,
}

pub fn all() -> Vec<Wrong> {
    let wrong = |export, what, calls| Wrong { export, what, calls };
    vec![
        wrong("dxl_crc16", "the checksum", Calls { crc16: long_checksum, ..PROVED }),
        wrong("dxl_crc16_flipped", "the checksum", Calls { crc16_flipped: half_the_bytes_after, ..PROVED }),
        wrong("dxl_encode", "the answer", Calls { encode: late_refusal, ..PROVED }),
        wrong("dxl_encode", "the bytes around input and output", Calls { encode: past_the_end, ..PROVED }),
        wrong("dxl_p1_encode", "the answer", Calls { p1_encode: exports::mercury_encode, ..PROVED }),
        wrong("dxl_p1_encode", "the output buffer", Calls { p1_encode: length_left_out_of_the_sum, ..PROVED }),
        wrong("dxl_mercury_encode", "the answer", Calls { mercury_encode: exports::p1_encode, ..PROVED }),
        wrong("dxl_mercury_encode", "the answer", Calls { mercury_encode: longest_refused, ..PROVED }),
        wrong("dxl_unstuff", "the answer", Calls { unstuff: room_first, ..PROVED }),
        wrong("dxl_unstuff", "the output buffer", Calls { unstuff: clears_the_rest, ..PROVED }),
        wrong("dxl_feed", "the count of held bytes, with the words around it", Calls { feed: drops_a_byte, ..PROVED }),
        wrong("dxl_feed", "the chunk", Calls { feed: writes_its_chunk, ..PROVED }),
        wrong("dxl_feed", "the answer", Calls { feed: looks_into_the_checksum, ..PROVED }),
        wrong("dxl_feed", "the answer", Calls { feed: no_longest_packet, ..PROVED }),
        wrong("dxl_feed", "the count of held bytes, with the words around it", Calls { feed: skips_a_failed_packet, ..PROVED }),
        wrong("dxl_gap", "the packet buffer", Calls { gap: leaves_the_packet, ..PROVED }),
        wrong("dxl_reader_feed", "the count of held bytes", Calls { reader_feed: forgets_the_count, ..PROVED }),
        wrong("dxl_reader_gap", "the held bytes", Calls { reader_gap: leaves_a_held_byte, ..PROVED }),
        wrong("dxl_p1_feed", "the answer", Calls { p1_feed: no_packet_of_253, ..PROVED }),
        wrong("dxl_p1_feed", "the answer", Calls { p1_feed: accepts_what_protocol_2_holds, ..PROVED }),
        wrong("dxl_p1_gap", "the packet buffer", Calls { p1_gap: leaves_the_v1_packet, ..PROVED }),
        wrong("dxl_mercury_feed", "the count of held bytes, with the words around it", Calls { mercury_feed: skips_a_failed_v1_packet, ..PROVED }),
        wrong("dxl_mercury_feed", "the held bytes", Calls { mercury_feed: leaves_a_byte_past_the_count, ..PROVED }),
        wrong("dxl_mercury_gap", "the count of held bytes, with the words around it", Calls { mercury_gap: never_finishes, ..PROVED }),
        wrong("dxl_next_event", "the answer", Calls { next_event: passes_a_failed_packet, ..PROVED }),
        wrong("dxl_next_event", "the answer", Calls { next_event: counts_from_one, ..PROVED }),
        wrong("dxl_next_event", "the answer", Calls { next_event: loses_the_last, ..PROVED }),
        wrong("dxl_next_event", "the answer", Calls { next_event: stops_where_one_waits, ..PROVED }),
        wrong("dxl_next_event", "the lent input", Calls { next_event: writes_its_segment, ..PROVED }),
        wrong("dxl_log_write", "the answer", Calls { log_write: wraps_the_sum, ..PROVED }),
        wrong("dxl_log_write", "the output buffer", Calls { log_write: writes_before_the_tests, ..PROVED }),
        wrong("dxl_log_write", "the output buffer", Calls { log_write: counts_bad_checksums, ..PROVED }),
        wrong("dxl_log_check", "the answer", Calls { log_check: overlooks_what_follows, ..PROVED }),
        wrong("dxl_log_check", "the answer", Calls { log_check: trusts_the_index, ..PROVED }),
        wrong("dxl_log_last", "the answer", Calls { log_last: counts_from_the_start_of_the_file, ..PROVED }),
        wrong("dxl_log_last", "the answer", Calls { log_last: id_first, ..PROVED }),
        wrong("dxl_log_last", "the answer", Calls { log_last: the_first_in_it, ..PROVED }),
        wrong("dxl_log_last", "the answer", Calls { log_last: goes_on_to_other_segments, ..PROVED }),
        wrong("dxl_log_salvage", "the answer", Calls { log_salvage: leaves_out_the_header, ..PROVED }),
        wrong("dxl_log_salvage", "the answer", Calls { log_salvage: counts_the_dropped_as_kept, ..PROVED }),
        wrong("dxl_log_salvage", "the answer", Calls { log_salvage: half_a_place_is_one, ..PROVED }),
        wrong("dxl_log_salvage", "the report", Calls { log_salvage: the_reasons_swapped, ..PROVED }),
        wrong("dxl_log_salvage", "the report", Calls { log_salvage: clears_the_report, ..PROVED }),
        wrong("dxl_log_salvage", "the output buffer", Calls { log_salvage: keeps_the_old_index, ..PROVED }),
        wrong("dxl_plan", "the answer", Calls { plan: one_byte_too_little_room, ..PROVED }),
        wrong("dxl_plan", "the output buffer", Calls { plan: clears_behind_the_plan, ..PROVED }),
        wrong("dxl_plan_check", "the answer", Calls { plan_check: accepts_a_subset, ..PROVED }),
        wrong("dxl_plan_check", "the answer", Calls { plan_check: accepts_a_byte_behind, ..PROVED }),
        wrong("dxl_fresh", "the answer", Calls { fresh: any_length, ..PROVED }),
        wrong("dxl_measure", "the table", Calls { measure: short_position, ..PROVED }),
        wrong("dxl_device", "the reply buffer", Calls { device: other_error, ..PROVED }),
        wrong("dxl_device", "the table", Calls { device: stores_one_by_one, ..PROVED }),
        wrong("dxl_device", "the table", Calls { device: narrows_past_the_goal, ..PROVED }),
        wrong("dxl_device", "the table", Calls { device: compares_max_alone, ..PROVED }),
        wrong("dxl_device", "the answer", Calls { device: keeps_registered, ..PROVED }),
        wrong("dxl_exchange", "the body buffer", Calls { exchange: body_before_the_tests, ..PROVED }),
        wrong("dxl_exchange", "the answer", Calls { exchange: hears_a_wrong_checksum, ..PROVED }),
        wrong("dxl_carry_out", "the answer", Calls { carry_out: settles_no_alert, ..PROVED }),
        wrong("dxl_carry_out_packet", "the answer", Calls { carry_out_packet: loses_the_slot, ..PROVED }),
        wrong("dxl_status", "the answer", Calls { status: silence_first, ..PROVED }),
        wrong("dxl_status", "the answer", Calls { status: sends_past_the_count, ..PROVED }),
        wrong("dxl_device", "the bytes around the table", Calls { device: before_the_table, ..PROVED }),
        wrong("dxl_device", "the answer", Calls { device: bulk_slot_of_the_id, ..PROVED }),
        wrong("dxl_device", "the table", Calls { device: cut_entry_left_out, ..PROVED }),
        wrong("dxl_board_feed_parts", "the answer", Calls { board_feed: state_before_held, ..PROVED }),
        wrong("dxl_board_feed_parts", "the answer", Calls { board_feed: checksum_error_of_all, ..PROVED }),
        wrong("dxl_board_feed_parts", "the answer", Calls { board_feed: instruction_by_the_new_id, ..PROVED }),
        wrong("dxl_board_feed_parts", "the held bytes", Calls { board_feed: clears_further_bytes, ..PROVED }),
        wrong("dxl_board_feed_parts", "the packet buffer", Calls { board_feed: leaves_the_stuffing, ..PROVED }),
        wrong("dxl_board_gap_parts", "the answer", Calls { board_gap: bad_checksum_drops, ..PROVED }),
        wrong("dxl_board_gap_parts", "the packet buffer", Calls { board_gap: clears_the_packet, ..PROVED }),
    ]
}

fn long_checksum(start: u16, bytes: &[u8]) -> u16 {
    exports::crc16(start, bytes) ^ u16::from(bytes.len() > 1_024)
}

/// Of the count of bytes after the flips only 32 bits are looked at.
fn half_the_bytes_after(crc: u16, flips: &[u8], after: usize) -> u16 {
    exports::crc16_flipped(crc, flips, after as u32 as usize)
}

/// Room is tested before the length.
fn late_refusal(id: u8, instruction: u8, params: &[u8], out: &mut [u8], at: usize) -> i64 {
    match exports::encode(id, instruction, params, out, at) {
        -12 if out.len() < 1_031 => -13,
        answer => answer,
    }
}

fn past_the_end(id: u8, instruction: u8, params: &[u8], out: &mut [u8], at: usize) -> i64 {
    let answer = exports::encode(id, instruction, params, out, at);
    if answer > 0 {
        // the byte is one of those around the buffer, and the buffer's memory goes on there
        unsafe { *black_box(out.as_mut_ptr_range().end) ^= 1 };
    }
    answer
}

fn length_left_out_of_the_sum(id: u8, instruction: u8, params: &[u8], out: &mut [u8], at: usize) -> i64 {
    let answer = exports::p1_encode(id, instruction, params, out, at);
    if answer > 0 {
        let last = at + answer as usize - 1;
        out[last] = out[last].wrapping_add(out[at + 3]);
    }
    answer
}

/// A length of 255 counts as too long.
fn longest_refused(id: u8, instruction: u8, params: &[u8], out: &mut [u8], at: usize) -> i64 {
    if params.len() == 253 && id <= 252 {
        return -12;
    }
    exports::mercury_encode(id, instruction, params, out, at)
}

/// Room is tested before the stuffing.
fn room_first(body: &[u8], out: &mut [u8]) -> i64 {
    match exports::unstuff(body, out) {
        -14 if out.is_empty() => -13,
        answer => answer,
    }
}

fn clears_the_rest(body: &[u8], out: &mut [u8]) -> i64 {
    let answer = exports::unstuff(body, out);
    if answer >= 0 {
        out[answer as usize..].fill(0);
    }
    answer
}

fn drops_a_byte(held: &mut [u8; 1030], count: &mut usize, chunk: &[u8], packet: &mut [u8; 1031]) -> Step {
    let step = exports::feed(held, count, chunk, packet);
    if step.kind == 0 && *count > 500 {
        *count -= 1;
    }
    step
}

fn writes_its_chunk(held: &mut [u8; 1030], count: &mut usize, chunk: &[u8], packet: &mut [u8; 1031]) -> Step {
    let step = exports::feed(held, count, chunk, packet);
    if chunk.len() > 20 {
        // the chunk is a copy that the comparison made, in memory that can be written
        unsafe { *black_box(chunk.as_ptr().cast_mut()) ^= 1 };
    }
    step
}

/// Takes FF FF at the end of a body for stuffing where the checksum begins with FD: no packet.
fn looks_into_the_checksum(held: &mut [u8; 1030], count: &mut usize, chunk: &[u8], packet: &mut [u8; 1031]) -> Step {
    let step = exports::feed(held, count, chunk, packet);
    if step.kind == 1 && packet[step.count - 4..step.count - 1] == [0xFF, 0xFF, 0xFD] {
        *packet = [0; 1031];
        return Step { kind: 0, id: 0, count: 0, ..step };
    }
    step
}

fn no_longest_packet(held: &mut [u8; 1030], count: &mut usize, chunk: &[u8], packet: &mut [u8; 1031]) -> Step {
    let step = exports::feed(held, count, chunk, packet);
    if step.count == 1_031 {
        *packet = [0; 1031];
        return Step { kind: 0, id: 0, count: 0, ..step };
    }
    step
}

fn no_packet_of_253(held: &mut [u8; 258], count: &mut usize, chunk: &[u8], packet: &mut [u8; 259]) -> Step {
    let step = exports::p1_feed(held, count, chunk, packet);
    if step.kind == 1 && step.id == 253 {
        *packet = [0; 259];
        return Step { kind: 0, id: 0, count: 0, ..step };
    }
    step
}

/// Reading goes on behind a packet with a wrong checksum and not at the next byte.
fn skips_a_failed_v1_packet(held: &mut [u8; 258], count: &mut usize, chunk: &[u8], packet: &mut [u8; 259]) -> Step {
    let step = exports::mercury_feed(held, count, chunk, packet);
    if step.kind == 2 {
        // the first byte of the failed packet is gone
        let rest = 3 + usize::from(held[2]);
        held.copy_within(rest.., 0);
        held[258 - rest..].fill(0);
        *count -= rest;
    }
    step
}

/// 25 only above 1,030: of a count between, as much is taken as a record has.
fn accepts_what_protocol_2_holds(held: &mut [u8; 258], count: &mut usize, chunk: &[u8], packet: &mut [u8; 259]) -> Step {
    if *count <= 1_030 {
        *count = (*count).min(258);
    }
    exports::p1_feed(held, count, chunk, packet)
}

/// A gap call that gives no event leaves the packet buffer as it was.
fn leaves_the_v1_packet(held: &mut [u8; 258], count: &mut usize, packet: &mut [u8; 259]) -> Step {
    let kept = *packet;
    let step = exports::p1_gap(held, count, packet);
    if step.kind == 0 {
        *packet = kept;
    }
    step
}

fn leaves_a_byte_past_the_count(held: &mut [u8; 258], count: &mut usize, chunk: &[u8], packet: &mut [u8; 259]) -> Step {
    let last = held[257];
    let step = exports::mercury_feed(held, count, chunk, packet);
    if *count < 258 {
        held[257] = last;
    }
    step
}

/// Where a packet waits, the gap keeps it.
fn never_finishes(held: &mut [u8; 258], count: &mut usize, packet: &mut [u8; 259]) -> Step {
    let (before, held_before) = (*count, *held);
    let step = exports::mercury_gap(held, count, packet);
    if step.kind == 0 && before > 0 {
        (*count, *held) = (before, held_before);
    }
    step
}

/// Reading goes on behind a packet with a wrong checksum and not at the next byte.
fn skips_a_failed_packet(held: &mut [u8; 1030], count: &mut usize, chunk: &[u8], packet: &mut [u8; 1031]) -> Step {
    let step = exports::feed(held, count, chunk, packet);
    if step.kind == 2 {
        // the first byte of the failed packet is gone
        let rest = 6 + usize::from(held[4]) + 256 * usize::from(held[5]);
        held.copy_within(rest.., 0);
        held[1_030 - rest..].fill(0);
        *count -= rest;
    }
    step
}

fn leaves_the_packet(held: &mut [u8; 1030], count: &mut usize, packet: &mut [u8; 1031]) -> Step {
    let before = *packet;
    let step = exports::gap(held, count, packet);
    if step.kind == 2 {
        *packet = before;
    }
    step
}

/// The count of held bytes is not stored.
fn forgets_the_count(reader: &mut Reader, chunk: &[u8], packet: &mut [u8; 1031]) -> Step {
    let before = reader.count;
    let step = exports::reader_feed(reader, chunk, packet);
    reader.count = before;
    step
}

/// A finished gap does not clear the record.
fn leaves_a_held_byte(reader: &mut Reader, packet: &mut [u8; 1031]) -> Step {
    let first = reader.bytes[0];
    let step = exports::reader_gap(reader, packet);
    if step.kind == 0 {
        reader.bytes[0] = first;
    }
    step
}

/// Reading goes on behind a packet with a wrong checksum and not at the next byte.
fn passes_a_failed_packet(segment: &[u8], from: usize) -> Event {
    let event = exports::next_event(segment, from);
    if event.kind == 2 {
        let size = 7 + usize::from(segment[event.offset + 5]) + 256 * usize::from(segment[event.offset + 6]);
        return Event { next: event.offset + size, ..event };
    }
    event
}

/// Places are counted from 1.
fn counts_from_one(segment: &[u8], from: usize) -> Event {
    let event = exports::next_event(segment, from);
    Event { offset: event.offset + usize::from(event.kind > 0), ..event }
}

/// A packet that ends with the segment is not found.
fn loses_the_last(segment: &[u8], from: usize) -> Event {
    let event = exports::next_event(segment, from);
    if event.kind == 1 && event.next == segment.len() {
        return Event::default();
    }
    event
}

/// A packet that is not all there ends the reading.
fn stops_where_one_waits(segment: &[u8], from: usize) -> Event {
    let event = exports::next_event(segment, from);
    let waits = |place| exports::test::verdict(segment, place).0 == 3;
    if event.kind > 0 && (from..event.offset).any(waits) {
        return Event::default();
    }
    event
}

fn writes_its_segment(segment: &[u8], from: usize) -> Event {
    let event = exports::next_event(segment, from);
    if segment.len() > 20 {
        // the segment is a copy that the comparison made, in memory that can be written
        unsafe { *black_box(segment.as_ptr().cast_mut()) ^= 1 };
    }
    event
}

/// The lengths are added up in 32 bits.
fn wraps_the_sum(bytes: &[u8], lengths: &[u32], out: &mut [u8]) -> i64 {
    let answer = exports::log_write(bytes, lengths, out);
    let wrapped = lengths.iter().fold(0u32, |sum, &length| sum.wrapping_add(length));
    if answer == -31 && !lengths.is_empty() && wrapped as usize == bytes.len() {
        0
    } else {
        answer
    }
}

fn writes_before_the_tests(bytes: &[u8], lengths: &[u32], out: &mut [u8]) -> i64 {
    let answer = exports::log_write(bytes, lengths, out);
    if answer < 0 && out.len() >= 4 {
        out[..4].copy_from_slice(&(lengths.len() as u32).to_le_bytes());
    }
    answer
}

/// The index has the segments of packets with a wrong checksum too.
fn counts_bad_checksums(bytes: &[u8], lengths: &[u32], out: &mut [u8]) -> i64 {
    let answer = exports::log_write(bytes, lengths, out);
    if answer > 0 && lengths.len() == 1 {
        let event = exports::next_event(bytes, 0);
        if event.kind == 2 && event.id < 253 {
            out[24 + 4 * usize::from(event.id)] = 1;
        }
    }
    answer
}

fn file_end(log: &[u8]) -> usize {
    let number = |at: usize| u32::from_le_bytes([log[at], log[at + 1], log[at + 2], log[at + 3]]) as usize;
    let n = number(0);
    if n == 0 {
        1_032
    } else {
        number(8 + 8 * n) + number(12 + 8 * n)
    }
}

fn overlooks_what_follows(log: &[u8]) -> i64 {
    let answer = exports::log_check(log);
    let n = log.get(..4).map_or(0, |count| usize::from(count[0]) + 256 * usize::from(count[1]));
    if answer == -31 && log.len() > 1_032 + 8 * n && file_end(log) < log.len() {
        return exports::log_check(&log[..file_end(log)]);
    }
    answer
}

fn trusts_the_index(log: &[u8]) -> i64 {
    exports::log_check(log).max(if exports::log_last(log, 1).found == -31 { -31 } else { 0 })
}

fn counts_from_the_start_of_the_file(log: &[u8], id: u8) -> Found {
    let found = exports::log_last(log, id);
    if found.found != 1 {
        return found;
    }
    let at = 16 + 8 * found.segment;
    let start = u32::from_le_bytes([log[at], log[at + 1], log[at + 2], log[at + 3]]) as usize;
    Found { offset: start + found.offset, ..found }
}

/// The ID is tested before the layout.
fn id_first(log: &[u8], id: u8) -> Found {
    if id == 253 || id == 255 {
        return Found { found: -32, ..Found::default() };
    }
    exports::log_last(log, id)
}

fn the_first_in_it(log: &[u8], id: u8) -> Found {
    let found = exports::log_last(log, id);
    if found.found != 1 {
        return found;
    }
    let at = 16 + 8 * found.segment;
    let number = |at: usize| u32::from_le_bytes([log[at], log[at + 1], log[at + 2], log[at + 3]]) as usize;
    let segment = &log[number(at)..number(at) + number(at + 4)];
    let mut event = exports::next_event(segment, 0);
    while event.kind != 1 || event.id != id {
        event = exports::next_event(segment, event.next);
    }
    Found { offset: event.offset, ..found }
}

/// Where the segment that the index names has no such packet, the first segment is asked.
fn goes_on_to_other_segments(log: &[u8], id: u8) -> Found {
    let found = exports::log_last(log, id);
    if found.found != 0 || log[0] == 0 {
        return found;
    }
    let number = |at: usize| u32::from_le_bytes([log[at], log[at + 1], log[at + 2], log[at + 3]]) as usize;
    let segment = &log[number(16)..number(16) + number(20)];
    let mut event = exports::next_event(segment, 0);
    while event.kind != 0 {
        if event.kind == 1 && event.id == id {
            return Found { found: 1, segment: 0, offset: event.offset };
        }
        event = exports::next_event(segment, event.next);
    }
    found
}

/// A plan that just fits is refused.
fn one_byte_too_little_room(goals: &[i32], out: &mut [u8]) -> i64 {
    let size = exports::plan(goals, &mut vec![0; 1_300]);
    if size > 0 && size as usize == out.len() {
        return -13;
    }
    exports::plan(goals, out)
}

fn clears_behind_the_plan(goals: &[i32], out: &mut [u8]) -> i64 {
    let size = exports::plan(goals, out);
    if size > 0 {
        out[size as usize..].fill(0);
    }
    size
}

/// Some wanted ID may be missing.
fn accepts_a_subset(goals: &[i32], plan: &[u8]) -> i64 {
    let wanted = (0..goals.len()).filter(|&id| goals[id] >= 0);
    let without = |id: usize| [&goals[..id], &[-1], &goals[id + 1..]].concat();
    let subset = wanted.take(10).any(|id| exports::plan_check(&without(id), plan) == 1);
    exports::plan_check(goals, plan).max(if subset { 1 } else { -42 })
}

fn accepts_a_byte_behind(goals: &[i32], plan: &[u8]) -> i64 {
    let shorter = &plan[..plan.len().saturating_sub(1)];
    exports::plan_check(goals, plan).max(if exports::plan_check(goals, shorter) == 1 { 1 } else { -42 })
}

fn any_length(table: &mut [u8]) -> i64 {
    exports::fresh(table).max(if table.len() > 136 { 0 } else { -21 })
}

/// The highest byte of the position is not stored.
fn short_position(table: &mut [u8], position: i32, hardware_error: u8) -> i64 {
    exports::measure(table, position & 0x00FF_FFFF, hardware_error)
}

/// Where a read meets an undefined byte, the error is that of a wrong length.
fn other_error(table: &mut [u8], registered: Registered, kind: u8, id: u8, body: &[u8], reply: &mut [u8]) -> Answer {
    let answer = exports::device(table, registered, kind, id, body, reply);
    if answer.count == 11 && body.first() == Some(&2) && reply[8] & 0x7F == 7 {
        reply[8] = reply[8] & 0x80 | 5;
        let sum = exports::crc16(0, &reply[..9]).to_le_bytes();
        reply[9..11].copy_from_slice(&sum);
    }
    answer
}

/// Of a write of both limits that is refused, the first is stored.
fn stores_one_by_one(table: &mut [u8], registered: Registered, kind: u8, id: u8, body: &[u8], reply: &mut [u8]) -> Answer {
    let answer = exports::device(table, registered, kind, id, body, reply);
    if answer.count == 11 && body.len() == 11 && body[..3] == [3, 48, 0] && reply[8] & 0x7F == 6 {
        table[48..52].copy_from_slice(&body[3..7]);
    }
    answer
}

/// A limit is stored also where it leaves the goal position outside, as long as min is not above max.
fn narrows_past_the_goal(table: &mut [u8], registered: Registered, kind: u8, id: u8, body: &[u8], reply: &mut [u8]) -> Answer {
    let answer = exports::device(table, registered, kind, id, body, reply);
    if let (11, &[3, at @ (48 | 52), 0, ref data @ ..]) = (answer.count, body) {
        if reply[8] & 0x7F == 6 && data.len() == 4 {
            let mut new = table.to_vec();
            new[usize::from(at)..usize::from(at) + 4].copy_from_slice(data);
            let number = |at: usize| i32::from_le_bytes(new[at..at + 4].try_into().unwrap());
            if number(52) <= number(48) {
                table.copy_from_slice(&new);
            }
        }
    }
    answer
}

/// Action goes by max position alone: a registered write that carries another min position is carried out all the same.
fn compares_max_alone(table: &mut [u8], registered: Registered, kind: u8, id: u8, body: &[u8], reply: &mut [u8]) -> Answer {
    let min = table.get(52..56).map_or(0, |bytes| i32::from_le_bytes(bytes.try_into().unwrap()));
    let suiting = Registered { min, ..registered };
    let left = |lent| {
        let mut table = table.to_vec();
        exports::device(&mut table, lent, kind, id, body, &mut reply.to_vec());
        table
    };
    // where the write is refused all the same, only the number would differ
    let lent = if left(suiting) == left(registered) { registered } else { suiting };
    exports::device(table, lent, kind, id, body, reply)
}

/// Action does not drop the registered write.
fn keeps_registered(table: &mut [u8], registered: Registered, kind: u8, id: u8, body: &[u8], reply: &mut [u8]) -> Answer {
    let answer = exports::device(table, registered, kind, id, body, reply);
    if body == [5] {
        return Answer { registered, ..answer };
    }
    answer
}

/// The body buffer is written before the table is looked at.
fn body_before_the_tests(table: &mut [u8], registered: Registered, packet: &[u8], body: &mut [u8], reply: &mut [u8]) -> Answer {
    let answer = exports::exchange(table, registered, packet, body, reply);
    if answer.count == -21 && packet.len() >= 9 {
        exports::unstuff(&packet[7..packet.len() - 2], body);
    }
    answer
}

/// The checksum of a packet as received is put right first.
fn hears_a_wrong_checksum(table: &mut [u8], registered: Registered, packet: &[u8], body: &mut [u8], reply: &mut [u8]) -> Answer {
    let mut mended = packet.to_vec();
    if let Some(end) = packet.len().checked_sub(2) {
        let sum = exports::crc16(0, &packet[..end]);
        mended[end..].copy_from_slice(&sum.to_le_bytes());
    }
    exports::exchange(table, registered, &mended, body, reply)
}

fn before_the_table(table: &mut [u8], registered: Registered, kind: u8, id: u8, body: &[u8], reply: &mut [u8]) -> Answer {
    let answer = exports::device(table, registered, kind, id, body, reply);
    if body.first() == Some(&8) && answer.count > 0 {
        // one of the bytes around the table
        unsafe { *black_box(table.as_mut_ptr().wrapping_sub(1)) ^= 0x40 };
    }
    answer
}

/// A Bulk Read is answered in the slot of the ID, as a Ping is, and not in that of the entry.
fn bulk_slot_of_the_id(table: &mut [u8], registered: Registered, kind: u8, id: u8, body: &[u8], reply: &mut [u8]) -> Answer {
    let answer = exports::device(table, registered, kind, id, body, reply);
    if answer.count > 0 && id == 254 && body.first() == Some(&0x92) {
        return Answer { slot: usize::from(reply[4]), ..answer };
    }
    answer
}

/// The last entry of a Bulk Write, where it is cut short, does not void the list.
fn cut_entry_left_out(table: &mut [u8], registered: Registered, kind: u8, id: u8, body: &[u8], reply: &mut [u8]) -> Answer {
    let mut whole = body.len().min(1);
    if body.first() == Some(&0x93) {
        while let [_, _, _, low, high, ..] = body[whole..] {
            let next = whole + 5 + usize::from(u16::from_le_bytes([low, high]));
            if next > body.len() {
                break;
            }
            whole = next;
        }
        return exports::device(table, registered, kind, id, &body[..whole], reply);
    }
    exports::device(table, registered, kind, id, body, reply)
}

/// The alert bit is left to the second call.
fn settles_no_alert(table: &mut [u8], registered: Registered, kind: u8, id: u8, body: &[u8]) -> Carried {
    let mut carried = exports::carry_out(table, registered, kind, id, body);
    carried.reply.error &= 0x7F;
    carried
}

fn loses_the_slot(table: &mut [u8], registered: Registered, packet: &[u8], body: &mut [u8]) -> Carried {
    let mut carried = exports::carry_out_packet(table, registered, packet, body);
    carried.reply.slot = 0;
    carried
}

/// Silence is looked at before the refusals.
fn silence_first(reply: Reply, out: &mut [u8]) -> i64 {
    if reply.speaks == 0 { 0 } else { exports::status(reply, out) }
}

/// All eight bytes are sent, whatever the count says.
fn sends_past_the_count(reply: Reply, out: &mut [u8]) -> i64 {
    let count = if reply.count <= 8 { 8 } else { reply.count };
    exports::status(Reply { count, ..reply }, out)
}

/// Of the header only the count is compared.
fn leaves_out_the_header(log: &[u8], out: &mut [u8], report: &mut [u32]) -> Salvaged {
    let salvaged = exports::log_salvage(log, out, report);
    if salvaged.count < 0 {
        return salvaged;
    }
    Salvaged { header_changed: u8::from(log[..4] != out[..4]), ..salvaged }
}

/// What lies in a dropped segment within the file is not counted as left over.
fn counts_the_dropped_as_kept(log: &[u8], out: &mut [u8], report: &mut [u32]) -> Salvaged {
    let salvaged = exports::log_salvage(log, out, report);
    let at = report.first().map_or(0, |&number| 16 + 8 * number as usize);
    if salvaged.dropped == 0 || salvaged.leftover == 0 || at + 8 > log.len() {
        return salvaged;
    }
    let length = u32::from_le_bytes([log[at + 4], log[at + 5], log[at + 6], log[at + 7]]) as usize;
    Salvaged { leftover: salvaged.leftover.saturating_sub(length), ..salvaged }
}

/// A report with an odd count of numbers has one place more.
fn half_a_place_is_one(log: &[u8], out: &mut [u8], report: &mut [u32]) -> Salvaged {
    let salvaged = exports::log_salvage(log, out, report);
    if salvaged.count != -13 || out.len() < log.len() || report.len() % 2 == 0 {
        return salvaged;
    }
    let mut longer = [&report[..], &[0]].concat();
    let answer = exports::log_salvage(log, &mut vec![0; log.len()], &mut longer);
    if answer.count < 0 {
        salvaged
    } else {
        answer
    }
}

fn the_reasons_swapped(log: &[u8], out: &mut [u8], report: &mut [u32]) -> Salvaged {
    let salvaged = exports::log_salvage(log, out, report);
    report.chunks_exact_mut(2).take(salvaged.dropped).for_each(|place| place[1] = 3 - place[1]);
    salvaged
}

fn clears_the_report(log: &[u8], out: &mut [u8], report: &mut [u32]) -> Salvaged {
    let salvaged = exports::log_salvage(log, out, report);
    if salvaged.count >= 0 {
        report.iter_mut().skip(2 * salvaged.dropped).for_each(|number| *number = 0);
    }
    salvaged
}

fn keeps_the_old_index(log: &[u8], out: &mut [u8], report: &mut [u32]) -> Salvaged {
    let salvaged = exports::log_salvage(log, out, report);
    if salvaged.count >= 0 && log[..4] == out[..4] {
        let at = 16 + 8 * usize::from(log[0]);
        out[at..at + 1_016].copy_from_slice(&log[at..at + 1_016]);
    }
    salvaged
}

type Held = [u8; 1030];
type Packet = [u8; 1031];
type Table = [u8; 136];

/// Table and registered write are looked at before the count of held bytes.
fn state_before_held(
    held: &mut Held,
    n: &mut usize,
    chunk: &[u8],
    packet: &mut Packet,
    table: &mut Table,
    write: Registered,
) -> BoardStep {
    let step = exports::board_feed(held, n, chunk, packet, table, write);
    match step.kind {
        25 if table[7] > 252 => BoardStep { kind: 22, ..step },
        25 if write.count > 8 => BoardStep { kind: 23, ..step },
        _ => step,
    }
}

/// A bad checksum with 254 counts as one with the own ID.
fn checksum_error_of_all(
    held: &mut Held,
    n: &mut usize,
    chunk: &[u8],
    packet: &mut Packet,
    table: &mut Table,
    write: Registered,
) -> BoardStep {
    let step = exports::board_feed(held, n, chunk, packet, table, write);
    if step.kind == 2 && step.id == 254 {
        return BoardStep { error: 3, ..step };
    }
    step
}

fn instruction_by_the_new_id(
    held: &mut Held,
    n: &mut usize,
    chunk: &[u8],
    packet: &mut Packet,
    table: &mut Table,
    write: Registered,
) -> BoardStep {
    let step = exports::board_feed(held, n, chunk, packet, table, write);
    if step.id != table[7] && step.id != 254 {
        return BoardStep { instruction: 0, ..step };
    }
    step
}

/// All of the record past the count becomes 0.
fn clears_further_bytes(
    held: &mut Held,
    n: &mut usize,
    chunk: &[u8],
    packet: &mut Packet,
    table: &mut Table,
    write: Registered,
) -> BoardStep {
    let step = exports::board_feed(held, n, chunk, packet, table, write);
    if step.kind < 3 {
        held[*n..].fill(0);
    }
    step
}

fn leaves_the_stuffing(
    held: &mut Held,
    n: &mut usize,
    chunk: &[u8],
    packet: &mut Packet,
    table: &mut Table,
    write: Registered,
) -> BoardStep {
    let mut received = [0; 1031];
    exports::feed(&mut held.clone(), &mut n.clone(), chunk, &mut received);
    let step = exports::board_feed(held, n, chunk, packet, table, write);
    packet[..step.count].copy_from_slice(&received[..step.count]);
    step
}

fn bad_checksum_drops(held: &mut Held, n: &mut usize, packet: &mut Packet, table: &mut Table, write: Registered) -> BoardStep {
    let step = exports::board_gap(held, n, packet, table, write);
    if step.kind == 2 && step.error == 3 {
        return BoardStep { registered: Registered::default(), ..step };
    }
    step
}

/// Where there is no packet.
fn clears_the_packet(held: &mut Held, n: &mut usize, packet: &mut Packet, table: &mut Table, write: Registered) -> BoardStep {
    let step = exports::board_gap(held, n, packet, table, write);
    if step.kind == 0 || step.kind == 2 {
        packet.fill(0);
    }
    step
}
