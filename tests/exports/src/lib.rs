//! The exports of the proved code, as safe functions. include/mednukals.h says what each does; those under `test` are in an
//! archive of their own, which only these tests link.

/// A write that waits for Action, as it goes in and comes back.
#[repr(C)]
#[derive(Clone, Copy, PartialEq, Eq, Debug, Default)]
pub struct Registered {
    pub address: u16,
    pub count: u8,
    pub bytes: [u8; 8],
    pub min: i32,
    pub max: i32,
}

/// What a feeding or a gap call answers.
#[repr(C)]
#[derive(Clone, Copy, PartialEq, Eq, Debug)]
pub struct Step {
    pub taken: usize,
    pub count: usize,
    pub kind: u8,
    pub id: u8,
}

/// What the plain reader answers: all 0 where there is no event.
#[repr(C)]
#[derive(Clone, Copy, PartialEq, Eq, Debug, Default)]
pub struct Event {
    pub offset: usize,
    pub count: usize,
    pub next: usize,
    pub kind: u8,
    pub id: u8,
}

/// What the question to a log answers: `found` is 1 for a packet, 0 for none, or minus the number of a refusal.
#[repr(C)]
#[derive(Clone, Copy, PartialEq, Eq, Debug, Default)]
pub struct Found {
    pub found: i64,
    pub segment: usize,
    pub offset: usize,
}

/// What the salvage of a log answers: `count` is that of the bytes written, or minus the number of a refusal.
#[repr(C)]
#[derive(Clone, Copy, PartialEq, Eq, Debug, Default)]
pub struct Salvaged {
    pub count: i64,
    pub dropped: usize,
    pub index_changed: usize,
    pub leftover: usize,
    pub header_changed: u8,
}

/// What the device answers.
#[repr(C)]
#[derive(Clone, Copy, PartialEq, Eq, Debug)]
pub struct Answer {
    pub count: i64,
    pub slot: usize,
    pub registered: Registered,
}

/// A reply that waits for its slot; all 0 is silence.
#[repr(C)]
#[derive(Clone, Copy, PartialEq, Eq, Debug, Default)]
pub struct Reply {
    pub speaks: u8,
    pub id: u8,
    pub error: u8,
    pub count: u8,
    pub bytes: [u8; 8],
    pub slot: usize,
}

/// What the first of two calls answers.
#[repr(C)]
#[derive(Clone, Copy, PartialEq, Eq, Debug)]
pub struct Carried {
    pub refusal: i64,
    pub reply: Reply,
    pub registered: Registered,
}

/// What a call on a board answers. If `kind` is a refusal, all else but the registered write is 0.
#[repr(C)]
#[derive(Clone, Copy, PartialEq, Eq, Debug, Default)]
pub struct BoardStep {
    pub taken: usize,
    pub count: usize,
    pub kind: u8,
    pub id: u8,
    pub instruction: u8,
    pub error: u8,
    pub reply: Reply,
    pub registered: Registered,
}

/// A reader's record: the held bytes stand at the start.
#[repr(C)]
#[derive(Clone, PartialEq, Eq, Debug)]
pub struct Reader {
    pub bytes: [u8; 1030],
    pub count: usize,
}

mod raw {
    use super::test::Fed;
    use super::{Answer, BoardStep, Carried, Event, Found, Reader, Registered, Reply, Salvaged, Step};

    #[repr(C)]
    pub struct Verdict {
        pub kind: u8,
        pub id: u8,
        pub count: usize,
    }

    extern "C" {
        pub fn dxl_version() -> u32;
        pub fn dxl_crc16(start: u16, bytes: *const u8, n: usize) -> u16;
        pub fn dxl_crc16_flipped(crc: u16, flips: *const u8, n: usize, after: usize) -> u16;
        pub fn dxl_encode(
            id: u8,
            instruction: u8,
            params: *const u8,
            n_params: usize,
            out: *mut u8,
            n_out: usize,
            at: usize,
        ) -> i64;
        pub fn dxl_p1_encode(
            id: u8,
            instruction: u8,
            params: *const u8,
            n_params: usize,
            out: *mut u8,
            n_out: usize,
            at: usize,
        ) -> i64;
        pub fn dxl_mercury_encode(
            id: u8,
            instruction: u8,
            params: *const u8,
            n_params: usize,
            out: *mut u8,
            n_out: usize,
            at: usize,
        ) -> i64;
        pub fn dxl_unstuff(body: *const u8, n_body: usize, out: *mut u8, n_out: usize) -> i64;

        pub fn dxl_feed(held: *mut u8, count: *mut usize, chunk: *const u8, n: usize, packet: *mut u8) -> Step;
        pub fn dxl_gap(held: *mut u8, count: *mut usize, packet: *mut u8) -> Step;
        pub fn dxl_reader_feed(reader: *mut Reader, chunk: *const u8, n: usize, packet: *mut u8) -> Step;
        pub fn dxl_reader_gap(reader: *mut Reader, packet: *mut u8) -> Step;
        pub fn dxl_p1_feed(held: *mut u8, count: *mut usize, chunk: *const u8, n: usize, packet: *mut u8) -> Step;
        pub fn dxl_p1_gap(held: *mut u8, count: *mut usize, packet: *mut u8) -> Step;
        pub fn dxl_mercury_feed(held: *mut u8, count: *mut usize, chunk: *const u8, n: usize, packet: *mut u8) -> Step;
        pub fn dxl_mercury_gap(held: *mut u8, count: *mut usize, packet: *mut u8) -> Step;
        pub fn dxl_next_event(segment: *const u8, n: usize, from: usize) -> Event;

        pub fn dxl_log_write(
            bytes: *const u8,
            n: usize,
            lengths: *const u32,
            n_segments: usize,
            out: *mut u8,
            n_out: usize,
        ) -> i64;
        pub fn dxl_log_check(log: *const u8, n: usize) -> i64;
        pub fn dxl_log_last(log: *const u8, n: usize, id: u8) -> Found;
        pub fn dxl_log_salvage(
            log: *const u8,
            n: usize,
            out: *mut u8,
            n_out: usize,
            report: *mut u32,
            n_report: usize,
        ) -> Salvaged;

        pub fn dxl_fresh(table: *mut u8, n: usize) -> i64;
        pub fn dxl_measure(table: *mut u8, n: usize, position: i32, hardware_error: u8) -> i64;
        pub fn dxl_device(
            table: *mut u8,
            n_table: usize,
            registered: Registered,
            kind: u8,
            id: u8,
            body: *const u8,
            n_body: usize,
            reply: *mut u8,
            n_reply: usize,
        ) -> Answer;
        pub fn dxl_exchange(
            table: *mut u8,
            n_table: usize,
            registered: Registered,
            packet: *const u8,
            n_packet: usize,
            body: *mut u8,
            n_body: usize,
            reply: *mut u8,
            n_reply: usize,
        ) -> Answer;
        pub fn dxl_carry_out(
            table: *mut u8,
            n_table: usize,
            registered: Registered,
            kind: u8,
            id: u8,
            body: *const u8,
            n_body: usize,
        ) -> Carried;
        pub fn dxl_carry_out_packet(
            table: *mut u8,
            n_table: usize,
            registered: Registered,
            packet: *const u8,
            n_packet: usize,
            body: *mut u8,
            n_body: usize,
        ) -> Carried;
        pub fn dxl_status(reply: Reply, out: *mut u8, n_out: usize) -> i64;
        pub fn dxl_board_feed_parts(
            held: *mut u8,
            count: *mut usize,
            chunk: *const u8,
            n: usize,
            packet: *mut u8,
            table: *mut u8,
            registered: Registered,
        ) -> BoardStep;
        pub fn dxl_board_gap_parts(
            held: *mut u8,
            count: *mut usize,
            packet: *mut u8,
            table: *mut u8,
            registered: Registered,
        ) -> BoardStep;

        pub fn dxl_plan(goals: *const i32, n_goals: usize, out: *mut u8, n_out: usize) -> i64;
        pub fn dxl_plan_check(goals: *const i32, n_goals: usize, plan: *const u8, n_plan: usize) -> i64;

        pub fn dxl_test_crc16_small(start: u16, bytes: *const u8, n: usize) -> u16;
        pub fn dxl_test_crc16_fold(start: u16, bytes: *const u8, n: usize) -> u16;
        pub fn dxl_test_well_stuffed(body: *const u8, n: usize) -> u8;
        pub fn dxl_test_stuff(first: u8, rest: *const u8, n_rest: usize, out: *mut u8, n_out: usize) -> usize;
        pub fn dxl_test_verdict(segment: *const u8, n: usize, offset: usize) -> Verdict;
        pub fn dxl_test_p1_verdict(segment: *const u8, n: usize, offset: usize) -> Verdict;
        pub fn dxl_test_mercury_verdict(segment: *const u8, n: usize, offset: usize) -> Verdict;
        pub fn dxl_test_feed_value(held: *const u8, count: usize, chunk: *const u8, n: usize) -> Fed;
    }
}

// Safety, for all calls here: a slice's pointer and length are valid together, also where it is empty, and a `&mut` slice
// overlaps no other.

pub fn version() -> u32 {
    unsafe { raw::dxl_version() }
}

pub fn crc16(start: u16, bytes: &[u8]) -> u16 {
    unsafe { raw::dxl_crc16(start, bytes.as_ptr(), bytes.len()) }
}

pub fn crc16_flipped(crc: u16, flips: &[u8], after: usize) -> u16 {
    unsafe { raw::dxl_crc16_flipped(crc, flips.as_ptr(), flips.len(), after) }
}

pub fn encode(id: u8, instruction: u8, params: &[u8], out: &mut [u8], at: usize) -> i64 {
    unsafe { raw::dxl_encode(id, instruction, params.as_ptr(), params.len(), out.as_mut_ptr(), out.len(), at) }
}

pub fn p1_encode(id: u8, instruction: u8, params: &[u8], out: &mut [u8], at: usize) -> i64 {
    unsafe { raw::dxl_p1_encode(id, instruction, params.as_ptr(), params.len(), out.as_mut_ptr(), out.len(), at) }
}

pub fn mercury_encode(id: u8, instruction: u8, params: &[u8], out: &mut [u8], at: usize) -> i64 {
    unsafe { raw::dxl_mercury_encode(id, instruction, params.as_ptr(), params.len(), out.as_mut_ptr(), out.len(), at) }
}

pub fn unstuff(body: &[u8], out: &mut [u8]) -> i64 {
    unsafe { raw::dxl_unstuff(body.as_ptr(), body.len(), out.as_mut_ptr(), out.len()) }
}

pub fn feed(held: &mut [u8; 1030], count: &mut usize, chunk: &[u8], packet: &mut [u8; 1031]) -> Step {
    unsafe { raw::dxl_feed(held.as_mut_ptr(), count, chunk.as_ptr(), chunk.len(), packet.as_mut_ptr()) }
}

pub fn gap(held: &mut [u8; 1030], count: &mut usize, packet: &mut [u8; 1031]) -> Step {
    unsafe { raw::dxl_gap(held.as_mut_ptr(), count, packet.as_mut_ptr()) }
}

pub fn reader_feed(reader: &mut Reader, chunk: &[u8], packet: &mut [u8; 1031]) -> Step {
    unsafe { raw::dxl_reader_feed(reader, chunk.as_ptr(), chunk.len(), packet.as_mut_ptr()) }
}

pub fn reader_gap(reader: &mut Reader, packet: &mut [u8; 1031]) -> Step {
    unsafe { raw::dxl_reader_gap(reader, packet.as_mut_ptr()) }
}

pub fn p1_feed(held: &mut [u8; 258], count: &mut usize, chunk: &[u8], packet: &mut [u8; 259]) -> Step {
    unsafe { raw::dxl_p1_feed(held.as_mut_ptr(), count, chunk.as_ptr(), chunk.len(), packet.as_mut_ptr()) }
}

pub fn p1_gap(held: &mut [u8; 258], count: &mut usize, packet: &mut [u8; 259]) -> Step {
    unsafe { raw::dxl_p1_gap(held.as_mut_ptr(), count, packet.as_mut_ptr()) }
}

pub fn mercury_feed(held: &mut [u8; 258], count: &mut usize, chunk: &[u8], packet: &mut [u8; 259]) -> Step {
    unsafe { raw::dxl_mercury_feed(held.as_mut_ptr(), count, chunk.as_ptr(), chunk.len(), packet.as_mut_ptr()) }
}

pub fn mercury_gap(held: &mut [u8; 258], count: &mut usize, packet: &mut [u8; 259]) -> Step {
    unsafe { raw::dxl_mercury_gap(held.as_mut_ptr(), count, packet.as_mut_ptr()) }
}

pub fn next_event(segment: &[u8], from: usize) -> Event {
    unsafe { raw::dxl_next_event(segment.as_ptr(), segment.len(), from) }
}

pub fn log_write(bytes: &[u8], lengths: &[u32], out: &mut [u8]) -> i64 {
    unsafe { raw::dxl_log_write(bytes.as_ptr(), bytes.len(), lengths.as_ptr(), lengths.len(), out.as_mut_ptr(), out.len()) }
}

pub fn log_check(log: &[u8]) -> i64 {
    unsafe { raw::dxl_log_check(log.as_ptr(), log.len()) }
}

pub fn log_last(log: &[u8], id: u8) -> Found {
    unsafe { raw::dxl_log_last(log.as_ptr(), log.len(), id) }
}

pub fn log_salvage(log: &[u8], out: &mut [u8], report: &mut [u32]) -> Salvaged {
    let (n_out, n_report) = (out.len(), report.len());
    unsafe { raw::dxl_log_salvage(log.as_ptr(), log.len(), out.as_mut_ptr(), n_out, report.as_mut_ptr(), n_report) }
}

pub fn fresh(table: &mut [u8]) -> i64 {
    unsafe { raw::dxl_fresh(table.as_mut_ptr(), table.len()) }
}

pub fn measure(table: &mut [u8], position: i32, hardware_error: u8) -> i64 {
    unsafe { raw::dxl_measure(table.as_mut_ptr(), table.len(), position, hardware_error) }
}

pub fn device(table: &mut [u8], registered: Registered, kind: u8, id: u8, body: &[u8], reply: &mut [u8]) -> Answer {
    unsafe {
        raw::dxl_device(
            table.as_mut_ptr(),
            table.len(),
            registered,
            kind,
            id,
            body.as_ptr(),
            body.len(),
            reply.as_mut_ptr(),
            reply.len(),
        )
    }
}

pub fn exchange(table: &mut [u8], registered: Registered, packet: &[u8], body: &mut [u8], reply: &mut [u8]) -> Answer {
    unsafe {
        raw::dxl_exchange(
            table.as_mut_ptr(),
            table.len(),
            registered,
            packet.as_ptr(),
            packet.len(),
            body.as_mut_ptr(),
            body.len(),
            reply.as_mut_ptr(),
            reply.len(),
        )
    }
}

pub fn carry_out(table: &mut [u8], registered: Registered, kind: u8, id: u8, body: &[u8]) -> Carried {
    unsafe { raw::dxl_carry_out(table.as_mut_ptr(), table.len(), registered, kind, id, body.as_ptr(), body.len()) }
}

pub fn carry_out_packet(table: &mut [u8], registered: Registered, packet: &[u8], body: &mut [u8]) -> Carried {
    unsafe {
        raw::dxl_carry_out_packet(
            table.as_mut_ptr(),
            table.len(),
            registered,
            packet.as_ptr(),
            packet.len(),
            body.as_mut_ptr(),
            body.len(),
        )
    }
}

pub fn status(reply: Reply, out: &mut [u8]) -> i64 {
    unsafe { raw::dxl_status(reply, out.as_mut_ptr(), out.len()) }
}

pub fn board_feed(
    held: &mut [u8; 1030],
    count: &mut usize,
    chunk: &[u8],
    packet: &mut [u8; 1031],
    table: &mut [u8; 136],
    registered: Registered,
) -> BoardStep {
    unsafe {
        raw::dxl_board_feed_parts(
            held.as_mut_ptr(),
            count,
            chunk.as_ptr(),
            chunk.len(),
            packet.as_mut_ptr(),
            table.as_mut_ptr(),
            registered,
        )
    }
}

pub fn board_gap(
    held: &mut [u8; 1030],
    count: &mut usize,
    packet: &mut [u8; 1031],
    table: &mut [u8; 136],
    registered: Registered,
) -> BoardStep {
    unsafe { raw::dxl_board_gap_parts(held.as_mut_ptr(), count, packet.as_mut_ptr(), table.as_mut_ptr(), registered) }
}

pub fn plan(goals: &[i32], out: &mut [u8]) -> i64 {
    unsafe { raw::dxl_plan(goals.as_ptr(), goals.len(), out.as_mut_ptr(), out.len()) }
}

pub fn plan_check(goals: &[i32], plan: &[u8]) -> i64 {
    unsafe { raw::dxl_plan_check(goals.as_ptr(), goals.len(), plan.as_ptr(), plan.len()) }
}

/// Exports for tests alone.
pub mod test {
    use super::{raw, Reader, Step};

    /// What a feeding call by value gives.
    #[repr(C)]
    #[derive(Clone, PartialEq, Eq, Debug)]
    pub struct Fed {
        pub step: Step,
        pub packet: [u8; 1031],
        pub reader: Reader,
    }

    /// The checksum by the leaf with sixteen numbers.
    pub fn crc16_small(start: u16, bytes: &[u8]) -> u16 {
        unsafe { raw::dxl_test_crc16_small(start, bytes.as_ptr(), bytes.len()) }
    }

    /// The checksum by the leaf without a table.
    pub fn crc16_fold(start: u16, bytes: &[u8]) -> u16 {
        unsafe { raw::dxl_test_crc16_fold(start, bytes.as_ptr(), bytes.len()) }
    }

    /// 1 or 0.
    pub fn well_stuffed(body: &[u8]) -> u8 {
        unsafe { raw::dxl_test_well_stuffed(body.as_ptr(), body.len()) }
    }

    /// Writes the stuffed form as far as there is room, and answers how many bytes that were.
    pub fn stuff(first: u8, rest: &[u8], out: &mut [u8]) -> usize {
        unsafe { raw::dxl_test_stuff(first, rest.as_ptr(), rest.len(), out.as_mut_ptr(), out.len()) }
    }

    /// The verdict on the bytes from offset on in an open segment, as (kind, ID, count).
    pub fn verdict(segment: &[u8], offset: usize) -> (u8, u8, usize) {
        let verdict = unsafe { raw::dxl_test_verdict(segment.as_ptr(), segment.len(), offset) };
        (verdict.kind, verdict.id, verdict.count)
    }

    /// The verdict of Protocol 1.0, likewise.
    pub fn p1_verdict(segment: &[u8], offset: usize) -> (u8, u8, usize) {
        let verdict = unsafe { raw::dxl_test_p1_verdict(segment.as_ptr(), segment.len(), offset) };
        (verdict.kind, verdict.id, verdict.count)
    }

    /// The verdict of Mercury, likewise.
    pub fn mercury_verdict(segment: &[u8], offset: usize) -> (u8, u8, usize) {
        let verdict = unsafe { raw::dxl_test_mercury_verdict(segment.as_ptr(), segment.len(), offset) };
        (verdict.kind, verdict.id, verdict.count)
    }

    /// The feeding call on a record that is made of the held bytes and their count.
    pub fn feed_value(held: &[u8; 1030], count: usize, chunk: &[u8]) -> Fed {
        unsafe { raw::dxl_test_feed_value(held.as_ptr(), count, chunk.as_ptr(), chunk.len()) }
    }
}
