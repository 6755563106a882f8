use exports::{Answer, BoardStep, Carried, Event, Found, Reader, Registered, Reply, Salvaged, Step};

/// ID, instruction, parameters, output buffer and offset.
pub type EncodeCall = fn(u8, u8, &[u8], &mut [u8], usize) -> i64;

/// Held bytes, their count, chunk and packet buffer, in Protocol 1.0 or Mercury.
pub type FeedV1Call = fn(&mut [u8; 258], &mut usize, &[u8], &mut [u8; 259]) -> Step;

/// The same without a chunk.
pub type GapV1Call = fn(&mut [u8; 258], &mut usize, &mut [u8; 259]) -> Step;

/// Table, registered write, kind, ID, body and reply buffer.
pub type DeviceCall = fn(&mut [u8], Registered, u8, u8, &[u8], &mut [u8]) -> Answer;

/// Table, registered write, packet as received, body buffer and reply buffer.
pub type ExchangeCall = fn(&mut [u8], Registered, &[u8], &mut [u8], &mut [u8]) -> Answer;

/// Table, registered write, kind, ID and body.
pub type CarryCall = fn(&mut [u8], Registered, u8, u8, &[u8]) -> Carried;

/// Table, registered write, packet as received and body buffer.
pub type CarryPacketCall = fn(&mut [u8], Registered, &[u8], &mut [u8]) -> Carried;

/// Held bytes, their count, chunk, packet buffer, table and registered write.
pub type BoardFeedCall = fn(&mut [u8; 1030], &mut usize, &[u8], &mut [u8; 1031], &mut [u8; 136], Registered) -> BoardStep;

/// The same without a chunk.
pub type BoardGapCall = fn(&mut [u8; 1030], &mut usize, &mut [u8; 1031], &mut [u8; 136], Registered) -> BoardStep;

/// The exports that are compared, as one value: a test of the comparison itself puts a wrong one in.
#[derive(Clone, Copy)]
pub struct Calls {
    pub crc16: fn(u16, &[u8]) -> u16,
    pub crc16_flipped: fn(u16, &[u8], usize) -> u16,
    pub encode: EncodeCall,
    pub p1_encode: EncodeCall,
    pub mercury_encode: EncodeCall,
    pub unstuff: fn(&[u8], &mut [u8]) -> i64,
    pub feed: fn(&mut [u8; 1030], &mut usize, &[u8], &mut [u8; 1031]) -> Step,
    pub gap: fn(&mut [u8; 1030], &mut usize, &mut [u8; 1031]) -> Step,
    pub reader_feed: fn(&mut Reader, &[u8], &mut [u8; 1031]) -> Step,
    pub reader_gap: fn(&mut Reader, &mut [u8; 1031]) -> Step,
    pub p1_feed: FeedV1Call,
    pub p1_gap: GapV1Call,
    pub mercury_feed: FeedV1Call,
    pub mercury_gap: GapV1Call,
    pub next_event: fn(&[u8], usize) -> Event,
    pub log_write: fn(&[u8], &[u32], &mut [u8]) -> i64,
    pub log_check: fn(&[u8]) -> i64,
    pub log_last: fn(&[u8], u8) -> Found,
    pub log_salvage: fn(&[u8], &mut [u8], &mut [u32]) -> Salvaged,
    pub fresh: fn(&mut [u8]) -> i64,
    pub measure: fn(&mut [u8], i32, u8) -> i64,
    pub device: DeviceCall,
    pub exchange: ExchangeCall,
    pub carry_out: CarryCall,
    pub carry_out_packet: CarryPacketCall,
    pub status: fn(Reply, &mut [u8]) -> i64,
    pub board_feed: BoardFeedCall,
    pub board_gap: BoardGapCall,
    pub plan: fn(&[i32], &mut [u8]) -> i64,
    pub plan_check: fn(&[i32], &[u8]) -> i64,
}

pub const PROVED: Calls = Calls {
    crc16: exports::crc16,
    crc16_flipped: exports::crc16_flipped,
    encode: exports::encode,
    p1_encode: exports::p1_encode,
    mercury_encode: exports::mercury_encode,
    unstuff: exports::unstuff,
    feed: exports::feed,
    gap: exports::gap,
    reader_feed: exports::reader_feed,
    reader_gap: exports::reader_gap,
    p1_feed: exports::p1_feed,
    p1_gap: exports::p1_gap,
    mercury_feed: exports::mercury_feed,
    mercury_gap: exports::mercury_gap,
    next_event: exports::next_event,
    log_write: exports::log_write,
    log_check: exports::log_check,
    log_last: exports::log_last,
    log_salvage: exports::log_salvage,
    fresh: exports::fresh,
    measure: exports::measure,
    device: exports::device,
    exchange: exports::exchange,
    carry_out: exports::carry_out,
    carry_out_packet: exports::carry_out_packet,
    status: exports::status,
    board_feed: exports::board_feed,
    board_gap: exports::board_gap,
    plan: exports::plan,
    plan_check: exports::plan_check,
};
