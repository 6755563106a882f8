//! What the tests in tests/ and the search in ../fuzz share.

mod board_pair;
mod calls;
pub mod device_inputs;
mod device_pair;
mod difference;
mod inputs;
mod lent;
mod log_calls;
mod noisy_line;
mod plans;
mod published;
mod reader_pair;
mod single_calls;
mod v1_reader_pair;

pub use board_pair::BoardPair;
pub use calls::{Calls, PROVED};
pub use device_pair::{DevicePair, Told, BAD_CHECKSUM, PACKET};
pub use difference::{hex, must_agree, Comparison, Difference};
pub use inputs::{body, body_of_stuffed_length, chunks, front, id, length, noise, packet, place, record, rooms, segment};
pub use inputs::{around_the_longest, cut_log, damaged_log, packet_ids, some_room, stuffed_well_or_not, worst_noise};
pub use inputs::{v1_length, v1_packet, v1_record, v1_segment};
pub use lent::{number, Guarded, Lent};
pub use log_calls::{compare_log_check, compare_log_last, compare_log_salvage, compare_log_write};
pub use noisy_line::{NoisyLine, Rest};
pub use plans::{any_plan, goals, joined, spoiled};
pub use published::{published, published_v1, Published, PublishedV1, Status};
pub use reader_pair::{ReaderPair, Stepped};
pub use single_calls::{compare_checksum, compare_encode, compare_flipped, compare_next_event, compare_plan, compare_plan_check};
pub use single_calls::{compare_status, compare_unstuff, compare_v1_encode, Encoded};
pub use v1_reader_pair::V1ReaderPair;
