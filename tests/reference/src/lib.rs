//! The second implementation: the rules of the protocol as plainly as they can be said, for comparison alone. It shares nothing
//! with the proved code, has no table and no care for speed.

mod board;
mod checksum;
mod device;
mod log;
mod packet;
mod plain;
mod plan;
mod reader;
mod rng;
mod salvage;
mod stuffing;
mod table;
pub mod v1;

pub use board::{Board, BoardStep};
pub use checksum::{checksum, flipped};
pub use device::{carry_out_call, carry_out_packet_call, device_call, packet_call, status_call};
pub use device::{Answer as DeviceAnswer, Heard, Registered, Waiting};
pub use log::{log_check, log_last, log_of, log_write};
pub use packet::{encode, framed, packet_of, verdict, well_formed, Verdict, LONGEST_LENGTH, SHORTEST_LENGTH};
pub use plain::next_event;
pub use plan::{plan, plan_check, plan_into};
pub use reader::{feed, feed_record, gap, gap_record, reading, Event, Found, Given, Step, LONGEST_PACKET, MOST_HELD};
pub use rng::Rng;
pub use salvage::{log_salvage, salvage, Salvaged};
pub use stuffing::{stuff, stuff_into, unstuff, unstuff_into, well_stuffed};
pub use table::{fresh, fresh_call, measure_call, Table, TABLE_BYTES};

/// A call's answer: a count, or the number of a refusal. A refused call leaves all memory as it was.
pub type Answer = Result<usize, u8>;
