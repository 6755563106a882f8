//! A search for differences between the exports and the reference. A case is drawn as data, run on both, and where they differ
//! it is written to a file that replays it.

mod case;
mod generate;
mod mark;
mod options;
mod progress;
mod replay;
mod run;
mod search;
mod shrink;
mod text;

pub use case::{Case, Operation};
pub use generate::case;
pub use mark::Mark;
pub use options::{options, Command, HELP};
pub use progress::Progress;
pub use replay::{replay, Replayed};
pub use run::{run, Found, Tally};
pub use search::{search, Limit, Report, Summary};
pub use shrink::shrink;
pub use text::{parse, write, Malformed};
