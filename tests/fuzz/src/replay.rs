use crate::{parse, run, Found, Tally};
use compare::Calls;
use std::path::Path;

/// What came of a replayed file.
#[derive(Clone, PartialEq, Eq, Debug)]
pub enum Replayed {
    Same { calls: u64 },
    Differs(Found),
}

/// Runs the case in a file. An error says what is wrong with the file.
pub fn replay(calls: &Calls, file: &Path) -> Result<Replayed, String> {
    let text = std::fs::read_to_string(file).map_err(|error| format!("{}: {error}", file.display()))?;
    let case = parse(&text).map_err(|malformed| format!("{}: {malformed}", file.display()))?;
    let mut tally = Tally::default();
    Ok(match run(calls, &case, &mut tally) {
        Ok(()) => Replayed::Same { calls: tally.calls },
        Err(found) => Replayed::Differs(found),
    })
}
