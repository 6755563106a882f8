use crate::{run, Case, Found, Tally};
use compare::Calls;

/// Shrinking ends after so many runs.
const MOST_RUNS: usize = 1_000;

/// Drops operations while the same export still differs: first large parts of the list, at last one by one.
pub fn shrink(calls: &Calls, case: &Case, found: &Found) -> (Case, Found) {
    let mut best = (up_to(case, found), found.clone());
    let mut size = best.0.operations.len().div_ceil(2);
    let mut runs = 0;
    while size > 0 && runs < MOST_RUNS {
        let before = best.0.operations.len();
        let mut at = 0;
        while at < best.0.operations.len() && runs < MOST_RUNS {
            runs += 1;
            match differs(calls, &without(&best.0, at, size), found) {
                Some(smaller) => best = smaller,
                None => at += size,
            }
        }
        // at the end once more, as long as that drops one
        size = if size == 1 && best.0.operations.len() < before { 1 } else { size / 2 };
    }
    best
}

/// What follows the difference has no part in it.
fn up_to(case: &Case, found: &Found) -> Case {
    Case { memory: case.memory, operations: case.operations[..=found.operation].to_vec() }
}

fn without(case: &Case, at: usize, size: usize) -> Case {
    let end = case.operations.len().min(at + size);
    let operations = [&case.operations[..at], &case.operations[end..]].concat();
    Case { memory: case.memory, operations }
}

fn differs(calls: &Calls, case: &Case, wanted: &Found) -> Option<(Case, Found)> {
    let found = run(calls, case, &mut Tally::default()).err()?;
    (found.difference.export == wanted.difference.export).then(|| (up_to(case, &found), found))
}
