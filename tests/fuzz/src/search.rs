use crate::{case, run, shrink, write, Case, Found, Mark, Progress, Tally};
use compare::{Calls, Difference};
use std::fmt;
use std::panic::{catch_unwind, AssertUnwindSafe};
use std::path::{Path, PathBuf};
use std::time::{Duration, Instant};

/// When a search ends that finds no difference.
#[derive(Clone, Copy, PartialEq, Eq, Debug)]
pub enum Limit {
    Time(Duration),
    Cases(u64),
}

impl Limit {
    fn reached(self, summary: &Summary) -> bool {
        match self {
            Limit::Time(time) => summary.time >= time,
            Limit::Cases(cases) => summary.cases >= cases,
        }
    }

    pub fn left(self, summary: &Summary) -> String {
        match self {
            Limit::Time(time) => format!("{:.0} s left", time.saturating_sub(summary.time).as_secs_f64()),
            Limit::Cases(cases) => format!("{} cases left", cases - summary.cases),
        }
    }
}

/// What a search has done so far.
#[derive(Clone, PartialEq, Eq, Debug)]
pub struct Summary {
    pub seed: u64,
    pub cases: u64,
    pub bytes: u64,
    pub tally: Tally,
    pub time: Duration,
}

impl fmt::Display for Summary {
    fn fmt(&self, f: &mut fmt::Formatter) -> fmt::Result {
        let Summary { seed, cases, bytes, tally, time } = self;
        let seconds = time.as_secs_f64();
        let rate = *cases as f64 / seconds.max(0.001);
        write!(f, "{cases} cases, {} calls, {bytes} bytes, seed {seed}, {rate:.0} cases/s, {seconds:.0} s", tally.calls)
    }
}

/// The first case that differs, shrunk.
#[derive(Clone, PartialEq, Eq, Debug)]
pub struct Report {
    pub seed: u64,
    pub number: u64,
    pub case: Case,
    pub found: Found,
}

impl Report {
    /// The file that replays the case.
    pub fn save(&self, folder: &Path) -> Result<PathBuf, String> {
        let Report { seed, number, case, found } = self;
        let path = folder.join(format!("difference-{seed}-{number}.txt"));
        let Difference { export, what, .. } = &found.difference;
        let about = format!("seed {seed}, case {number}: {export} differs in {what}");
        std::fs::create_dir_all(folder)
            .and_then(|()| std::fs::write(&path, write(case, &about)))
            .map_err(|error| format!("{}: {error}", path.display()))?;
        Ok(path)
    }
}

/// Runs case after case to the first difference, or to the limit. Each is marked before it runs, where there is a mark.
pub fn search(calls: &Calls, seed: u64, limit: Limit, progress: &mut Progress, mark: Option<&Mark>) -> (Summary, Option<Report>) {
    let start = Instant::now();
    let mut summary = Summary { seed, cases: 0, bytes: 0, tally: Tally::default(), time: Duration::ZERO };
    while !limit.reached(&summary) {
        let number = summary.cases;
        if let Some(mark) = mark {
            mark.set(number);
        }
        let case = case(seed, number);
        let differs = attempt(calls, &case, &mut summary.tally);
        summary.cases += 1;
        summary.bytes += case.bytes() as u64;
        summary.time = start.elapsed();
        if let Some((case, found)) = differs {
            return (summary, Some(Report { seed, number, case, found }));
        }
        progress.tell(&summary, limit);
    }
    (summary, None)
}

/// What differs, and what is left of the case when it is shrunk. Where the reference itself fails, that is a finding too.
fn attempt(calls: &Calls, case: &Case, tally: &mut Tally) -> Option<(Case, Found)> {
    match catch_unwind(AssertUnwindSafe(|| run(calls, case, tally))) {
        Ok(ran) => ran.err().map(|found| shrink(calls, case, &found)),
        Err(_) => {
            let [what, expected, got] = ["a panic", "none", "the message above"].map(str::to_string);
            let difference = Difference { export: "the comparison", what, expected, got, given: "the whole case".to_string() };
            Some((case.clone(), Found { operation: case.operations.len().saturating_sub(1), difference }))
        }
    }
}
