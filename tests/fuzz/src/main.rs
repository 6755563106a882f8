use compare::PROVED;
use fuzz::{case, options, replay, search, write, Command, Found, Limit, Mark, Progress, Replayed, HELP};
use std::path::Path;
use std::process::ExitCode;
use std::time::{Duration, SystemTime, UNIX_EPOCH};

const DIFFERENCE: u8 = 1;
const ERROR: u8 = 2;

fn main() -> ExitCode {
    let done = options(std::env::args().skip(1)).and_then(|command| match command {
        Command::Help => {
            println!("{HELP}");
            Ok(0)
        }
        Command::Print { seed, case: number } => {
            print!("{}", write(&case(seed, number), &format!("seed {seed}, case {number}")));
            Ok(0)
        }
        Command::Replay { file } => replay_file(&file),
        Command::Search { seconds, seed, folder } => search_for(seconds, seed.unwrap_or_else(seed_of_the_clock), &folder),
    });
    ExitCode::from(done.unwrap_or_else(|error| {
        eprintln!("fuzz: {error}");
        ERROR
    }))
}

fn seed_of_the_clock() -> u64 {
    let since = SystemTime::now().duration_since(UNIX_EPOCH).unwrap_or_default();
    // short enough to be typed
    (since.as_micros() % 1_000_000_000_000) as u64
}

fn search_for(seconds: u64, seed: u64, folder: &Path) -> Result<u8, String> {
    println!("seed {seed}, {seconds} s");
    let (mut progress, mark) = (Progress::new(), Mark::new(folder, seed)?);
    let (summary, report) = search(&PROVED, seed, Limit::Time(Duration::from_secs(seconds)), &mut progress, Some(&mark));
    progress.end();
    let Some(report) = report else {
        println!("no difference: {summary}");
        return Ok(0);
    };
    show(&report.found);
    println!("found in case {} after {summary}", report.number);
    let file = report.save(folder)?;
    println!("make replay FILE={}", file.display());
    Ok(DIFFERENCE)
}

fn replay_file(file: &Path) -> Result<u8, String> {
    match replay(&PROVED, file)? {
        Replayed::Same { calls } => {
            println!("no difference in {calls} calls");
            Ok(0)
        }
        Replayed::Differs(found) => {
            show(&found);
            Ok(DIFFERENCE)
        }
    }
}

fn show(found: &Found) {
    println!("operation {}: {}", found.operation + 1, found.difference);
}
