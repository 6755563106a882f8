use std::path::PathBuf;

pub const HELP: &str = "\
fuzz [--seconds N] [--seed S] [--folder DIR]   compare all exports with the second implementation, for N seconds (default 600)
fuzz --replay FILE                             run the case in a file that an earlier search has written
fuzz --seed S --case N                         print case N of the search with seed S, in the form of such a file
fuzz --help                                    print this

The seed decides all cases; without one the clock gives it, and it is printed. A search ends at the first difference and writes
the case to DIR (default build/fuzz). While it runs, running-S.txt there names the case under way. Exit status: 0 no difference, 1 a difference, 2 an error.";

#[derive(Clone, PartialEq, Eq, Debug)]
pub enum Command {
    Search { seconds: u64, seed: Option<u64>, folder: PathBuf },
    Print { seed: u64, case: u64 },
    Replay { file: PathBuf },
    Help,
}

#[derive(Default)]
struct Given {
    seconds: Option<u64>,
    seed: Option<u64>,
    case: Option<u64>,
    folder: Option<PathBuf>,
    replay: Option<PathBuf>,
}

pub fn options(mut arguments: impl Iterator<Item = String>) -> Result<Command, String> {
    let mut given = Given::default();
    while let Some(option) = arguments.next() {
        if option == "--help" {
            return Ok(Command::Help);
        }
        let mut value = || arguments.next().ok_or(format!("{option} needs a value"));
        match option.as_str() {
            "--seconds" => given.seconds = Some(number(&option, &value()?)?),
            "--seed" => given.seed = Some(number(&option, &value()?)?),
            "--case" => given.case = Some(number(&option, &value()?)?),
            "--folder" => given.folder = Some(value()?.into()),
            "--replay" => given.replay = Some(value()?.into()),
            _ => return Err(format!("there is no option {option}; --help lists all")),
        }
    }
    command(given)
}

fn number(option: &str, value: &str) -> Result<u64, String> {
    value.parse().map_err(|_| format!("{option} needs a number, and not `{value}`"))
}

fn command(given: Given) -> Result<Command, String> {
    match given {
        Given { replay: Some(file), seconds: None, seed: None, case: None, folder: None } => Ok(Command::Replay { file }),
        Given { replay: Some(_), .. } => Err("--replay stands alone".to_string()),
        Given { case: Some(case), seed: Some(seed), seconds: None, folder: None, .. } => Ok(Command::Print { seed, case }),
        Given { case: Some(_), .. } => Err("--case goes with --seed and with nothing else".to_string()),
        Given { seconds: Some(0), .. } => Err("--seconds must be 1 or more".to_string()),
        Given { seconds, seed, folder, .. } => {
            Ok(Command::Search { seconds: seconds.unwrap_or(600), seed, folder: folder.unwrap_or_else(|| "build/fuzz".into()) })
        }
    }
}
