//! The program: its options, what it prints, and its exit status.

use fuzz::{case, write};
use std::path::PathBuf;
use std::process::Command;

/// Exit status, standard output and standard error.
fn fuzz(arguments: &[&str]) -> (i32, String, String) {
    let output = Command::new(env!("CARGO_BIN_EXE_fuzz")).args(arguments).output().expect("the program runs");
    let text = |bytes| String::from_utf8(bytes).expect("the program prints text");
    (output.status.code().expect("the program ends by itself"), text(output.stdout), text(output.stderr))
}

fn file(name: &str, text: &str) -> PathBuf {
    let path = PathBuf::from(env!("CARGO_TARGET_TMPDIR")).join(name);
    std::fs::write(&path, text).expect("the folder can be written");
    path
}

#[test]
fn a_search() {
    let (status, out, err) = fuzz(&["--seconds", "1", "--seed", "5", "--folder", env!("CARGO_TARGET_TMPDIR")]);
    assert_eq!((status, &err[..]), (0, ""), "{out}");
    let lines: Vec<&str> = out.lines().collect();
    assert_eq!(lines[0], "seed 5, 1 s");
    let last = lines[lines.len() - 1];
    assert!(last.starts_with("no difference: ") && last.contains(" cases, ") && last.contains("seed 5"), "{last}");
}

/// The cases are those of every other process.
#[test]
fn printed_cases() {
    for number in [0, 3, 1_000_000] {
        let (status, out, _) = fuzz(&["--seed", "5", "--case", &number.to_string()]);
        assert_eq!((status, out), (0, write(&case(5, number), &format!("seed 5, case {number}"))));
    }
}

#[test]
fn replayed_files() {
    let good = file("good.txt", &write(&case(5, 1), ""));
    let (status, out, _) = fuzz(&["--replay", good.to_str().unwrap()]);
    assert!(status == 0 && out.starts_with("no difference in "), "{out}");

    let bad = file("bad.txt", "mednukals fuzz case, version 1\nmemory number=0\nfeed chunk=f\n");
    let (status, out, err) = fuzz(&["--replay", bad.to_str().unwrap()]);
    let wanted = format!("fuzz: {}: line 3: `chunk` has an odd number of digits: 1\n", bad.display());
    assert_eq!((status, &out[..], err), (2, "", wanted));

    let (status, _, err) = fuzz(&["--replay", "no/such/file"]);
    assert!(status == 2 && err.starts_with("fuzz: no/such/file: "), "{err}");
}

#[test]
fn options() {
    let (status, out, _) = fuzz(&["--help"]);
    assert!(status == 0 && out.contains("--replay FILE"), "{out}");
    for (arguments, wanted) in [
        (&["--second", "1"][..], "there is no option --second; --help lists all"),
        (&["--seconds"], "--seconds needs a value"),
        (&["--seconds", "1.5"], "--seconds needs a number, and not `1.5`"),
        (&["--seconds", "0"], "--seconds must be 1 or more"),
        (&["--seed", "-1"], "--seed needs a number, and not `-1`"),
        (&["--replay", "a", "--seed", "1"], "--replay stands alone"),
        (&["--case", "1"], "--case goes with --seed and with nothing else"),
    ] {
        assert_eq!(fuzz(arguments), (2, String::new(), format!("fuzz: {wanted}\n")));
    }
}
