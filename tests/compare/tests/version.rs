//! The version of the archive, against the header's.
use exports::version;
use std::fs;

/// 1.2.3 is 10203. [G6]
#[test]
fn version_of_the_header() {
    let header = fs::read_to_string(format!("{}/../../include/mednukals.h", env!("CARGO_MANIFEST_DIR"))).expect("the header");
    let text = header.lines().find_map(|line| line.strip_prefix("#define DXL_VERSION \"")).expect("its version");
    let parts = text.trim_end_matches('"').split('.').map(|part| part.parse::<u32>().expect("a number"));
    assert_eq!(version(), parts.fold(0, |number, part| number * 100 + part));
}
