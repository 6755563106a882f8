//! The program that prints the events of its input, beside the reading by the reference.

use compare::{noise, segment};
use reference::{packet_of, reading, unstuff, Event, Rng};
use std::fmt::Write as _;
use std::io::Write as _;
use std::path::Path;
use std::process::{Command, Stdio};

const MOST: usize = 65_536;

fn printed(input: &[u8]) -> String {
    let program = Path::new(env!("CARGO_MANIFEST_DIR")).join("../../build/bin/line");
    let mut child = Command::new(program)
        .stdin(Stdio::piped())
        .stdout(Stdio::piped())
        .spawn()
        .expect("build/bin/line is missing: run make build/bin/line first");
    let mut stdin = child.stdin.take().expect("the input is piped");
    let input = input.to_vec();
    // The program may stop reading before the input ends, so that writing fails, and it may print before it has read all.
    let writer = std::thread::spawn(move || drop(stdin.write_all(&input)));
    let output = child.wait_with_output().expect("the program runs");
    writer.join().expect("the input was written");
    assert!(output.status.success());
    String::from_utf8(output.stdout).expect("the program prints text")
}

fn wanted(input: &[u8]) -> String {
    let input = &input[..input.len().min(MOST)];
    let mut text = String::new();
    for found in reading(input) {
        match found.event {
            Event::Packet { id, bytes } => {
                let body = unstuff(&bytes[7..bytes.len() - 2]);
                writeln!(text, "packet {id} {} {}", body[0], body.len() - 1)
            }
            Event::BadChecksum { id } => writeln!(text, "crc {id}"),
        }
        .expect("a string takes it");
    }
    writeln!(text, "end {}", input.len()).expect("a string takes it");
    text
}

/// [L3 X19]
#[test]
fn a_packet_after_noise() {
    let input = [&[0xFF, 0xFF, 0xFD][..], &packet_of(1, &[1])].concat();
    assert_eq!(printed(&input), "packet 1 1 0\nend 13\n");
}

/// What README.md shows.
#[test]
fn the_sample_capture() {
    let sample = Path::new(env!("CARGO_MANIFEST_DIR")).join("../../examples/capture.bin");
    let input = std::fs::read(sample).expect("examples/capture.bin is there");
    let lines = "packet 1 1 0\ncrc 1\ncrc 2\npacket 1 2 4\npacket 2 1 0\npacket 1 3 6\nend 88\n";
    assert_eq!(printed(&input), lines);
    assert_eq!(wanted(&input), lines);
}

/// [L4]
#[test]
fn a_bad_checksum() {
    let mut input = packet_of(7, &[1]);
    *input.last_mut().expect("no packet is empty") ^= 1;
    assert_eq!(printed(&input), "crc 7\nend 10\n");
}

/// [L6]
#[test]
fn no_input() {
    assert_eq!(printed(&[]), "end 0\n");
}

/// One byte less, as many, and more than are read. The packet at the end is whole only where all its bytes are among these.
/// [L1 L5]
#[test]
fn as_much_as_is_read() {
    let packet = packet_of(1, &[1]);
    for length in [MOST - 1, MOST, MOST + 1, MOST + 9, MOST + 10, 2 * MOST] {
        let mut input = vec![0; length - packet.len()];
        input.extend(&packet);
        let end = format!("end {}\n", length.min(MOST));
        assert_eq!(printed(&input), if length <= MOST { format!("packet 1 1 0\n{end}") } else { end });
    }
}

/// [L2-L4 S7]
#[test]
fn segments() {
    let mut rng = Rng::new(31);
    for round in 0..200 {
        let input = if round % 10 == 0 { noise(&mut rng, 3_000) } else { segment(&mut rng, 20, 300) };
        assert_eq!(printed(&input), wanted(&input), "{input:02x?}");
    }
}

/// More than the program reads, of packets whole and damaged. [L2]
#[test]
fn long_segments() {
    let mut rng = Rng::new(32);
    for _ in 0..4 {
        let mut input = Vec::new();
        while input.len() < MOST + 2_000 {
            input.extend(segment(&mut rng, 4, 900));
        }
        assert!(printed(&input) == wanted(&input));
    }
}
