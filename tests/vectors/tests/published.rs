//! The published packets, as the program of the second implementation reads and answers them, started on its own: it prints what
//! the proved program is held to, and that is what exchanges.txt and the printed replies say.

use compare::{published, Published, Status};
use reference::packet_of;
use std::io::Write as _;
use std::process::{Command, Stdio};
use std::str::FromStr;

const INPUT: &[u8] = include_bytes!("../../../crates/vectors/stdin");
const STORED: &str = include_str!("../../../crates/vectors/stdout");
const EXCHANGES: &str = include_str!("../exchanges.txt");

struct Exchange {
    /// Of the instruction and of the reply: document and line, as `Published` has it.
    place: String,
    reply: Option<String>,
    id: u8,
    position: u16,
    answer: &'static str,
}

fn exchanges() -> Vec<Exchange> {
    EXCHANGES.lines().filter(|line| !line.starts_with('#')).map(exchange).collect()
}

fn exchange(row: &'static str) -> Exchange {
    let fields: Vec<&str> = row.split('|').map(str::trim).collect();
    let [document, line, device, reply, answer] = fields[..] else {
        panic!("not five fields: {row}");
    };
    let place = |line: &str| format!("{document} line {line}");
    let (id, position) = match device.split(' ').collect::<Vec<_>>()[..] {
        [id] | [id, "after", _] => (id, "0"),
        [id, "at", position] => (id, position),
        _ => panic!("no device: {row}"),
    };
    Exchange {
        place: place(line),
        reply: (reply != "-").then(|| place(reply)),
        id: number(id),
        position: number(position),
        answer,
    }
}

fn number<T: FromStr>(word: &str) -> T {
    word.parse().unwrap_or_else(|_| panic!("no such number: {word}"))
}

/// What is printed of one packet and one device.
struct Section {
    place: &'static str,
    what: &'static str,
    lines: Vec<&'static str>,
}

fn sections() -> Vec<Section> {
    let mut sections: Vec<Section> = Vec::new();
    for line in STORED.lines() {
        if let Some(title) = line.strip_prefix("== ") {
            let (place, what) = title.split_once(": ").expect("a title has a place and says what it is");
            sections.push(Section { place, what, lines: Vec::new() });
        } else {
            sections.last_mut().expect("a title comes first").lines.push(line);
        }
    }
    sections
}

impl Section {
    /// The bytes of the last answer, none for silence. Where there was no event there is no answer.
    fn answer(&self) -> Option<Vec<u8>> {
        let last = self.lines.iter().rfind(|line| **line == "silent" || line.starts_with("status "))?;
        let bytes = last.split(' ').skip(2);
        Some(bytes.map(|byte| u8::from_str_radix(byte, 16).expect("a status is printed in hexadecimal")).collect())
    }
}

/// The last segment in the input of each section.
fn last_segments() -> Vec<&'static [u8]> {
    let mut segments = Vec::new();
    let mut rest = INPUT;
    while let [kind, count, after @ ..] = rest {
        let (bytes, next) = after.split_at(usize::from(*count));
        match kind {
            0 if bytes.starts_with(b"== ") => segments.push(&[][..]),
            2 => *segments.last_mut().expect("a title comes first") = bytes,
            _ => {}
        }
        rest = next;
    }
    segments
}

fn at<'a>(packets: &'a [Published], place: &str) -> &'a Published {
    packets.iter().find(|packet| packet.place == place).unwrap_or_else(|| panic!("packets.txt has no {place}"))
}

#[test]
fn prints_the_stored_file() {
    let mut child = Command::new(env!("CARGO_BIN_EXE_vectors"))
        .stdin(Stdio::piped())
        .stdout(Stdio::piped())
        .spawn()
        .expect("the program starts");
    let mut stdin = child.stdin.take().expect("the input is piped");
    // All input is read before anything is printed.
    stdin.write_all(INPUT).expect("the input is read");
    drop(stdin);
    let output = child.wait_with_output().expect("the program runs");
    assert!(output.status.success());
    assert!(output.stdout == STORED.as_bytes(), "it is not crates/vectors/stdout that is printed");
    assert_eq!(STORED.lines().last(), Some(format!("end {}", INPUT.len()).as_str()));
}

#[test]
fn the_input_has_the_packets() {
    let (packets, sections, segments) = (published(), sections(), last_segments());
    assert_eq!(sections.len(), segments.len());
    for (section, segment) in sections.iter().zip(segments) {
        assert_eq!(segment, at(&packets, section.place).bytes, "{}", section.place);
    }
}

/// A section for each exchange, and one for each packet that is no instruction, in the order of packets.txt.
#[test]
fn every_packet_has_its_sections() {
    let exchanges = exchanges();
    let mut wanted = Vec::new();
    for packet in published() {
        let devices = exchanges.iter().filter(|exchange| exchange.place == packet.place).count();
        wanted.extend(vec![packet.place.clone(); devices.max(1)]);
    }
    assert_eq!(sections().iter().map(|section| section.place).collect::<Vec<_>>(), wanted);
}

/// Every instruction has an exchange, and every line that prints a status or a part of one is the reply in exactly one.
#[test]
fn every_line_has_its_exchange() {
    let exchanges = exchanges();
    for packet in published() {
        let heard = exchanges.iter().any(|exchange| exchange.place == packet.place);
        let instruction = packet.status == Status::Misprint || (packet.status == Status::Good && packet.bytes[7] != 0x55);
        assert_eq!(heard, instruction, "{}", packet.place);
        let joined = packet.place.contains('+');
        if !instruction && !joined {
            let replies = exchanges.iter().filter(|exchange| exchange.reply.as_ref() == Some(&packet.place));
            assert_eq!(replies.count(), 1, "{} is not the reply in one exchange", packet.place);
        }
    }
}

#[test]
fn answers() {
    let (packets, exchanges, sections) = (published(), exchanges(), sections());
    let mut printed = 0;
    let mut of_exchanges = sections.iter().filter(|section| exchanges.iter().any(|exchange| exchange.place == section.place));
    for Exchange { place, reply, id, position, answer } in &exchanges {
        let section = of_exchanges.next().expect("every exchange has its section");
        assert_eq!((section.place, section.lines[1]), (place.as_str(), format!("device {id} {position}").as_str()));
        let given = section.answer().unwrap_or_else(|| panic!("{place}: no event"));
        let reply = reply.as_ref().map(|reply| &at(&packets, reply).bytes);
        if *answer == "as printed" {
            assert_eq!(Some(&given), reply, "{place}, device {id}");
            printed += 1;
            continue;
        }
        assert_ne!(Some(&given), reply, "{place}, device {id}: the reply is as printed");
        let (answer, reason) = answer.split_once(": ").unwrap_or((answer, ""));
        let wanted = match answer.strip_prefix("error ") {
            Some(error) => packet_of(*id, &[0x55, number(error)]),
            None if answer == "silent" => vec![],
            None => panic!("{place}: no such answer: {answer}"),
        };
        assert_eq!(given, wanted, "{place}, device {id}");
        assert!(!reason.is_empty() || (reply.is_none() && wanted.is_empty()), "{place}, device {id}: no reason is given");
    }
    assert!(of_exchanges.next().is_none());
    assert_eq!((exchanges.len(), printed), (62, 33));
}

/// What is no instruction: a status is heard in silence, and a part of one is no event.
#[test]
fn statuses_and_parts() {
    let (packets, exchanges) = (published(), exchanges());
    for section in sections() {
        let packet = at(&packets, section.place);
        match packet.status {
            Status::Part => assert_eq!(section.answer(), None, "{}", section.place),
            _ if exchanges.iter().any(|exchange| exchange.place == section.place) => {}
            _ => assert_eq!(section.answer(), Some(vec![]), "{}", section.place),
        }
    }
}

/// What the examples store: 512, 150 and 170 as goal position (116), 200 as goal velocity (104), by Reg Write (69) and Action.
#[test]
fn stored_bytes() {
    for section in sections() {
        let stored: Vec<&str> = section.lines.iter().filter(|line| line.starts_with("stored ")).copied().collect();
        let wanted: &[&str] = match (section.what, section.lines[1]) {
            ("Write to 1", _) => &["stored 117 2"],
            ("Reg Write to 1", _) => &["stored 69 1"],
            ("Action to 1", _) => &["stored 69 1", "stored 69 0", "stored 104 200"],
            ("Sync Write to all", "device 1 0") => &["stored 116 150"],
            ("Sync Write to all", "device 2 0") => &["stored 116 170"],
            _ => &[],
        };
        assert_eq!(stored, wanted, "{}", section.place);
    }
}

/// The maker's instructions that are undefined here: 02 to the own ID, silence to all. Misprints are no instructions.
#[test]
fn undefined_instructions() {
    let packets = published();
    let mut seen = Vec::new();
    for exchange in exchanges() {
        let packet = at(&packets, &exchange.place);
        let instruction = packet.bytes[7];
        if packet.status == Status::Good && !matches!(instruction, 1..=6 | 8 | 0x82 | 0x83 | 0x92 | 0x93) {
            let wanted = if packet.bytes[4] == 254 { "silent: " } else { "error 02: " };
            assert!(exchange.answer.starts_with(wanted), "{}: {}", exchange.place, exchange.answer);
            seen.push(instruction);
        }
    }
    seen.sort();
    seen.dedup();
    assert_eq!(seen, [0x10, 0x20, 0x8A]);
}
