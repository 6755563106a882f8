//! The packets that the makers print.

const PACKETS: &str = include_str!("../../vectors/packets.txt");
const PACKETS_V1: &str = include_str!("../../vectors/packets_v1.txt");

#[derive(Clone, Copy, PartialEq, Eq, Debug)]
pub enum Status {
    Good,
    Misprint,
    Part,
}

#[derive(Debug)]
pub struct Published {
    /// Document and line, as in packets.txt.
    pub place: String,
    pub status: Status,
    pub bytes: Vec<u8>,
}

/// A packet of Protocol 1.0 or Mercury.
#[derive(Debug)]
pub struct PublishedV1 {
    /// Document and line, as in packets_v1.txt.
    pub place: String,
    /// Otherwise it is made from the tables of the document.
    pub printed: bool,
    pub bytes: Vec<u8>,
}

/// Every row of packets.txt, in order. A row that is not in its form is an error.
pub fn published() -> Vec<Published> {
    let row = |line| {
        let (place, status, bytes) = row(line);
        let status = match status {
            "good" => Status::Good,
            "misprint" => Status::Misprint,
            "part" => Status::Part,
            _ => panic!("no such status: {line}"),
        };
        Published { place, status, bytes }
    };
    rows(PACKETS).map(row).collect()
}

/// The same of packets_v1.txt.
pub fn published_v1() -> Vec<PublishedV1> {
    let row = |line| {
        let (place, status, bytes) = row(line);
        let printed = match status {
            "good" => true,
            "made" => false,
            _ => panic!("no such status: {line}"),
        };
        PublishedV1 { place, printed, bytes }
    };
    rows(PACKETS_V1).map(row).collect()
}

fn rows(text: &'static str) -> impl Iterator<Item = &'static str> {
    text.lines().filter(|line| !line.starts_with('#'))
}

/// Place, status and bytes.
fn row(line: &str) -> (String, &str, Vec<u8>) {
    let fields: Vec<&str> = line.split('|').map(str::trim).collect();
    let [document, place, _what, status, hex] = fields[..] else {
        panic!("not five fields: {line}");
    };
    let byte = |byte| u8::from_str_radix(byte, 16).unwrap_or_else(|_| panic!("not a byte: {line}"));
    (format!("{document} line {place}"), status, hex.split(' ').map(byte).collect())
}
