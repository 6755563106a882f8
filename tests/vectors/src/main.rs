//! The program of crates/vectors, by the second implementation: the same records in, the same lines out.

use reference::{device_call, fresh, measure_call, reading, unstuff, Event, Heard, Registered, Table, TABLE_BYTES};
use std::io::{self, Read, Write};

/// More of the input is not read.
const MOST: u64 = 65_536;

struct Device {
    table: Table,
    registered: Registered,
}

impl Device {
    fn new(id: u8, position: u16) -> Device {
        let mut table = fresh();
        measure_call(&mut table, i32::from(position), 0).expect("a table has its size");
        table[7] = id;
        Device { table, registered: Registered::default() }
    }

    /// What the device answers, and which bytes of its table have changed.
    fn hear(&mut self, heard: Heard) -> String {
        let before = self.table;
        let mut out = [0; 32];
        let mut text = match device_call(&mut self.table, self.registered, heard, &mut out) {
            Err(_) => "refused\n".to_string(),
            Ok(answer) => {
                self.registered = answer.registered;
                match &out[..answer.count] {
                    [] => "silent\n".to_string(),
                    status => format!("status {}{}\n", answer.slot, hex(status)),
                }
            }
        };
        for (address, (old, new)) in before.iter().zip(&self.table).enumerate() {
            if old != new {
                text += &format!("stored {address} {new}\n");
            }
        }
        text
    }

    fn segment(&mut self, bytes: &[u8]) -> String {
        let mut text = String::new();
        for found in reading(bytes) {
            text += &match found.event {
                Event::Packet { id, bytes } => {
                    let body = unstuff(&bytes[7..bytes.len() - 2]);
                    let line = format!("packet {id} {} {}\n", body[0], body.len() - 1);
                    line + &self.hear(Heard::Packet { id, body: &body })
                }
                Event::BadChecksum { id } => format!("crc {id}\n") + &self.hear(Heard::BadChecksum { id }),
            };
        }
        text
    }
}

fn hex(bytes: &[u8]) -> String {
    bytes.iter().map(|byte| format!(" {byte:02x}")).collect()
}

/// All that is printed.
fn printed(input: &[u8]) -> Vec<u8> {
    let mut device = Device { table: [0; TABLE_BYTES], registered: Registered::default() };
    let mut text = Vec::new();
    let mut rest = input;
    while let [kind, count, after @ ..] = rest {
        let Some(bytes) = after.get(..usize::from(*count)) else {
            break;
        };
        match (kind, bytes) {
            (0, line) => text.extend([line, b"\n"].concat()),
            (1, &[id, low, high]) => {
                let position = u16::from_le_bytes([low, high]);
                device = Device::new(id, position);
                text.extend(format!("device {id} {position}\n").bytes());
            }
            (2, segment) => text.extend(device.segment(segment).bytes()),
            _ => break,
        }
        rest = &after[bytes.len()..];
    }
    text.extend(format!("end {}\n", input.len() - rest.len()).bytes());
    text
}

fn main() -> io::Result<()> {
    let mut input = Vec::new();
    io::stdin().take(MOST).read_to_end(&mut input)?;
    io::stdout().write_all(&printed(&input))
}
