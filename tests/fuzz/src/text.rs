//! The text form of a case: a line for each operation, its name and its fields in their order. Bytes are in hex, numbers are
//! decimal or, after 0x, in hex. Empty lines and those that begin with # say nothing.

use crate::{Case, Operation};
use compare::hex;
use reference::{v1, Registered, Table, MOST_HELD};
use std::fmt;

const VERSION: &str = "mednukals fuzz case, version 1";
/// More room than any case asks for, and no more than any machine has.
const MOST_ROOM: usize = 1 << 24;

/// Why a text is no case, and at which line.
#[derive(Clone, PartialEq, Eq, Debug)]
pub struct Malformed {
    pub line: usize,
    pub why: String,
}

impl fmt::Display for Malformed {
    fn fmt(&self, f: &mut fmt::Formatter) -> fmt::Result {
        write!(f, "line {}: {}", self.line, self.why)
    }
}

/// With a line that says what the case is about, where there is something to say.
pub fn write(case: &Case, about: &str) -> String {
    let about = if about.is_empty() { String::new() } else { format!("# {about}\n") };
    let mut text = format!("{VERSION}\n{about}memory number=0x{:x}\n", case.memory);
    for operation in &case.operations {
        text.push_str(&line(operation));
        text.push('\n');
    }
    text
}

fn line(operation: &Operation) -> String {
    match operation {
        Operation::Checksum { start, bytes } => format!("checksum start=0x{start:04x} bytes={}", hex(bytes)),
        Operation::Flip { crc, after, flips } => format!("flip crc=0x{crc:04x} after={after} flips={}", hex(flips)),
        Operation::Encode { id, instruction, room, at, params } => {
            format!("encode id={id} instruction=0x{instruction:02x} room={room} at={at} params={}", hex(params))
        }
        Operation::EncodeV1 { protocol, id, instruction, room, at, params } => {
            let (name, params) = (name_of(*protocol), hex(params));
            format!("encode_v1 protocol={name} id={id} instruction=0x{instruction:02x} room={room} at={at} params={params}")
        }
        Operation::Unstuff { room, body } => format!("unstuff room={room} body={}", hex(body)),
        Operation::Plain { from, segment } => format!("plain from={from} segment={}", hex(segment)),
        Operation::LogWrite { room, lengths, bytes } => {
            let lengths: Vec<u8> = lengths.iter().flat_map(|length| length.to_le_bytes()).collect();
            format!("log room={room} lengths={} bytes={}", hex(&lengths), hex(bytes))
        }
        Operation::Ask { id, log } => format!("ask id={id} log={}", hex(log)),
        Operation::Salvage { room, report, log } => format!("salvage room={room} report={report} log={}", hex(log)),
        Operation::Plan { room, goals } => format!("plan room={room} goals={}", hex(goals)),
        Operation::Check { goals, plan } => format!("check goals={} plan={}", hex(goals), hex(plan)),
        Operation::Record { count, past, held } => format!("record count={count} past=0x{past:02x} held={}", hex(held)),
        Operation::Scribble { byte } => format!("scribble byte=0x{byte:02x}"),
        Operation::Feed { chunk } => format!("feed chunk={}", hex(chunk)),
        Operation::Rest => "rest".to_string(),
        Operation::Arrive { chunk } => format!("arrive chunk={}", hex(chunk)),
        Operation::Gap => "gap".to_string(),
        Operation::Finish => "finish".to_string(),
        Operation::RecordV1 { protocol, count, past, held } => {
            format!("record_v1 protocol={} count={count} past=0x{past:02x} held={}", name_of(*protocol), hex(held))
        }
        Operation::FeedV1 { chunk } => format!("feed_v1 chunk={}", hex(chunk)),
        Operation::ArriveV1 { chunk } => format!("arrive_v1 chunk={}", hex(chunk)),
        Operation::GapV1 => "gap_v1".to_string(),
        Operation::Board { reply, table } => format!("board reply={reply} table={}", hex(table)),
        Operation::Registered { address, count, bytes, min, max } => {
            format!("registered address={address} count={count} bytes={} min={min} max={max}", hex(bytes))
        }
        Operation::Status { room, slot, speaks, id, error, count, bytes } => {
            format!("status room={room} slot={slot} speaks={speaks} id={id} error=0x{error:02x} count={count} bytes={}", hex(bytes))
        }
        Operation::Poke { address, byte } => format!("poke address={address} byte=0x{byte:02x}"),
        Operation::Fresh => "fresh".to_string(),
        Operation::Measure { position, error } => format!("measure position={position} error=0x{error:02x}"),
        Operation::Hear { kind, id, body } => format!("hear kind={kind} id={id} body={}", hex(body)),
        Operation::Receive { room, packet } => format!("receive room={room} packet={}", hex(packet)),
        Operation::Exchange { chunk } => format!("exchange chunk={}", hex(chunk)),
        Operation::Silence => "silence".to_string(),
        Operation::BoardRecord { count, past, held, table, registered } => {
            let (held, table) = (hex(held), hex(table));
            format!("board_record count={count} past=0x{past:02x} held={held} table={table} {}", write_of(registered))
        }
        Operation::BoardFeed { chunk } => format!("board_feed chunk={}", hex(chunk)),
        Operation::BoardArrive { chunk } => format!("board_arrive chunk={}", hex(chunk)),
        Operation::BoardGap => "board_gap".to_string(),
        Operation::BoardFinish => "board_finish".to_string(),
        Operation::BoardMeasure { position, error } => format!("board_measure position={position} error=0x{error:02x}"),
    }
}

/// The registered write of a board, in the fields behind those of its record.
fn write_of(registered: &Registered) -> String {
    let Registered { address, count, bytes, min, max } = registered;
    format!("address={address} write={count} bytes={} min={min} max={max}", hex(bytes))
}

fn name_of(protocol: v1::Protocol) -> &'static str {
    match protocol {
        v1::Protocol::P1 => "p1",
        v1::Protocol::Mercury => "mercury",
    }
}

pub fn parse(text: &str) -> Result<Case, Malformed> {
    let mut lines = text.lines().enumerate().map(|(i, line)| (i + 1, line.trim()));
    let (_, version) = lines.next().unwrap_or((1, ""));
    if version != VERSION {
        return Err(Malformed { line: 1, why: format!("the first line is not `{VERSION}`") });
    }
    let mut lines = lines.filter(|(_, line)| !line.is_empty() && !line.starts_with('#'));
    let (at, first) = lines.next().ok_or(Malformed { line: 2, why: "the line `memory number=..` is missing".to_string() })?;
    let memory = memory(first).map_err(|why| Malformed { line: at, why })?;
    let operations =
        lines.map(|(at, line)| operation(line).map_err(|why| Malformed { line: at, why })).collect::<Result<_, _>>()?;
    Ok(Case { memory, operations })
}

fn memory(line: &str) -> Result<u64, String> {
    let mut fields = Fields::new(line);
    match fields.name {
        "memory" => {}
        name => return Err(format!("`memory` is expected, and not `{name}`")),
    }
    let number = fields.number("number")?;
    fields.end()?;
    Ok(number)
}

fn operation(line: &str) -> Result<Operation, String> {
    let mut fields = Fields::new(line);
    let operation = match fields.name {
        "checksum" => Operation::Checksum { start: fields.number("start")?, bytes: fields.bytes("bytes")? },
        "flip" => Operation::Flip { crc: fields.number("crc")?, after: fields.number("after")?, flips: fields.bytes("flips")? },
        "encode" => Operation::Encode {
            id: fields.number("id")?,
            instruction: fields.number("instruction")?,
            room: fields.room("room")?,
            at: fields.number("at")?,
            params: fields.bytes("params")?,
        },
        "encode_v1" => Operation::EncodeV1 {
            protocol: fields.protocol("protocol")?,
            id: fields.number("id")?,
            instruction: fields.number("instruction")?,
            room: fields.room("room")?,
            at: fields.number("at")?,
            params: fields.bytes("params")?,
        },
        "unstuff" => Operation::Unstuff { room: fields.room("room")?, body: fields.bytes("body")? },
        "plain" => Operation::Plain { from: fields.number("from")?, segment: fields.bytes("segment")? },
        "log" => log(&mut fields)?,
        "ask" => Operation::Ask { id: fields.number("id")?, log: fields.bytes("log")? },
        "salvage" => Operation::Salvage { room: fields.room("room")?, report: fields.room("report")?, log: fields.bytes("log")? },
        "plan" => Operation::Plan { room: fields.room("room")?, goals: fields.bytes("goals")? },
        "check" => Operation::Check { goals: fields.bytes("goals")?, plan: fields.bytes("plan")? },
        "record" => record(&mut fields)?,
        "scribble" => Operation::Scribble { byte: fields.number("byte")? },
        "feed" => Operation::Feed { chunk: fields.bytes("chunk")? },
        "rest" => Operation::Rest,
        "arrive" => Operation::Arrive { chunk: fields.bytes("chunk")? },
        "gap" => Operation::Gap,
        "finish" => Operation::Finish,
        "record_v1" => record_v1(&mut fields)?,
        "feed_v1" => Operation::FeedV1 { chunk: fields.bytes("chunk")? },
        "arrive_v1" => Operation::ArriveV1 { chunk: fields.bytes("chunk")? },
        "gap_v1" => Operation::GapV1,
        "board" => Operation::Board { reply: fields.room("reply")?, table: fields.bytes("table")? },
        "registered" => registered(&mut fields)?,
        "status" => status(&mut fields)?,
        "poke" => Operation::Poke { address: fields.number("address")?, byte: fields.number("byte")? },
        "fresh" => Operation::Fresh,
        "measure" => Operation::Measure { position: fields.position("position")?, error: fields.number("error")? },
        "hear" => Operation::Hear { kind: fields.number("kind")?, id: fields.number("id")?, body: fields.bytes("body")? },
        "receive" => Operation::Receive { room: fields.room("room")?, packet: fields.bytes("packet")? },
        "exchange" => Operation::Exchange { chunk: fields.bytes("chunk")? },
        "silence" => Operation::Silence,
        "board_record" => board_record(&mut fields)?,
        "board_feed" => Operation::BoardFeed { chunk: fields.bytes("chunk")? },
        "board_arrive" => Operation::BoardArrive { chunk: fields.bytes("chunk")? },
        "board_gap" => Operation::BoardGap,
        "board_finish" => Operation::BoardFinish,
        "board_measure" => Operation::BoardMeasure { position: fields.position("position")?, error: fields.number("error")? },
        name => return Err(format!("there is no operation `{name}`")),
    };
    fields.end()?;
    Ok(operation)
}

/// Each length has four bytes, low byte first.
fn log(fields: &mut Fields) -> Result<Operation, String> {
    let (room, lengths, bytes) = (fields.room("room")?, fields.bytes("lengths")?, fields.bytes("bytes")?);
    if lengths.len() % 4 != 0 {
        return Err(format!("`lengths` has {} bytes, and not four for each", lengths.len()));
    }
    let lengths = lengths.chunks(4).map(|four| u32::from_le_bytes([four[0], four[1], four[2], four[3]])).collect();
    Ok(Operation::LogWrite { room, lengths, bytes })
}

fn record(fields: &mut Fields) -> Result<Operation, String> {
    let (count, past, held) = (fields.number("count")?, fields.number("past")?, fields.held("held", MOST_HELD)?);
    Ok(Operation::Record { count, past, held })
}

fn record_v1(fields: &mut Fields) -> Result<Operation, String> {
    let (protocol, count, past) = (fields.protocol("protocol")?, fields.number("count")?, fields.number("past")?);
    Ok(Operation::RecordV1 { protocol, count, past, held: fields.held("held", v1::MOST_HELD)? })
}

fn board_record(fields: &mut Fields) -> Result<Operation, String> {
    let (count, past, held) = (fields.number("count")?, fields.number("past")?, fields.held("held", MOST_HELD)?);
    let table: Table = fields.exactly("table")?;
    let (address, write, bytes) = (fields.number("address")?, fields.number("write")?, fields.exactly("bytes")?);
    let (min, max) = (fields.position("min")?, fields.position("max")?);
    let registered = Registered { address, count: write, bytes, min, max };
    Ok(Operation::BoardRecord { count, past, held, table, registered })
}

fn registered(fields: &mut Fields) -> Result<Operation, String> {
    let (address, count, bytes) = (fields.number("address")?, fields.number("count")?, fields.exactly("bytes")?);
    let (min, max) = (fields.position("min")?, fields.position("max")?);
    Ok(Operation::Registered { address, count, bytes, min, max })
}

fn status(fields: &mut Fields) -> Result<Operation, String> {
    let (room, slot, speaks) = (fields.room("room")?, fields.number("slot")?, fields.number("speaks")?);
    let (id, error, count) = (fields.number("id")?, fields.number("error")?, fields.number("count")?);
    Ok(Operation::Status { room, slot, speaks, id, error, count, bytes: fields.exactly("bytes")? })
}

/// The fields of a line, taken one by one.
struct Fields<'a> {
    name: &'a str,
    rest: std::str::SplitWhitespace<'a>,
}

impl<'a> Fields<'a> {
    fn new(line: &'a str) -> Fields<'a> {
        let mut rest = line.split_whitespace();
        Fields { name: rest.next().unwrap_or_default(), rest }
    }

    fn value(&mut self, key: &str) -> Result<&'a str, String> {
        let field = self.rest.next().ok_or_else(|| format!("`{}` lacks `{key}=..`", self.name))?;
        match field.split_once('=') {
            Some((found, value)) if found == key => Ok(value),
            _ => Err(format!("`{key}=..` is expected, and not `{}`", short(field))),
        }
    }

    fn number<N: TryFrom<u64>>(&mut self, key: &str) -> Result<N, String> {
        let value = self.value(key)?;
        let number = match value.strip_prefix("0x") {
            Some(digits) => u64::from_str_radix(digits, 16),
            None => value.parse(),
        };
        let number = number.map_err(|_| format!("`{key}` is no number: `{}`", short(value)))?;
        number.try_into().map_err(|_| format!("`{key}` is too large: {number}"))
    }

    fn room(&mut self, key: &str) -> Result<usize, String> {
        match self.number(key)? {
            room if room > MOST_ROOM => Err(format!("`{key}` is above {MOST_ROOM}: {room}")),
            room => Ok(room),
        }
    }

    /// The first bytes of a record that has so many.
    fn held(&mut self, key: &str, most: usize) -> Result<Vec<u8>, String> {
        let held = self.bytes(key)?;
        if held.len() > most {
            return Err(format!("`{key}` has {} bytes, and a record {most}", held.len()));
        }
        Ok(held)
    }

    fn protocol(&mut self, key: &str) -> Result<v1::Protocol, String> {
        let value = self.value(key)?;
        let known = v1::BOTH.into_iter().find(|&protocol| name_of(protocol) == value);
        known.ok_or_else(|| format!("`{key}` is neither p1 nor mercury: `{}`", short(value)))
    }

    /// The one number that may be negative.
    fn position(&mut self, key: &str) -> Result<i32, String> {
        let value = self.value(key)?;
        value.parse().map_err(|_| format!("`{key}` is no number of four bytes: `{}`", short(value)))
    }

    fn exactly<const N: usize>(&mut self, key: &str) -> Result<[u8; N], String> {
        self.bytes(key)?.try_into().map_err(|bytes: Vec<u8>| format!("`{key}` has {} bytes, and not {N}", bytes.len()))
    }

    fn bytes(&mut self, key: &str) -> Result<Vec<u8>, String> {
        let value = self.value(key)?.as_bytes();
        if value.len() % 2 != 0 {
            return Err(format!("`{key}` has an odd number of digits: {}", value.len()));
        }
        value.chunks(2).map(|pair| byte(pair).ok_or_else(|| format!("`{key}` has something that is no byte in hex"))).collect()
    }

    fn end(&mut self) -> Result<(), String> {
        match self.rest.next() {
            None => Ok(()),
            Some(more) => Err(format!("`{}` has a field too many: `{}`", self.name, short(more))),
        }
    }
}

fn byte(pair: &[u8]) -> Option<u8> {
    let digit = |c: u8| char::from(c).to_digit(16);
    Some((16 * digit(pair[0])? + digit(pair[1])?) as u8)
}

/// So much of a word as fits into a message.
fn short(word: &str) -> String {
    match word.char_indices().nth(40) {
        Some((end, _)) => format!("{}..", &word[..end]),
        None => word.to_string(),
    }
}
