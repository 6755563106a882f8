use reference::{v1, Registered, Table};

/// A call, a short list of calls, or a change of the memory that later calls borrow. Any of them may follow any other, so that a
/// case from which some are dropped is a case again.
#[derive(Clone, PartialEq, Eq, Debug)]
pub enum Operation {
    Checksum {
        start: u16,
        bytes: Vec<u8>,
    },
    /// The checksum after flipped bits, from the one before.
    Flip {
        crc: u16,
        after: usize,
        flips: Vec<u8>,
    },
    Encode {
        id: u8,
        instruction: u8,
        room: usize,
        at: usize,
        params: Vec<u8>,
    },
    /// The encoder of Protocol 1.0 or Mercury.
    EncodeV1 {
        protocol: v1::Protocol,
        id: u8,
        instruction: u8,
        room: usize,
        at: usize,
        params: Vec<u8>,
    },
    Unstuff {
        room: usize,
        body: Vec<u8>,
    },
    /// The plain reader's calls from an offset on, until there is no event.
    Plain {
        from: usize,
        segment: Vec<u8>,
    },
    /// A log of segments, by their lengths, into a buffer with so much room.
    LogWrite {
        room: usize,
        lengths: Vec<u32>,
        bytes: Vec<u8>,
    },
    /// Whether a file is a sound log, and the last packet for an ID in it.
    Ask {
        id: u8,
        log: Vec<u8>,
    },
    /// A file salvaged, into a buffer with so much room and a report of so many numbers.
    Salvage {
        room: usize,
        report: usize,
        log: Vec<u8>,
    },
    /// The planner, on goals of four bytes each, lowest first.
    Plan {
        room: usize,
        goals: Vec<u8>,
    },
    /// The test of a plan.
    Check {
        goals: Vec<u8>,
        plan: Vec<u8>,
    },
    /// Another record for the reader. What is not given of its 1,030 bytes is `past`.
    Record {
        count: usize,
        past: u8,
        held: Vec<u8>,
    },
    /// A byte for all of the record past its count.
    Scribble {
        byte: u8,
    },
    /// One feeding call.
    Feed {
        chunk: Vec<u8>,
    },
    /// One feeding call with what the last one left.
    Rest,
    /// Feeding calls until one gives no event.
    Arrive {
        chunk: Vec<u8>,
    },
    /// One gap call.
    Gap,
    /// Gap calls until one gives no event.
    Finish,
    /// Another reader of Protocol 1.0 or Mercury. What is not given of its 258 bytes is `past`.
    RecordV1 {
        protocol: v1::Protocol,
        count: usize,
        past: u8,
        held: Vec<u8>,
    },
    /// One feeding call of that reader.
    FeedV1 {
        chunk: Vec<u8>,
    },
    /// Its feeding calls until one gives no event.
    ArriveV1 {
        chunk: Vec<u8>,
    },
    /// One gap call of that reader.
    GapV1,
    /// Another table and another reply buffer; the registered write stays.
    Board {
        reply: usize,
        table: Vec<u8>,
    },
    Registered {
        address: u16,
        count: u8,
        bytes: [u8; 8],
        min: i32,
        max: i32,
    },
    /// Any reply, as no device may have made it, sent into a buffer of so many bytes.
    Status {
        room: usize,
        slot: usize,
        speaks: u8,
        id: u8,
        error: u8,
        count: u8,
        bytes: [u8; 8],
    },
    /// One byte of the table, as nobody should write it.
    Poke {
        address: usize,
        byte: u8,
    },
    Fresh,
    Measure {
        position: i32,
        error: u8,
    },
    Hear {
        kind: u8,
        id: u8,
        body: Vec<u8>,
    },
    /// A packet as received, with a body buffer of so many bytes.
    Receive {
        room: usize,
        packet: Vec<u8>,
    },
    /// The loop of the header: bytes come, the device hears each event, and its status is read back.
    Exchange {
        chunk: Vec<u8>,
    },
    /// The other loop of the header, when the line was silent.
    Silence,
    /// Another board. What is not given of its 1,030 held bytes is `past`; its packet buffer has any bytes.
    BoardRecord {
        count: usize,
        past: u8,
        held: Vec<u8>,
        table: Table,
        registered: Registered,
    },
    /// One feeding call of that board.
    BoardFeed {
        chunk: Vec<u8>,
    },
    /// Its feeding calls until one gives no event.
    BoardArrive {
        chunk: Vec<u8>,
    },
    /// One gap call of that board.
    BoardGap,
    /// Its gap calls until one gives no event.
    BoardFinish,
    /// The measurement call on its table.
    BoardMeasure {
        position: i32,
        error: u8,
    },
}

impl Operation {
    /// How many bytes the operation hands to the exports, counted once.
    fn bytes(&self) -> usize {
        match self {
            Operation::Checksum { bytes, .. } => bytes.len(),
            Operation::Flip { flips, .. } => flips.len(),
            Operation::Encode { params, .. } | Operation::EncodeV1 { params, .. } => params.len(),
            Operation::Unstuff { body, .. } | Operation::Hear { body, .. } => body.len(),
            Operation::Plain { segment, .. } => segment.len(),
            Operation::LogWrite { lengths, bytes, .. } => 4 * lengths.len() + bytes.len(),
            Operation::Ask { log, .. } | Operation::Salvage { log, .. } => log.len(),
            Operation::Plan { goals, .. } => goals.len(),
            Operation::Check { goals, plan } => goals.len() + plan.len(),
            Operation::Record { held, .. } | Operation::RecordV1 { held, .. } => held.len(),
            Operation::Feed { chunk } | Operation::Arrive { chunk } | Operation::Exchange { chunk } => chunk.len(),
            Operation::FeedV1 { chunk } | Operation::ArriveV1 { chunk } => chunk.len(),
            Operation::Board { table, .. } => table.len(),
            Operation::Receive { packet, .. } => packet.len(),
            Operation::BoardRecord { held, table, .. } => held.len() + table.len(),
            Operation::BoardFeed { chunk } | Operation::BoardArrive { chunk } => chunk.len(),
            _ => 0,
        }
    }
}

/// Operations in their order, on a fresh reader and a device with a fresh table.
#[derive(Clone, PartialEq, Eq, Debug)]
pub struct Case {
    /// Decides the bytes around lent memory and those in an output before a call.
    pub memory: u64,
    pub operations: Vec<Operation>,
}

impl Case {
    pub fn bytes(&self) -> usize {
        self.operations.iter().map(Operation::bytes).sum()
    }
}
