//! Lists of calls on a board: beside the single calls, beside the reading of all bytes, behind noise, with measurements between
//! them.

use compare::device_inputs::{self, board, line, part, value};
use compare::{chunks, front, noise, record, segment, BoardPair, NoisyLine, Rest};
use exports::{BoardStep, Reply};
use reference::{carry_out_call, measure_call, packet_of, reading, unstuff, well_formed, Board, Event, Found};
use reference::{Heard, Registered, Rng, Table, Waiting, LONGEST_PACKET, MOST_HELD};

/// A board's parts as the exports take them.
#[derive(Clone)]
struct Parts {
    held: [u8; MOST_HELD],
    count: usize,
    packet: [u8; LONGEST_PACKET],
    table: Table,
    registered: exports::Registered,
}

impl Parts {
    fn of(board: &Board) -> Parts {
        let Board { held, count, packet, table, registered } = *board;
        let Registered { address, count: n, bytes, min, max } = registered;
        Parts { held, count, packet, table, registered: exports::Registered { address, count: n, bytes, min, max } }
    }

    /// The board's call: what the single ones answer too.
    fn at_once(&mut self, chunk: Option<&[u8]>) -> (exports::Step, Reply) {
        let Parts { held, count, packet, table, registered } = self;
        let step = match chunk {
            Some(chunk) => exports::board_feed(held, count, chunk, packet, table, *registered),
            None => exports::board_gap(held, count, packet, table, *registered),
        };
        self.registered = step.registered;
        let BoardStep { taken, count, kind, id, reply, .. } = step;
        (exports::Step { taken, count, kind, id }, reply)
    }

    /// The reader's call and the device's first call. They leave the packet as it was received; its body is put there without
    /// stuffing, as the board does.
    fn one_by_one(&mut self, chunk: Option<&[u8]>) -> (exports::Step, Reply) {
        let Parts { held, count, packet, table, registered } = self;
        let step = match chunk {
            Some(chunk) => exports::feed(held, count, chunk, packet),
            None => exports::gap(held, count, packet),
        };
        let carried = if step.kind == 1 {
            let received = packet[..step.count].to_vec();
            exports::carry_out_packet(table, *registered, &received, &mut packet[7..])
        } else {
            exports::carry_out(table, *registered, step.kind, step.id, &[])
        };
        assert_eq!(carried.refusal, 0);
        self.registered = carried.registered;
        (step, carried.reply)
    }
}

/// Three records that began alike, with 0 behind their held bytes: on the first the board's calls are made, on the second the
/// single ones, and on the third now these and now those.
struct Three([Parts; 3]);

impl Three {
    fn call(&mut self, rng: &mut Rng, chunk: Option<&[u8]>) -> (exports::Step, Reply) {
        let Three([first, second, third]) = self;
        let answer = first.at_once(chunk);
        assert_eq!(second.one_by_one(chunk), answer);
        assert_eq!(if rng.one_in(2) { third.at_once(chunk) } else { third.one_by_one(chunk) }, answer);
        self.assert_alike(answer.0.count);
        answer
    }

    /// But for what the packet buffers have behind a packet of so many bytes.
    fn assert_alike(&self, packet: usize) {
        let Three([first, others @ ..]) = self;
        assert!(first.held[first.count..].iter().all(|&byte| byte == 0));
        for other in others {
            assert_eq!((first.count, &first.held), (other.count, &other.held));
            assert_eq!((&first.table, first.registered), (&other.table, other.registered));
            assert_eq!(first.packet[..packet], other.packet[..packet]);
        }
    }
}

/// The chunks of a line, and then so many gap calls.
fn calls<'a>(rng: &mut Rng, line: &'a [u8], gaps: usize) -> Vec<Option<&'a [u8]>> {
    let mut calls: Vec<Option<&[u8]>> = chunks(rng, line).into_iter().map(Some).collect();
    calls.extend(vec![None; gaps]);
    calls
}

/// Where a board began with 0 behind its held bytes, its calls and the single ones answer the same and leave the same record,
/// table and registered write, also one after the other on one record. [B1 B8]
#[test]
fn both_kinds_of_calls() {
    let mut rng = Rng::new(110);
    let (mut events, mut replies) = (0, 0);
    for _ in 0..1_500 {
        let mut start = board(&mut rng);
        if rng.one_in(3) {
            let (held, count) = record(&mut rng);
            start.count = count.min(MOST_HELD);
            start.held[..start.count].copy_from_slice(&held[..start.count]);
        }
        let mut boards = Three([Parts::of(&start), Parts::of(&start), Parts::of(&start)]);
        for _ in 0..8 {
            let line = line(&mut rng, &boards.0[0].table);
            let gaps = rng.between(0, 3);
            for mut left in calls(&mut rng, &line, gaps) {
                loop {
                    let (step, reply) = boards.call(&mut rng, left);
                    replies += usize::from(reply.speaks > 0);
                    events += usize::from(step.kind > 0);
                    left = left.map(|chunk| &chunk[step.taken..]);
                    if step.kind == 0 || rng.one_in(20) {
                        break;
                    }
                }
            }
        }
    }
    assert!(events > 20_000 && replies > 8_000, "{events} events, {replies} replies");
}

/// A table and a registered write that hear event by event, and the replies that spoke.
#[derive(Clone, PartialEq, Debug)]
struct Device {
    table: Table,
    registered: Registered,
    replies: Vec<Reply>,
}

impl Device {
    fn of(board: &Board) -> Device {
        Device { table: board.table, registered: board.registered, replies: vec![] }
    }

    fn hear(&mut self, event: &Event) {
        let body;
        let heard = match event {
            Event::Packet { id, bytes } => {
                body = unstuff(&bytes[7..bytes.len() - 2]);
                Heard::Packet { id: *id, body: &body }
            }
            Event::BadChecksum { id } => Heard::BadChecksum { id: *id },
        };
        let (reply, registered) = carry_out_call(&mut self.table, self.registered, heard).expect("the board is not refused");
        self.registered = registered;
        let Waiting { speaks, id, error, count, bytes, slot } = reply;
        if speaks > 0 {
            self.replies.push(Reply { speaks, id, error, count, bytes, slot });
        }
    }

    fn hear_all(&mut self, events: &[Event]) {
        events.iter().for_each(|event| self.hear(event));
    }

    /// A packet that it acts on, or a bad checksum with its ID.
    fn is_meant(&self, event: &Event) -> bool {
        match event {
            Event::Packet { id, .. } => *id == self.table[7] || *id == 254,
            Event::BadChecksum { id } => *id == self.table[7],
        }
    }
}

/// A board on the line, the events that its calls gave, in numbers, and the replies that spoke.
struct Listener {
    pair: BoardPair,
    events: Vec<(u8, u8, usize)>,
    replies: Vec<Reply>,
}

impl Listener {
    fn new(rng: &mut Rng, start: &Board) -> Listener {
        Listener { pair: BoardPair::new(rng, start.clone()), events: vec![], replies: vec![] }
    }

    fn arrive(&mut self, chunk: &[u8]) {
        let steps = self.pair.arrive(chunk);
        self.note(&steps);
    }

    fn finish(&mut self) {
        let steps = self.pair.finish();
        self.note(&steps);
    }

    fn note(&mut self, steps: &[BoardStep]) {
        self.events.extend(steps.iter().map(|step| (step.kind, step.id, step.count)));
        self.replies.extend(steps.iter().map(|step| step.reply).filter(|reply| reply.speaks > 0));
    }

    fn device(&self) -> Device {
        Device { replies: self.replies.clone(), ..Device::of(self.pair.board()) }
    }
}

fn events(found: &[Found]) -> Vec<Event> {
    found.iter().map(|found| found.event.clone()).collect()
}

/// What a call answers of an event.
fn in_numbers(event: &Event) -> (u8, u8, usize) {
    match event {
        Event::Packet { id, bytes } => (1, *id, bytes.len()),
        Event::BadChecksum { id } => (2, *id, 0),
    }
}

/// The events of the reading of each segment are carried out, each once and in order, and nothing else is; in between, the first
/// so many of them. No call is refused, whatever was on the line. [B9 D42 Q2 Q5 Q6]
#[test]
fn every_event_once_and_in_order() {
    let mut rng = Rng::new(111);
    let (mut all, mut before_the_gap) = (0, 0);
    for _ in 0..250 {
        let start = board(&mut rng);
        let mut device = Device::of(&start);
        let mut board = Listener::new(&mut rng, &start);
        for _ in 0..12 {
            let line = line(&mut rng, &device.table);
            let mut taken = 0;
            for chunk in chunks(&mut rng, &line) {
                board.arrive(chunk);
                taken += chunk.len();
                if rng.one_in(10) {
                    let mut device = device.clone();
                    device.hear_all(&events(&reading(&line[..taken]))[..board.events.len()]);
                    assert_eq!(board.device(), device);
                }
            }
            before_the_gap += board.events.len();
            board.finish();
            let found = events(&reading(&line));
            device.hear_all(&found);
            assert!(board.events.iter().copied().eq(found.iter().map(in_numbers)));
            assert_eq!(board.device(), device);
            assert_eq!((board.pair.board().count, board.pair.board().held), (0, [0; MOST_HELD]));
            all += board.events.len();
            board.events.clear();
        }
    }
    assert!(before_the_gap > 5_000 && all > before_the_gap + 500, "{all} events, {before_the_gap} before the gap");
}

/// Noise before the packets: for anyone, for this device, damaged packets for it, or packets for others; often with a front at
/// its end that swallows the packets for a while.
fn noise_for(rng: &mut Rng, table: &Table) -> Vec<u8> {
    let other = (table[7] + 1) % 253;
    let mut bytes = match rng.between(0, 5) {
        0 => vec![],
        1 => {
            let length = rng.between(1, 60);
            noise(rng, length)
        }
        2 => segment(rng, 2, 60),
        3 => (0..rng.between(1, 3)).flat_map(|_| part(rng, table)).collect(),
        4 => {
            let mut packet = packet_of(table[7], &[3, 65, 0, rng.byte()]);
            packet[rng.between(7, 12)] ^= 1 << rng.between(0, 7);
            packet
        }
        _ => packet_of(other, &device_inputs::body(rng, table, 3)),
    };
    if rng.one_in(2) {
        bytes.extend(front(rng));
    }
    bytes
}

/// Packets, each of them drawn for a device that has heard those before it.
fn packets_for(rng: &mut Rng, start: &Device) -> Vec<Vec<u8>> {
    let mut device = start.clone();
    let mut packets = Vec::new();
    for _ in 0..rng.between(0, 8) {
        let packet = device_inputs::packet(rng, &device.table);
        if well_formed(&packet) {
            device.hear(&Event::Packet { id: packet[4], bytes: packet.clone() });
            packets.push(packet);
        }
    }
    packets
}

fn noisy_line(rng: &mut Rng, start: &Device) -> NoisyLine {
    let noise = noise_for(rng, &start.table);
    let packets = packets_for(rng, start);
    let rest = if rng.one_in(3) { Rest { bytes: noise_for(rng, &start.table), is_a_beginning: false } } else { Rest::draw(rng) };
    NoisyLine::new(noise, packets, rest)
}

/// What the reading finds in the noise, then exactly the packets, then what it finds in the rest, as far as bytes were taken.
struct Expected {
    noise: Vec<Event>,
    packets: Vec<Event>,
    rest: Vec<Event>,
}

impl Expected {
    fn of(line: &NoisyLine, taken: usize) -> Expected {
        let found = reading(&line.bytes[..taken]);
        let in_noise = found.iter().take_while(|found| found.at < line.noise).count();
        let (packets, end) = line.packets_within(taken);
        let packets = packets.into_iter().map(|(_, event)| event).collect();
        Expected { noise: events(&found[..in_noise]), packets, rest: events(&reading(&line.bytes[end..taken])) }
    }

    /// The device after the first so many of the events, all of noise and packets among them.
    fn carried_out(&self, start: &Device, count: usize) -> Device {
        let all = [&self.noise[..], &self.packets, &self.rest].concat();
        assert!((self.noise.len() + self.packets.len()..=all.len()).contains(&count), "{count} events");
        let mut device = start.clone();
        device.hear_all(&all[..count]);
        device
    }

    /// Whether any packet in noise and rest is for this device, and any bad checksum.
    fn meant(&self, start: &Device) -> [bool; 2] {
        let mut device = start.clone();
        let mut meant = [false; 2];
        for (events, counts) in [(&self.noise, true), (&self.packets, false), (&self.rest, true)] {
            for event in events {
                let is_bad_checksum = matches!(event, Event::BadChecksum { .. });
                meant[usize::from(is_bad_checksum)] |= counts && device.is_meant(event);
                device.hear(event);
            }
        }
        meant
    }
}

/// The board after a run on the line that finishes the gap; before, where the packets must all have come out without one, it is
/// looked at too. Answers how many packets those were.
fn hear_noisy_line(rng: &mut Rng, start: &Board, line: &NoisyLine) -> (Device, usize) {
    let device = Device::of(start);
    let mut board = Listener::new(rng, start);
    let (mut taken, mut without_gap) = (0, 0);
    for chunk in chunks(rng, &line.bytes) {
        board.arrive(chunk);
        taken += chunk.len();
        if taken >= line.noise + MOST_HELD && rng.one_in(20) {
            let expected = Expected::of(line, taken);
            assert_eq!(board.device(), expected.carried_out(&device, board.events.len()));
            without_gap += expected.packets.len();
        }
    }
    board.finish();
    let expected = Expected::of(line, taken);
    assert_eq!(expected.packets.len(), line.packets.len());
    assert_eq!(board.device(), expected.carried_out(&device, board.events.len()));
    (board.device(), without_gap)
}

fn hear_clean_line(rng: &mut Rng, start: &Board, packets: &[u8]) -> Device {
    let mut board = Listener::new(rng, start);
    chunks(rng, packets).into_iter().for_each(|chunk| board.arrive(chunk));
    board.finish();
    board.device()
}

/// A board behind noise, and one that was like it on a clean line. [B10 B11 Q7 Q10 Q11]
#[test]
fn behind_noise() {
    let mut rng = Rng::new(112);
    let (mut lists, mut without_gap, mut alike, mut answered) = (0, 0, 0, 0);
    while lists < 2_500 {
        let start = board(&mut rng);
        let device = Device::of(&start);
        let line = noisy_line(&mut rng, &device);
        if line.noise_makes_a_packet() {
            continue;
        }
        lists += 1;
        let packets = line.packets.concat();
        let (behind, early) = hear_noisy_line(&mut rng, &start, &line);
        let clean = hear_clean_line(&mut rng, &start, &packets);
        without_gap += early;
        match Expected::of(&line, line.bytes.len()).meant(&device) {
            [false, false] => {
                assert_eq!(behind, clean);
                alike += usize::from(line.bytes != packets && !clean.replies.is_empty());
            }
            // a bad checksum is answered, and nothing else comes of it
            [false, true] => {
                assert_eq!((behind.table, behind.registered), (clean.table, clean.registered));
                answered += usize::from(behind.replies.len() > clean.replies.len());
            }
            [true, _] => {}
        }
    }
    assert!(without_gap > 1_000 && alike > 500 && answered > 100, "{without_gap}, {alike}, {answered}");
}

/// A board whose firmware measures between the calls, one whose firmware does not, and a device that hears event by event what
/// the first hears, with the measurements between the events.
struct Measured {
    board: BoardPair,
    plain: BoardPair,
    device: Device,
}

impl Measured {
    fn measure(&mut self, rng: &mut Rng) {
        let (position, hardware_error) = (value(rng, &self.device.table), rng.pick(&[0, 0, 1, 0x80, 0xFF]));
        self.board.measure(position, hardware_error);
        measure_call(&mut self.device.table, position, hardware_error).expect("a table has its length");
    }

    /// The same is heard with the measurements and without.
    fn call(&mut self, chunk: Option<&[u8]>) -> BoardStep {
        let (step, without) = (self.board.call(chunk), self.plain.call(chunk));
        assert_eq!(heard(&step), heard(&without));
        let mut table = self.plain.board().table;
        for address in [70, 132, 133, 134, 135] {
            table[address] = self.board.board().table[address];
        }
        assert_eq!(*self.board.board(), Board { table, ..self.plain.board().clone() });
        step
    }

    fn hear(&mut self, event: &Event, reply: Reply) {
        self.device.hear(event);
        assert_eq!(self.device.replies.pop(), Some(reply).filter(|reply| reply.speaks > 0));
        assert_eq!(Device::of(self.board.board()), self.device);
    }
}

/// Every call takes, finds and holds the same as without measurements, and beside what was measured the tables are the same. What
/// is carried out is the events with the measurements between them. [B12 T5]
#[test]
fn measurements_between_the_calls() {
    let mut rng = Rng::new(113);
    let (mut measurements, mut alerts) = (0, 0);
    for _ in 0..120 {
        let start = board(&mut rng);
        let [board, plain] = [start.clone(), start.clone()].map(|start| BoardPair::new(&mut rng, start));
        let mut boards = Measured { board, plain, device: Device::of(&start) };
        for _ in 0..12 {
            let line = line(&mut rng, &boards.device.table);
            let found = events(&reading(&line));
            let mut next = found.iter();
            for mut left in calls(&mut rng, &line, 1) {
                loop {
                    if rng.one_in(3) {
                        boards.measure(&mut rng);
                        measurements += 1;
                    }
                    let step = boards.call(left);
                    if step.kind == 0 {
                        break;
                    }
                    boards.hear(next.next().expect("an event of the reading"), step.reply);
                    alerts += usize::from(step.reply.error >= 0x80);
                    left = left.map(|chunk| &chunk[step.taken..]);
                }
            }
            assert_eq!(next.next(), None);
        }
    }
    assert!(measurements > 10_000 && alerts > 500, "{measurements} measurements, {alerts} alerts");
}

/// What the line alone decides.
fn heard(step: &BoardStep) -> (exports::Step, u8, u8) {
    let BoardStep { taken, count, kind, id, instruction, error, .. } = *step;
    (exports::Step { taken, count, kind, id }, instruction, error)
}
