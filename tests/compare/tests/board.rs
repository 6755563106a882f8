//! A board: the proved calls and the reference answer the same and leave the same record, packet buffer and table, call by call.

use compare::device_inputs::{any_board, board, line, registered, value};
use compare::{chunks, BoardPair};
use exports::{BoardStep, Registered, Reply};
use reference::{fresh, packet_of, well_formed, Board, Rng, LONGEST_PACKET, MOST_HELD};
use std::collections::BTreeMap;

/// How often what came up.
#[derive(Default, Debug)]
struct Seen {
    kinds: BTreeMap<u8, usize>,
    /// Instructions that were for the board, with their errors.
    errors: BTreeMap<(u8, u8), usize>,
    /// Errors of which no status tells.
    silent_errors: usize,
    moved: usize,
    slots: usize,
    stuffed: usize,
    /// Packets of which more bytes were looked at than a record holds, and answers without one.
    long: [usize; 2],
    /// Events that needed no new byte.
    nothing_taken: usize,
}

impl Seen {
    fn note(&mut self, before: &Board, step: &BoardStep, after: &Board) {
        let own = before.table[7];
        *self.kinds.entry(step.kind).or_default() += 1;
        if step.kind == 1 && (step.id == own || step.id == 254) {
            *self.errors.entry((step.instruction, step.error)).or_default() += 1;
        }
        self.silent_errors += usize::from(step.error != 0 && step.reply.speaks == 0);
        self.moved += usize::from(own != after.table[7]);
        self.slots += usize::from(step.reply.slot > 0);
        self.stuffed += usize::from(step.kind == 1 && !well_formed(&after.packet[..step.count]));
        if step.kind < 3 && before.count + step.taken > MOST_HELD {
            self.long[usize::from(step.kind != 1)] += 1;
        }
        self.nothing_taken += usize::from(matches!(step.kind, 1 | 2) && step.taken == 0);
    }

    fn kind(&self, kind: u8) -> usize {
        self.kinds.get(&kind).copied().unwrap_or(0)
    }

    /// Every error that an instruction can have came up so often, and no other.
    fn assert_all_errors(&self, least: usize) {
        let possible: [(u8, &[u8]); 12] = [
            (0x01, &[0, 5]),
            (0x02, &[0, 5, 7]),
            (0x03, &[0, 4, 5, 6, 7]),
            (0x04, &[0, 4, 5, 6, 7]),
            (0x05, &[0, 2, 4, 5, 6, 7]),
            (0x06, &[0, 4, 5]),
            (0x08, &[0, 5]),
            (0x55, &[0]),
            (0x82, &[0, 2, 7]),
            (0x83, &[0, 2, 4, 5, 6, 7]),
            (0x92, &[0, 2, 7]),
            (0x93, &[0, 2, 4, 5, 6, 7]),
        ];
        for (instruction, errors) in possible {
            for &error in errors {
                let seen = self.errors.get(&(instruction, error)).copied().unwrap_or(0);
                assert!(seen >= least, "instruction {instruction:#x} had the error {error} only {seen} times");
            }
        }
        let known = |(instruction, error): &(u8, u8)| match possible.iter().find(|(known, _)| known == instruction) {
            Some((_, errors)) => errors.contains(error),
            None => *error == 2,
        };
        assert_eq!(self.errors.keys().find(|key| !known(key)), None);
    }
}

/// A board as the calls of a list find it, and what they have answered.
struct Life<'a> {
    pair: BoardPair,
    seen: &'a mut Seen,
}

impl Life<'_> {
    fn call(&mut self, chunk: Option<&[u8]>) -> BoardStep {
        let before = self.pair.board().clone();
        let step = self.pair.call(chunk);
        self.seen.note(&before, &step, self.pair.board());
        step
    }

    /// What happens to a board between two calls.
    fn meanwhile(&mut self, rng: &mut Rng) {
        match rng.between(0, 199) {
            0..=4 => {
                let (past, filler) = (rng.byte(), rng.byte());
                self.pair.change(|board| {
                    board.held[board.count.min(MOST_HELD)..].fill(past);
                    board.packet.fill(filler);
                });
            }
            5..=14 => {
                let position = value(rng, &self.pair.board().table);
                let hardware_error = if rng.one_in(2) { rng.byte() } else { 0 };
                self.pair.measure(position, hardware_error);
            }
            15 => {
                let mut other = registered(rng, &self.pair.board().table);
                other.count %= 9;
                self.pair.change(|board| board.registered = other);
            }
            _ => {}
        }
    }

    /// Calls as a careless user makes them: gaps in odd places and not finished, fed on after such a gap, rests dropped or fed
    /// twice, empty chunks.
    fn odd_calls(&mut self, rng: &mut Rng, line: &[u8]) {
        let between_gaps = rng.pick(&[2, 6, 30, 200]);
        let mut left = Vec::new();
        for chunk in chunks(rng, line) {
            if rng.one_in(between_gaps) {
                self.call(None);
            }
            self.meanwhile(rng);
            match rng.between(0, 39) {
                0 => left.clear(),
                1 => left = left.repeat(2),
                _ => {}
            }
            left.extend(chunk);
            // mostly until there is no event
            let mut again = true;
            while again {
                let step = self.call(Some(&left));
                left.drain(..step.taken);
                if step.kind > 2 {
                    return;
                }
                again = matches!(step.kind, 1 | 2) && !rng.one_in(20);
            }
        }
        for _ in 0..rng.between(0, 4) {
            self.call(if rng.one_in(3) { Some(&[]) } else { None });
        }
    }
}

/// Whole lives behind a noisy line. No call is refused. [B1 B3-B7 B9]
#[test]
fn lives() {
    let mut rng = Rng::new(100);
    let mut seen = Seen::default();
    for life in 0..250 {
        let start = if life % 3 == 0 { Board::start() } else { board(&mut rng) };
        let mut life = Life { pair: BoardPair::new(&mut rng, start), seen: &mut seen };
        for _ in 0..60 {
            let line = line(&mut rng, &life.pair.board().table);
            life.odd_calls(&mut rng, &line);
            // a board that waits, has gone quiet or is locked would try nothing any more
            if rng.one_in(3) {
                life.pair.finish();
            }
            if rng.one_in(12) {
                life.pair.arrive(&packet_of(254, &[8]));
            }
        }
    }
    seen.assert_all_errors(5);
    assert!(seen.kind(1) > 20_000 && seen.kind(2) > 5_000 && seen.kinds.len() == 3, "{seen:?}");
    assert!(seen.silent_errors > 2_000 && seen.moved > 300 && seen.slots > 300 && seen.stuffed > 100, "{seen:?}");
    assert!(seen.long.iter().all(|&n| n > 40) && seen.nothing_taken > 1_000, "{seen:?}");
}

/// Any record, whoever left it so: any held bytes and any count, any table, any registered write, and any bytes past the count
/// and in the packet buffer. [B2-B7 N6 N7 N9 N12]
#[test]
fn any_records() {
    let mut rng = Rng::new(101);
    let mut seen = Seen::default();
    for _ in 0..8_000 {
        let start = any_board(&mut rng);
        let mut life = Life { pair: BoardPair::new(&mut rng, start), seen: &mut seen };
        for _ in 0..rng.between(0, 4) {
            life.call(None);
        }
        let line = line(&mut rng, &life.pair.board().table);
        life.odd_calls(&mut rng, &line);
    }
    for kind in [0, 1, 2, 22, 23, 25] {
        assert!(seen.kind(kind) > 500, "{seen:?}");
    }
    assert!(seen.kinds.len() == 6 && seen.long.iter().all(|&n| n > 20), "{seen:?}");
}

/// Each refusal applies or not, in every combination: the first in the order 25, 22, 23 is given, whatever was heard, and nothing
/// changes. [B2 N10 N12]
#[test]
fn order_of_refusals() {
    let mut rng = Rng::new(102);
    let ping = packet_of(254, &[1]);
    for faults in 0..8u8 {
        let fault = |bit: u8| faults & (1 << bit) != 0;
        let wanted = [25, 22, 23].into_iter().zip(0..).find(|&(_, bit)| fault(bit)).map(|(number, _)| number);
        for (too_many, too_large) in [(1_031, 253), (usize::MAX, 254), (1 << 32, 255)] {
            let mut start = any_board(&mut rng);
            start.held[..10].copy_from_slice(&ping);
            start.count = if fault(0) { too_many } else { 10 };
            start.table[7] = if fault(1) { too_large } else { 252 };
            start.registered.count = if fault(2) { rng.between(9, 255) as u8 } else { 8 };
            for chunk in [None, Some(&[][..]), Some(&ping)] {
                let mut pair = BoardPair::new(&mut rng, start.clone());
                let step = pair.call(chunk);
                assert_eq!(step.kind, wanted.unwrap_or(1), "faults {faults:03b}");
                if wanted.is_some() {
                    assert_eq!(step, BoardStep { kind: step.kind, registered: step.registered, ..BoardStep::default() });
                    assert_eq!((pair.board(), step.registered.count), (&start, start.registered.count));
                }
            }
        }
    }
}

const STATUS: Reply = Reply { speaks: 1, id: 1, error: 0, count: 0, bytes: [0; 8], slot: 0 };

/// What a fresh board answers to a packet, with its own ID, the return level and the hardware error set.
fn told(rng: &mut Rng, set: [u8; 3], id: u8, body: &[u8]) -> BoardStep {
    let mut start = Board::start();
    (start.table[7], start.table[68], start.table[70]) = (set[0], set[1], set[2]);
    let packet = packet_of(id, body);
    let step = BoardPair::new(rng, start).feed(&packet);
    assert_eq!((step.taken, step.count, step.kind, step.id), (packet.len(), packet.len(), 1, id));
    step
}

/// The instruction and the error, also of what is not answered. [B3-B5]
#[test]
fn instructions_and_errors() {
    let mut rng = Rng::new(103);
    let silence = Reply::default();
    for (id, body, error, reply) in [
        (1, &[3, 65, 0, 1][..], 0, STATUS),
        (1, &[3, 65, 0, 2], 4, Reply { error: 4, ..STATUS }),
        (1, &[0x83], 2, Reply { error: 2, ..STATUS }),
        (1, &[0], 2, Reply { error: 2, ..STATUS }),
        (1, &[0x55, 7], 0, silence),
        (254, &[1], 0, Reply { count: 3, bytes: [6, 4, 38, 0, 0, 0, 0, 0], slot: 1, ..STATUS }),
        // these are carried out or refused in silence
        (254, &[1, 1], 5, silence),
        (254, &[2, 2, 0, 1, 0], 7, silence),
        (254, &[2, 0, 0], 5, silence),
        (254, &[3, 65, 0, 2], 4, silence),
        (254, &[4, 65, 0], 5, silence),
        (254, &[5], 2, silence),
        (254, &[6, 9], 4, silence),
        (254, &[6, 0xFF], 0, silence),
        (254, &[8, 8], 5, silence),
        (254, &[0x8A], 2, silence),
        (254, &[0x83, 65, 0, 1, 0, 9, 1, 1, 2], 4, silence),
        (254, &[0x83, 48, 0, 2, 0, 1, 0, 0], 5, silence),
        (254, &[0x93, 1, 132, 0, 1, 0, 0], 7, silence),
        // a list that no device carries out, and one without an entry for this one
        (254, &[0x82, 2, 0, 1, 0, 1, 1], 0, silence),
        (254, &[0x83, 65, 0, 1, 0, 1, 2, 9], 0, silence),
        (254, &[0x92, 1, 2, 0, 0, 0], 0, silence),
        (254, &[0x93, 9, 2, 0, 1, 0, 1], 0, silence),
        (2, &[3, 65, 0, 2], 0, silence),
    ] {
        let step = told(&mut rng, [1, 2, 0], id, body);
        let instruction = if id == 2 { 0 } else { body[0] };
        assert_eq!((step.instruction, step.error, step.reply), (instruction, error, reply), "{body:02x?} to {id}");
    }
    // the alert is the status's, and a low level hides no error
    for level in 0..=2 {
        let step = told(&mut rng, [1, level, 4], 1, &[3, 65, 0, 2]);
        let reply = if level == 2 { Reply { error: 0x84, ..STATUS } } else { silence };
        assert_eq!((step.instruction, step.error, step.reply), (3, 4, reply));
    }
}

/// Instruction and status go by the ID from before, also where the instruction changes it, to that of another packet or from it.
/// [B4 D30]
#[test]
fn instructions_that_change_the_id() {
    let mut rng = Rng::new(104);
    for (own, id, body, new) in [(9, 9, &[3, 7, 0, 1][..], 1), (9, 9, &[6, 0xFF], 1), (9, 254, &[3, 7, 0, 4], 4), (4, 9, &[8], 4)]
    {
        let step = told(&mut rng, [own, 2, 0], id, body);
        let for_it = own == id || id == 254;
        let reply = if own == id { Reply { id: own, ..STATUS } } else { Reply::default() };
        assert_eq!((step.instruction, step.reply), (if for_it { body[0] } else { 0 }, reply), "{body:02x?}");
        // the next packet goes by the new one
        let mut pair = BoardPair::new(&mut rng, Board { table: fresh(), ..Board::start() });
        pair.change(|board| board.table[7] = own);
        let both = [packet_of(id, body), packet_of(own, &[1]), packet_of(new, &[1])].concat();
        let steps = pair.arrive(&both);
        let instructions: Vec<u8> = steps.iter().map(|step| step.instruction).collect();
        assert_eq!(instructions[1..], [u8::from(own == new), 1], "{body:02x?}");
    }
}

/// 3 for the own ID alone, at any level, and the registered write stays. [B1 B5 D27]
#[test]
fn bad_checksums() {
    let mut rng = Rng::new(105);
    for level in 0..=2 {
        for id in [1, 2, 254] {
            let mut start = Board { packet: [8; LONGEST_PACKET], ..Board::start() };
            start.table[68] = level;
            start.registered = reference::Registered { address: 65, count: 1, bytes: [1; 8], min: 0, max: 4_095 };
            let mut pair = BoardPair::new(&mut rng, start.clone());
            let mut packet = packet_of(id, &[5]);
            packet[8] ^= 0x40;
            let step = pair.feed(&packet);
            let error = if id == 1 { 3 } else { 0 };
            let reply = if id == 1 && level == 2 { Reply { error, ..STATUS } } else { Reply::default() };
            let registered = Registered { address: 65, count: 1, bytes: [1; 8], min: 0, max: 4_095 };
            assert_eq!(step, BoardStep { taken: 10, kind: 2, id, error, reply, registered, ..BoardStep::default() });
            let after = pair.board();
            assert_eq!((after.table, after.registered, after.packet), (start.table, start.registered, start.packet));
        }
    }
}

/// So many bytes held, so many that come, and the kind of the event in them. What lies behind held bytes and bytes taken stays,
/// and the packet buffer beside a packet, as long as these are no more than a record holds. [B6 B7]
#[test]
fn what_stays() {
    let mut rng = Rng::new(106);
    let good = packet_of(1, &[3, 104, 0, 0xFF, 0xFF, 0xFD, 0xFF]);
    let mut bad = good.clone();
    bad[16] ^= 1;
    for (kind, event) in [(0, &[0x11; 17][..]), (1, &good), (2, &bad)] {
        for total in [17, 18, 100, 1_000, 1_029, 1_030, 1_031, 1_032, 1_047] {
            for held in [0, 1, total - 17, total - 9, total - 1, total] {
                if held > MOST_HELD {
                    continue;
                }
                let line = [&vec![0x11; total - 17][..], event, &[0x11; 9]].concat();
                let mut start = Board { held: [0xA5; MOST_HELD], packet: [0x5A; LONGEST_PACKET], count: held, ..Board::start() };
                start.held[..held].copy_from_slice(&line[..held]);
                let mut pair = BoardPair::new(&mut rng, start);
                let step = pair.feed(&line[held..]);
                let seen = held + step.taken;
                assert_eq!((step.kind, seen), (kind, if kind == 0 { total + 9 } else { total }));

                let after = pair.board();
                let kept = if kind == 2 { &event[1..] } else { &[] };
                assert_eq!(after.held[..after.count], *kept);
                let edge = seen.min(MOST_HELD);
                assert!(after.held[after.count..edge].iter().all(|&byte| byte == 0));
                assert!(after.held[edge..].iter().all(|&byte| byte == 0xA5));

                let behind = if seen > MOST_HELD { 0 } else { 0x5A };
                let count = if kind == 1 { 17 } else { 0 };
                assert!(after.packet[count..].iter().all(|&byte| byte == behind));
                if kind == 1 {
                    assert_eq!((&after.packet[..7], &after.packet[14..17]), (&good[..7], &good[14..]));
                    assert_eq!(after.packet[7..14], [3, 104, 0, 0xFF, 0xFF, 0xFD, 0xFF]);
                }
            }
        }
    }
}
