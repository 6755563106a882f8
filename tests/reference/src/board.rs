//! A board: a reader's record, a packet buffer, a control table and a registered write, and one call from the line to the table.

use crate::device::carry_out;
use crate::reader::Given;
use crate::table::own_id;
use crate::{feed, fresh, gap, unstuff, Event, Heard, Registered, Table, Waiting, LONGEST_PACKET, MOST_HELD};

#[derive(Clone, PartialEq, Eq, Debug)]
pub struct Board {
    pub held: [u8; MOST_HELD],
    pub count: usize,
    pub packet: [u8; LONGEST_PACKET],
    pub table: Table,
    pub registered: Registered,
}

/// A call's answer. Kind 0: no event; 1: a packet of `count` bytes; 2: a bad checksum; any other: the number of a refusal.
#[derive(Clone, Copy, PartialEq, Eq, Debug, Default)]
pub struct BoardStep {
    pub taken: usize,
    pub count: usize,
    pub kind: u8,
    pub id: u8,
    pub instruction: u8,
    pub error: u8,
    pub reply: Waiting,
    pub registered: Registered,
}

impl Board {
    /// All 0, with a fresh table.
    pub fn start() -> Board {
        let (held, packet) = ([0; MOST_HELD], [0; LONGEST_PACKET]);
        Board { held, count: 0, packet, table: fresh(), registered: Registered::default() }
    }

    pub fn feed(&mut self, chunk: &[u8]) -> BoardStep {
        self.call(|held| feed(held, chunk))
    }

    pub fn gap(&mut self) -> BoardStep {
        self.call(gap)
    }

    fn refusal(&self) -> Option<u8> {
        match () {
            () if self.count > MOST_HELD => Some(25),
            () if own_id(&self.table) > 252 => Some(22),
            () if self.registered.count > 8 => Some(23),
            () => None,
        }
    }

    fn call(&mut self, read: impl FnOnce(&[u8]) -> Given) -> BoardStep {
        if let Some(kind) = self.refusal() {
            return BoardStep { kind, registered: self.registered, ..BoardStep::default() };
        }
        let Given { taken, event, held } = read(&self.held[..self.count]);
        self.forget(self.count + taken);
        self.held[..held.len()].copy_from_slice(&held);
        self.count = held.len();
        let step = match event {
            None => BoardStep::default(),
            Some(Event::BadChecksum { id }) => self.hear_bad_checksum(id),
            Some(Event::Packet { id, bytes }) => self.hear_packet(id, &bytes),
        };
        BoardStep { taken, registered: self.registered, ..step }
    }

    /// What the call has looked at is 0 before anything is held; what lies further on stays. Nothing stays in the packet buffer
    /// where that was more than a record holds, whether or not a packet comes into it.
    fn forget(&mut self, looked_at: usize) {
        self.held[..looked_at.min(MOST_HELD)].fill(0);
        if looked_at > MOST_HELD {
            self.packet.fill(0);
        }
    }

    fn hear_bad_checksum(&mut self, id: u8) -> BoardStep {
        let (reply, error) = carry_out(&mut self.table, &mut self.registered, Heard::BadChecksum { id });
        BoardStep { kind: 2, id, error, reply, ..BoardStep::default() }
    }

    fn hear_packet(&mut self, id: u8, bytes: &[u8]) -> BoardStep {
        let body = unstuff(&bytes[7..bytes.len() - 2]);
        self.packet[..bytes.len()].copy_from_slice(bytes);
        self.packet[7..7 + body.len()].copy_from_slice(&body);
        // by the ID from before the instruction, which may change it
        let for_us = id == own_id(&self.table) || id == 254;
        let instruction = if for_us { body[0] } else { 0 };
        let (reply, error) = carry_out(&mut self.table, &mut self.registered, Heard::Packet { id, body: &body });
        BoardStep { kind: 1, id, count: bytes.len(), instruction, error, reply, ..BoardStep::default() }
    }
}

#[cfg(test)]
mod tests {
    use super::*;
    use crate::packet_of;

    const STATUS: Waiting = Waiting { speaks: 1, id: 1, error: 0, count: 0, bytes: [0; 8], slot: 0 };

    /// A fresh board whose bytes beside the table are not 0.
    fn scribbled() -> Board {
        Board { held: [7; MOST_HELD], packet: [8; LONGEST_PACKET], ..Board::start() }
    }

    #[test]
    fn a_write_of_the_id() {
        let mut board = scribbled();
        let write = packet_of(1, &[3, 7, 0, 9]);
        let step = board.feed(&[&write[..], &[1, 2]].concat());
        let wanted = BoardStep { taken: 13, count: 13, kind: 1, id: 1, instruction: 3, reply: STATUS, ..BoardStep::default() };
        assert_eq!(step, wanted);
        assert_eq!((board.table[7], board.count), (9, 0));
        assert_eq!((&board.held[..13], &board.held[13..]), (&[0; 13][..], &[7; 1_017][..]));
        assert_eq!((&board.packet[..13], &board.packet[13..]), (&write[..], &[8; 1_018][..]));
        // it is for another now, and its bytes stand in the buffer all the same
        let step = board.feed(&packet_of(1, &[3, 7, 0, 4]));
        assert_eq!(step, BoardStep { taken: 13, count: 13, kind: 1, id: 1, ..BoardStep::default() });
        assert_eq!((board.table[7], board.packet[10]), (9, 4));
    }

    /// The rest of the stuffed body stands between the body and the checksum.
    #[test]
    fn stuffing_is_removed_in_the_buffer() {
        let mut board = scribbled();
        let body = [3, 104, 0, 0xFF, 0xFF, 0xFD, 0xFF];
        let packet = packet_of(1, &body);
        assert_eq!(packet.len(), 17);
        let step = board.feed(&packet);
        assert_eq!((step.count, step.instruction, step.error), (17, 3, 4));
        let mut wanted = packet;
        wanted[7..14].copy_from_slice(&body);
        assert_eq!((&board.packet[..17], &board.packet[17..]), (&wanted[..], &[8; 1_014][..]));
        assert_eq!(board.packet[14], 0xFF);
    }

    /// No status is sent of these, and their errors are told.
    #[test]
    fn errors_that_nobody_hears() {
        for (id, body, error) in [
            (254, &[3, 2, 0, 1][..], 7),
            (254, &[1, 1], 5),
            (254, &[2, 2, 0, 1, 0], 7),
            (254, &[5], 2),
            (254, &[0x9A], 2),
            (254, &[6, 0xFF], 0),
            (254, &[0x83, 65, 0, 1, 0, 1, 2], 4),
            (254, &[0x93, 1, 7, 0, 1, 0, 253], 4),
            // no list that a device carries out, and one without an entry for this one
            (254, &[0x83, 65, 0, 1, 0, 1], 0),
            (254, &[0x83, 65, 0, 1, 0, 2, 2], 0),
            (254, &[0x92, 1, 2, 0], 0),
            (254, &[0x55, 9], 0),
            (2, &[3, 2, 0, 1], 0),
        ] {
            let mut board = Board::start();
            let step = board.feed(&packet_of(id, body));
            let instruction = if id == 254 { body[0] } else { 0 };
            assert_eq!((step.instruction, step.error, step.reply), (instruction, error, Waiting::default()), "{body:02x?}");
            assert_eq!(board.table, fresh());
        }
        // at level 0, where the alert is no part of it either
        let mut board = Board::start();
        (board.table[68], board.table[70]) = (0, 4);
        let step = board.feed(&packet_of(1, &[3, 2, 0, 1]));
        assert_eq!((step.error, step.reply), (7, Waiting::default()));
    }

    #[test]
    fn bad_checksums() {
        for (id, level, error, reply) in [
            (1, 2, 3, Waiting { error: 3, ..STATUS }),
            (1, 0, 3, Waiting::default()),
            (2, 2, 0, Waiting::default()),
            (254, 2, 0, Waiting::default()),
        ] {
            let mut board = scribbled();
            board.table[68] = level;
            board.registered.count = 8;
            let registered = board.registered;
            let mut packet = packet_of(id, &[1]);
            packet[9] ^= 1;
            let step = board.feed(&packet);
            assert_eq!(step, BoardStep { taken: 10, kind: 2, id, error, reply, registered, ..BoardStep::default() });
            assert_eq!((board.packet, board.registered), ([8; LONGEST_PACKET], registered));
            assert_eq!((board.count, &board.held[..9], board.held[9], board.held[10]), (9, &packet[1..], 0, 7));
        }
    }

    /// Beside the packet the buffer stays as long as a record holds all that was looked at.
    #[test]
    fn many_bytes() {
        let ping = packet_of(1, &[1]);
        for (before, behind) in [(1_020, 8), (1_021, 0)] {
            let mut board = scribbled();
            let step = board.feed(&[&vec![0x11; before][..], &ping].concat());
            assert_eq!((step.taken, step.kind), (before + 10, 1));
            assert_eq!((board.held, &board.packet[..10]), ([0; MOST_HELD], &ping[..]));
            assert_eq!(board.packet[10..], [behind; 1_021]);
            // without a packet
            let mut board = scribbled();
            board.feed(&vec![0x11; before + 10]);
            assert_eq!((board.held, board.packet), ([0; MOST_HELD], [behind; LONGEST_PACKET]));
        }
    }

    #[test]
    fn a_gap() {
        let mut board = scribbled();
        let line = [&[0xFF, 0xFF, 0xFD, 0x00, 9, 0, 4][..], &packet_of(254, &[1]), &[0xFF]].concat();
        assert_eq!(board.feed(&line), BoardStep { taken: 18, ..BoardStep::default() });
        assert_eq!((board.count, &board.held[..18], board.held[18]), (18, &line[..], 7));
        let step = board.gap();
        let reply = Waiting { count: 3, bytes: [6, 4, 38, 0, 0, 0, 0, 0], slot: 1, ..STATUS };
        assert_eq!(step, BoardStep { count: 10, kind: 1, id: 254, instruction: 1, reply, ..BoardStep::default() });
        assert_eq!((board.count, board.held[0], board.held[1], board.held[18]), (1, 0xFF, 0, 7));
        assert_eq!(board.gap(), BoardStep::default());
        assert_eq!((board.count, board.held[0], board.held[18]), (0, 0, 7));
    }

    /// Whatever else is wrong, the first of 25, 22 and 23 is given, and nothing changes.
    #[test]
    fn refusals() {
        for (count, id, n, kind) in [(1_031, 253, 9, 25), (1_030, 253, 9, 22), (1_030, 252, 9, 23), (usize::MAX, 1, 0, 25)] {
            let mut board = scribbled();
            (board.count, board.table[7], board.registered.count) = (count, id, n);
            let before = board.clone();
            let wanted = BoardStep { kind, registered: board.registered, ..BoardStep::default() };
            assert_eq!((board.feed(&packet_of(1, &[1])), board.gap()), (wanted, wanted));
            assert_eq!(board, before);
        }
    }
}
