//! A device as a case goes on: the generator follows it by the reference, so that instructions meet what the table holds.

use crate::Operation;
use compare::device_inputs::{self, value};
use compare::{BAD_CHECKSUM, PACKET};
use reference::{device_call, framed, fresh, packet_of, reading, unstuff, Event, Heard, Registered, Rng, Table, TABLE_BYTES};

pub struct Board {
    table: Vec<u8>,
    registered: Registered,
    reply: usize,
}

impl Board {
    /// A board that refuses nothing.
    pub fn sound(rng: &mut Rng, operations: &mut Vec<Operation>) -> Board {
        let table = device_inputs::table(rng);
        let mut registered = if rng.one_in(3) { device_inputs::registered(rng, &table) } else { Registered::default() };
        registered.count %= 9;
        let reply = rng.pick(&[32, 32, 32, 33, 40, 100]);
        let mut board = Board { table: table.to_vec(), registered, reply };
        board.tell(operations);
        if rng.one_in(3) {
            board.fresh(operations);
        }
        board
    }

    /// A board that every call refuses, for one reason or several.
    pub fn odd(rng: &mut Rng, operations: &mut Vec<Operation>) -> Board {
        let mut table = device_inputs::table(rng).to_vec();
        let mut registered = device_inputs::registered(rng, &table);
        let mut reply = 32;
        for _ in 0..rng.between(1, 2) {
            match rng.between(0, 3) {
                0 => {
                    let length = some_length(rng);
                    table.resize(length, 7);
                }
                1 if table.len() > 7 => table[7] = rng.pick(&[253, 254, 255]),
                2 => registered.count = rng.pick(&[9, 10, 16, 128, 255]),
                _ => reply = rng.pick(&[0, 1, 11, 21, 30, 31]),
            }
        }
        let board = Board { table, registered, reply };
        board.tell(operations);
        board
    }

    fn tell(&self, operations: &mut Vec<Operation>) {
        operations.push(Operation::Board { reply: self.reply, table: self.table.clone() });
        let Registered { address, count, bytes, min, max } = self.registered;
        operations.push(Operation::Registered { address, count, bytes, min, max });
    }

    /// The table for drawing inputs; a fresh one where it has not its length.
    pub fn known(&self) -> Table {
        self.table.as_slice().try_into().unwrap_or_else(|_| fresh())
    }

    /// A refused call leaves the table, so that what the reference answers needs no look.
    fn fresh(&mut self, operations: &mut Vec<Operation>) {
        operations.push(Operation::Fresh);
        let _ = reference::fresh_call(&mut self.table);
    }

    fn measure(&mut self, rng: &mut Rng, operations: &mut Vec<Operation>) {
        let error = if rng.one_in(3) { rng.byte() } else { 0 };
        let position = value(rng, &self.known());
        operations.push(Operation::Measure { position, error });
        let _ = reference::measure_call(&mut self.table, position, error);
    }

    fn poke(&mut self, rng: &mut Rng, operations: &mut Vec<Operation>) {
        let (address, byte) = (rng.between(8, TABLE_BYTES - 1), rng.byte());
        operations.push(Operation::Poke { address, byte });
        if let Some(place) = self.table.get_mut(address) {
            *place = byte;
        }
    }

    /// What happens to a board beside the line.
    pub fn meanwhile(&mut self, rng: &mut Rng, operations: &mut Vec<Operation>) {
        match rng.between(0, 199) {
            0..=6 => self.measure(rng, operations),
            7 => self.poke(rng, operations),
            8 => self.fresh(operations),
            9 | 10 => {
                self.registered = device_inputs::registered(rng, &self.known());
                let Registered { address, count, bytes, min, max } = self.registered;
                operations.push(Operation::Registered { address, count, bytes, min, max });
            }
            // one that has gone quiet or is locked would try nothing any more
            11..=15 => self.hear(PACKET, 254, vec![8], operations),
            _ => {}
        }
    }

    /// The ID and the body of an instruction.
    pub fn instruction(&self, rng: &mut Rng) -> (u8, Vec<u8>) {
        device_inputs::instruction(rng, &self.known())
    }

    pub fn hear(&mut self, kind: u8, id: u8, body: Vec<u8>, operations: &mut Vec<Operation>) {
        self.follow(kind, id, &body);
        operations.push(Operation::Hear { kind, id, body });
    }

    /// As a packet in its bytes, some of them damaged or cut short, with a body buffer that mostly has room.
    pub fn receive(&mut self, rng: &mut Rng, id: u8, body: &[u8], operations: &mut Vec<Operation>) {
        let mut packet = packet_of(id, body);
        match rng.between(0, 9) {
            0 => packet.truncate(rng.between(0, packet.len())),
            1 => {
                let place = rng.between(0, packet.len() - 1);
                packet[place] = rng.pick(&[0xFF, 0xFD, 0x00]);
            }
            // no FD after the last FF FF FD
            2 => packet = framed(id, &[body, &[0xFF, 0xFF, 0xFD]].concat()),
            _ => self.follow(PACKET, id, body),
        }
        let room = match rng.between(0, 9) {
            0 => rng.between(0, body.len() + 1),
            _ => body.len() + rng.between(0, 4),
        };
        operations.push(Operation::Receive { room, packet });
    }

    fn follow(&mut self, kind: u8, id: u8, body: &[u8]) {
        let heard = match kind {
            PACKET => Heard::Packet { id, body },
            BAD_CHECKSUM => Heard::BadChecksum { id },
            _ => Heard::Nothing,
        };
        if let Ok(answer) = device_call(&mut self.table, self.registered, heard, &mut [0; 100][..self.reply]) {
            self.registered = answer.registered;
        }
    }

    /// As if these bytes were a segment of their own.
    pub fn follow_line(&mut self, line: &[u8]) {
        for found in reading(line) {
            if let Event::Packet { id, bytes } = found.event {
                self.follow(PACKET, id, &unstuff(&bytes[7..bytes.len() - 2]));
            }
        }
    }
}

/// Lengths that are not a table's, mostly near it.
pub fn some_length(rng: &mut Rng) -> usize {
    match rng.between(0, 3) {
        0 => rng.pick(&[0, 1, 7, 8, 135, 137, 272, 1_000]),
        1 => rng.between(0, 135),
        _ => rng.between(137, 150),
    }
}
