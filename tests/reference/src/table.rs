//! The control table: its registers, the fresh and the measurement call, the rules for reads and writes.

pub const TABLE_BYTES: usize = 136;

#[derive(Clone, Copy, PartialEq, Eq, Debug)]
enum Access {
    Read,
    ReadWrite,
}

#[derive(Clone, Copy, PartialEq, Eq, Debug)]
enum Area {
    Rom,
    Ram,
}
use Access::{Read, ReadWrite};
use Area::{Ram, Rom};

#[derive(Clone, Copy, PartialEq, Eq, Debug)]
struct Register {
    address: usize,
    bytes: usize,
    access: Access,
    area: Area,
    range: Option<(i64, i64)>,
    fresh: i64,
}

const fn register(address: usize, bytes: usize, access: Access, area: Area, range: Option<(i64, i64)>, fresh: i64) -> Register {
    Register { address, bytes, access, area, range, fresh }
}

const MODEL_NUMBER: Register = register(0, 2, Read, Rom, None, 1030);
const FIRMWARE: Register = register(6, 1, Read, Rom, None, 38);
const ID: Register = register(7, 1, ReadWrite, Rom, Some((0, 252)), 1);
const BAUD_CODE: Register = register(8, 1, ReadWrite, Rom, Some((0, 7)), 1);
const HOMING_OFFSET: Register = register(20, 4, ReadWrite, Rom, Some((-1_044_479, 1_044_479)), 0);
const MAX_POSITION: Register = register(48, 4, ReadWrite, Rom, Some((0, 4095)), 4095);
const MIN_POSITION: Register = register(52, 4, ReadWrite, Rom, Some((0, 4095)), 0);
const TORQUE_ENABLE: Register = register(64, 1, ReadWrite, Ram, Some((0, 1)), 0);
const LAMP: Register = register(65, 1, ReadWrite, Ram, Some((0, 1)), 0);
const RETURN_LEVEL: Register = register(68, 1, ReadWrite, Ram, Some((0, 2)), 2);
const REGISTERED_INSTRUCTION: Register = register(69, 1, Read, Ram, None, 0);
const HARDWARE_ERROR: Register = register(70, 1, Read, Ram, None, 0);
const GOAL_VELOCITY: Register = register(104, 4, ReadWrite, Ram, Some((-330, 330)), 0);
const GOAL_POSITION: Register = register(116, 4, ReadWrite, Ram, Some((0, 4095)), 0);
const PRESENT_POSITION: Register = register(132, 4, Read, Ram, None, 0);

const REGISTERS: [Register; 15] = [
    MODEL_NUMBER,
    FIRMWARE,
    ID,
    BAUD_CODE,
    HOMING_OFFSET,
    MAX_POSITION,
    MIN_POSITION,
    TORQUE_ENABLE,
    LAMP,
    RETURN_LEVEL,
    REGISTERED_INSTRUCTION,
    HARDWARE_ERROR,
    GOAL_VELOCITY,
    GOAL_POSITION,
    PRESENT_POSITION,
];

impl Register {
    fn end(&self) -> usize {
        self.address + self.bytes
    }

    fn has(&self, address: usize) -> bool {
        (self.address..self.end()).contains(&address)
    }

    /// Low byte first; an item of four bytes is signed.
    fn value(&self, table: &Table) -> i64 {
        let bytes = &table[self.address..self.end()];
        match *bytes {
            [a, b, c, d] => i64::from(i32::from_le_bytes([a, b, c, d])),
            _ => bytes.iter().rev().fold(0, |value, &byte| 256 * value + i64::from(byte)),
        }
    }

    fn set(&self, table: &mut Table, value: i64) {
        table[self.address..self.end()].copy_from_slice(&value.to_le_bytes()[..self.bytes]);
    }

    fn set_fresh(&self, table: &mut Table) {
        self.set(table, self.fresh);
    }
}

fn register_at(address: usize) -> Option<&'static Register> {
    REGISTERS.iter().find(|register| register.has(address))
}

pub type Table = [u8; TABLE_BYTES];

pub fn fresh() -> Table {
    let mut table = [0; TABLE_BYTES];
    for register in REGISTERS {
        register.set_fresh(&mut table);
    }
    table
}

/// The fresh call on a table of any length: 0, or refused with 21.
pub fn fresh_call(table: &mut [u8]) -> Result<(), u8> {
    let table: &mut Table = table.try_into().map_err(|_| 21)?;
    *table = fresh();
    Ok(())
}

/// The measurement call on a table of any length.
pub fn measure_call(table: &mut [u8], position: i32, hardware_error: u8) -> Result<(), u8> {
    let table: &mut Table = table.try_into().map_err(|_| 21)?;
    PRESENT_POSITION.set(table, i64::from(position));
    HARDWARE_ERROR.set(table, i64::from(hardware_error));
    Ok(())
}

/// The bytes, or the error of the status.
pub fn read(table: &Table, address: usize, length: usize) -> Result<Vec<u8>, u8> {
    let touched = address..address + length;
    if length == 0 {
        return Err(5);
    }
    if touched.clone().any(|address| register_at(address).is_none()) {
        return Err(7);
    }
    Ok(table[touched].to_vec())
}

/// The table after the write, or the error of the status.
pub fn write(table: &Table, address: usize, data: &[u8]) -> Result<Table, u8> {
    let touched = address..address + data.len();
    if data.is_empty() {
        return Err(5);
    }

    let locked = TORQUE_ENABLE.value(table) != 0;
    for address in touched.clone() {
        match register_at(address) {
            None => return Err(7),
            Some(register) if register.access == Read => return Err(7),
            Some(register) if register.area == Rom && locked => return Err(7),
            Some(_) => {}
        }
    }

    let written: Vec<Register> = REGISTERS.into_iter().filter(|item| touched.clone().any(|at| item.has(at))).collect();
    if written.iter().any(|item| item.address < touched.start || item.end() > touched.end) {
        return Err(5);
    }

    let mut new = *table;
    new[touched].copy_from_slice(data);
    for item in &written {
        let (lowest, highest) = item.range.expect("what can be written has a range");
        if !(lowest..=highest).contains(&item.value(&new)) {
            return Err(4);
        }
    }

    let (min, max, goal) = (MIN_POSITION.value(&new), MAX_POSITION.value(&new), GOAL_POSITION.value(&new));
    let (goal_outside, limit_written) =
        (goal < min || goal > max, written.contains(&MIN_POSITION) || written.contains(&MAX_POSITION));
    if limit_written && min > max {
        return Err(6);
    }
    if written.contains(&GOAL_POSITION) && goal_outside {
        return Err(6);
    }
    // the goal that is stored already
    if limit_written && goal_outside {
        return Err(6);
    }
    Ok(new)
}

// What the device asks of its table.

pub(crate) fn own_id(table: &Table) -> u8 {
    table[ID.address]
}

pub(crate) fn return_level(table: &Table) -> u8 {
    table[RETURN_LEVEL.address]
}

pub(crate) fn hardware_error(table: &Table) -> u8 {
    table[HARDWARE_ERROR.address]
}

/// Min position and max position as they are stored.
pub(crate) fn limits(table: &Table) -> (i32, i32) {
    (MIN_POSITION.value(table) as i32, MAX_POSITION.value(table) as i32)
}

pub(crate) fn set_registered(table: &mut Table, is_registered: bool) {
    REGISTERED_INSTRUCTION.set(table, i64::from(is_registered));
}

/// What Ping answers.
pub(crate) fn model_and_firmware(table: &Table) -> Vec<u8> {
    [MODEL_NUMBER, FIRMWARE].iter().flat_map(|item| table[item.address..item.end()].to_vec()).collect()
}

pub(crate) fn reboot(table: &mut Table) {
    let present = PRESENT_POSITION.value(table);
    for item in REGISTERS.iter().filter(|item| item.area == Ram) {
        item.set_fresh(table);
    }
    PRESENT_POSITION.set(table, present);
    GOAL_POSITION.set(table, MIN_POSITION.value(table));
}

/// The writable ROM items but for the ID, the baud code, or both.
pub(crate) fn reset_rom(table: &mut Table, keep_id: bool, keep_baud_code: bool) {
    for item in REGISTERS.iter().filter(|item| item.area == Rom && item.access == ReadWrite) {
        if !(keep_id && *item == ID || keep_baud_code && *item == BAUD_CODE) {
            item.set_fresh(table);
        }
    }
}

#[cfg(test)]
mod tests {
    use super::*;

    /// A fresh table with some bytes set.
    fn table(set: &[(usize, &[u8])]) -> Table {
        let mut table = fresh();
        for (address, bytes) in set {
            table[*address..address + bytes.len()].copy_from_slice(bytes);
        }
        table
    }

    #[test]
    fn fresh_table() {
        let set = [(0, 6), (1, 4), (6, 38), (7, 1), (8, 1), (48, 0xFF), (49, 0x0F), (68, 2)];
        let mut wanted = [0; TABLE_BYTES];
        for (address, byte) in set {
            wanted[address] = byte;
        }
        assert_eq!(fresh(), wanted);
    }

    #[test]
    fn velocity() {
        assert_eq!(write(&fresh(), 104, &[0xFF; 4]), Ok(table(&[(104, &[0xFF; 4])])));
        for (value, answer) in [(330, None), (331, Some(4)), (-330, None), (-331, Some(4)), (i32::MIN, Some(4))] {
            assert_eq!(write(&fresh(), 104, &i32::to_le_bytes(value)).err(), answer, "{value}");
        }
        assert_eq!(write(&fresh(), 104, &[1, 0]), Err(5));
    }

    #[test]
    fn limits() {
        let both = [100i32.to_le_bytes(), 200i32.to_le_bytes()].concat();
        assert_eq!(write(&fresh(), 48, &both), Err(6));
        let both = [200i32.to_le_bytes(), 200i32.to_le_bytes()].concat();
        // the goal of a fresh table is 0
        assert_eq!(write(&fresh(), 48, &both), Err(6));
        let moved = table(&[(116, &200i32.to_le_bytes())]);
        let narrow = table(&[(48, &both), (116, &200i32.to_le_bytes())]);
        assert_eq!(write(&moved, 48, &both), Ok(narrow));
        assert_eq!(write(&narrow, 116, &201i32.to_le_bytes()), Err(6));
        assert_eq!(write(&narrow, 116, &199i32.to_le_bytes()), Err(6));
        assert!(write(&narrow, 116, &200i32.to_le_bytes()).is_ok());
        for (address, value, answer) in [(48, 199, Some(6)), (48, 200, None), (52, 200, None), (52, 201, Some(6))] {
            assert_eq!(write(&moved, address, &i32::to_le_bytes(value)).err(), answer, "{value} at {address}");
        }
    }

    /// The order of the tests: no data, then forbidden bytes, then cut items, then ranges.
    #[test]
    fn stages() {
        let locked = table(&[(64, &[2])]);
        assert_eq!(write(&locked, 48, &[]), Err(5));
        assert_eq!(write(&fresh(), 50, &[0; 4]), Err(5));
        assert_eq!(write(&locked, 50, &[0; 4]), Err(7));
        assert_eq!(write(&fresh(), 20, &[0; 5]), Err(7));
        assert_eq!(write(&fresh(), 20, &[0; 3]), Err(5));
        assert_eq!(write(&fresh(), 7, &[253, 1]), Err(4));
        assert_eq!(write(&fresh(), 134, &[0; 4]), Err(7));
        assert_eq!(write(&fresh(), 65_535, &[0]), Err(7));
    }

    #[test]
    fn reads() {
        assert_eq!(read(&fresh(), 0, 2), Ok(vec![6, 4]));
        assert_eq!(read(&fresh(), 1, 1), Ok(vec![4]));
        assert_eq!(read(&fresh(), 48, 8), Ok(vec![0xFF, 0x0F, 0, 0, 0, 0, 0, 0]));
        assert_eq!(read(&fresh(), 48, 9), Err(7));
        assert_eq!(read(&fresh(), 3, 0), Err(5));
        assert_eq!(read(&fresh(), 135, 2), Err(7));
        assert_eq!(read(&fresh(), 65_535, 65_535), Err(7));
    }
}
