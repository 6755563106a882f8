//! The device: what it does on hearing something, and the status that it answers.

use crate::table::{self, Table};
use crate::{packet_of, unstuff, well_formed, well_stuffed};

const FEWEST_REPLY_BYTES: usize = 32;

/// A write that waits for Action, and the limits of the position that stood when it was registered; a count of 0 means none.
#[derive(Clone, Copy, PartialEq, Eq, Debug, Default)]
pub struct Registered {
    pub address: u16,
    pub count: u8,
    pub bytes: [u8; 8],
    pub min: i32,
    pub max: i32,
}

#[derive(Clone, Copy, PartialEq, Eq, Debug)]
pub enum Heard<'a> {
    /// A packet event with its body unstuffed.
    Packet {
        id: u8,
        body: &'a [u8],
    },
    BadChecksum {
        id: u8,
    },
    Nothing,
}

/// The status's byte count (0: silence), the reply slot, and the registered write as it is now.
#[derive(Clone, Copy, PartialEq, Eq, Debug)]
pub struct Answer {
    pub count: usize,
    pub slot: u8,
    pub registered: Registered,
}

#[derive(Clone, Copy, PartialEq, Eq, Debug)]
enum Sent {
    ToUs,
    ToAll,
}

/// The data of a status, or its error number.
type Outcome = Result<Vec<u8>, u8>;

/// What came of something heard, and where a status may say so: the return level that it needs and its slot.
struct Reaction {
    outcome: Outcome,
    status: Option<(u8, u8)>,
}

impl Reaction {
    /// Its slot, where a status is sent at this return level.
    fn slot(&self, level: u8) -> Option<u8> {
        self.status.filter(|&(lowest, _)| level >= lowest).map(|(_, slot)| slot)
    }
}

fn answered(level: u8, slot: u8, outcome: Outcome) -> Reaction {
    Reaction { outcome, status: Some((level, slot)) }
}

fn unanswered(outcome: Outcome) -> Reaction {
    Reaction { outcome, status: None }
}

fn nothing_done() -> Reaction {
    unanswered(Ok(vec![]))
}

/// The device call on a table and a reply buffer of any length, or the number of its refusal.
pub fn device_call(table: &mut [u8], registered: Registered, heard: Heard, out: &mut [u8]) -> Result<Answer, u8> {
    let table: &mut Table = table.try_into().map_err(|_| 21)?;
    if table::own_id(table) > 252 {
        return Err(22);
    }
    if registered.count > 8 {
        return Err(23);
    }
    if out.len() < FEWEST_REPLY_BYTES {
        return Err(24);
    }

    let (id, level) = (table::own_id(table), table::return_level(table));
    let mut registered = registered;
    let reaction = receive(table, &mut registered, heard);
    let Some(slot) = reaction.slot(level) else {
        return Ok(Answer { count: 0, slot: 0, registered });
    };
    let (error, data) = match reaction.outcome {
        Ok(data) => (0, data),
        Err(error) => (error, vec![]),
    };
    let alert = if table::hardware_error(table) != 0 { 0x80 } else { 0 };
    let status = packet_of(id, &[&[0x55, error | alert], &data[..]].concat());
    out[..status.len()].copy_from_slice(&status);
    Ok(Answer { count: status.len(), slot, registered })
}

/// The device call on a packet as received, whose unstuffed body goes into a buffer of any length. Bytes that are not one
/// well-formed packet are silence.
pub fn packet_call(
    table: &mut [u8],
    registered: Registered,
    packet: &[u8],
    buffer: &mut [u8],
    out: &mut [u8],
) -> Result<Answer, u8> {
    let stuffed = packet.get(7..packet.len().max(2) - 2).unwrap_or(&[]);
    if !well_stuffed(stuffed) {
        return Err(14);
    }
    let body = unstuff(stuffed);
    if buffer.len() < body.len() {
        return Err(13);
    }
    let heard = if well_formed(packet) { Heard::Packet { id: packet[4], body: &body } } else { Heard::Nothing };
    let answer = device_call(table, registered, heard, out)?;
    buffer[..body.len()].copy_from_slice(&body);
    Ok(answer)
}

/// A reply that waits for its slot. Silence: all 0.
#[derive(Clone, Copy, PartialEq, Eq, Debug, Default)]
pub struct Waiting {
    pub speaks: u8,
    pub id: u8,
    pub error: u8,
    pub count: u8,
    pub bytes: [u8; 8],
    pub slot: usize,
}

/// The first of two calls: carries out, and says what is to be said later; or the number of its refusal.
pub fn carry_out_call(table: &mut [u8], registered: Registered, heard: Heard) -> Result<(Waiting, Registered), u8> {
    let table: &mut Table = table.try_into().map_err(|_| 21)?;
    let id = table::own_id(table);
    match () {
        () if id > 252 => return Err(22),
        () if registered.count > 8 => return Err(23),
        () => {}
    }
    let mut registered = registered;
    let (waiting, _) = carry_out(table, &mut registered, heard);
    Ok((waiting, registered))
}

/// Carries out on a table and a registered write that are accepted: what is to be said later, and the error number, which is
/// there also where nothing is said.
pub(crate) fn carry_out(table: &mut Table, registered: &mut Registered, heard: Heard) -> (Waiting, u8) {
    let (id, level) = (table::own_id(table), table::return_level(table));
    let reaction = receive(table, registered, heard);
    let slot = reaction.slot(level);
    let (error, data) = reaction.outcome.map_or_else(|error| (error, vec![]), |data| (0, data));
    let Some(slot) = slot else {
        return (Waiting::default(), error);
    };
    let alert = u8::from(table::hardware_error(table) != 0) << 7;
    let mut bytes = [0; 8];
    bytes[..data.len()].copy_from_slice(&data);
    let waiting = Waiting { speaks: 1, id, error: error | alert, count: data.len() as u8, bytes, slot: usize::from(slot) };
    (waiting, error)
}

/// The same for a packet as received, whose unstuffed body goes into a buffer of any length.
pub fn carry_out_packet_call(
    table: &mut [u8],
    registered: Registered,
    packet: &[u8],
    buffer: &mut [u8],
) -> Result<(Waiting, Registered), u8> {
    let stuffed = packet.get(7..packet.len().max(2) - 2).unwrap_or(&[]);
    if !well_stuffed(stuffed) {
        return Err(14);
    }
    let body = unstuff(stuffed);
    let room = buffer.get_mut(..body.len()).ok_or(13)?;
    let heard = if well_formed(packet) { Heard::Packet { id: packet[4], body: &body } } else { Heard::Nothing };
    let carried = carry_out_call(table, registered, heard)?;
    room.copy_from_slice(&body);
    Ok(carried)
}

/// The second: makes the packet of any such record. How many bytes that are, or the number of the refusal.
pub fn status_call(waiting: Waiting, out: &mut [u8]) -> Result<usize, u8> {
    if waiting.id > 252 {
        return Err(11);
    }
    let data = waiting.bytes.get(..usize::from(waiting.count)).ok_or(12)?;
    if out.len() < FEWEST_REPLY_BYTES {
        return Err(24);
    }
    if waiting.speaks == 0 {
        return Ok(0);
    }
    let status = packet_of(waiting.id, &[&[0x55, waiting.error], data].concat());
    out[..status.len()].copy_from_slice(&status);
    Ok(status.len())
}

fn receive(table: &mut Table, registered: &mut Registered, heard: Heard) -> Reaction {
    let own = table::own_id(table);
    match heard {
        Heard::Nothing => nothing_done(),
        Heard::BadChecksum { id } if id == own => answered(2, 0, Err(3)),
        Heard::BadChecksum { .. } => nothing_done(),
        Heard::Packet { id, body } if id == own => dispatch(table, registered, Sent::ToUs, body),
        Heard::Packet { id: 254, body } => dispatch(table, registered, Sent::ToAll, body),
        Heard::Packet { .. } => nothing_done(),
    }
}

fn dispatch(table: &mut Table, registered: &mut Registered, sent: Sent, body: &[u8]) -> Reaction {
    let to_us = |level, outcome| if sent == Sent::ToUs { answered(level, 0, outcome) } else { unanswered(outcome) };
    let Some((&instruction, parameters)) = body.split_first() else {
        return to_us(2, Err(2));
    };
    match instruction {
        0x55 => nothing_done(),
        0x01 => match (sent, ping(table, parameters)) {
            (Sent::ToAll, Ok(data)) => answered(0, table::own_id(table), Ok(data)),
            (_, outcome) => to_us(0, outcome),
        },
        0x02 => to_us(1, read(table, parameters)),
        0x03 => to_us(2, write(table, parameters)),
        0x04 => to_us(2, reg_write(table, registered, parameters)),
        0x05 => to_us(2, action(table, registered, parameters)),
        0x06 => to_us(2, factory_reset(table, registered, sent, parameters)),
        0x08 => to_us(2, reboot(table, registered, parameters)),
        0x82 if sent == Sent::ToAll => sync_read(table, parameters).unwrap_or_else(nothing_done),
        0x82 => to_us(1, Err(2)),
        0x83 if sent == Sent::ToAll => sync_write(table, parameters).map_or_else(nothing_done, unanswered),
        0x92 if sent == Sent::ToAll => bulk_read(table, parameters).unwrap_or_else(nothing_done),
        0x92 => to_us(1, Err(2)),
        0x93 if sent == Sent::ToAll => bulk_write(table, parameters).map_or_else(nothing_done, unanswered),
        _ => to_us(2, Err(2)),
    }
}

fn number(low: u8, high: u8) -> usize {
    usize::from(low) + 256 * usize::from(high)
}

fn ping(table: &Table, parameters: &[u8]) -> Outcome {
    match parameters {
        [] => Ok(table::model_and_firmware(table)),
        _ => Err(5),
    }
}

fn read(table: &Table, parameters: &[u8]) -> Outcome {
    match *parameters {
        [a, b, c, d] => table::read(table, number(a, b), number(c, d)),
        _ => Err(5),
    }
}

fn write(table: &mut Table, parameters: &[u8]) -> Outcome {
    match *parameters {
        [a, b, ref data @ ..] => store(table, number(a, b), data),
        _ => Err(5),
    }
}

/// A refused write leaves every byte.
fn store(table: &mut Table, address: usize, data: &[u8]) -> Outcome {
    *table = table::write(table, address, data)?;
    Ok(vec![])
}

fn reg_write(table: &mut Table, registered: &mut Registered, parameters: &[u8]) -> Outcome {
    let [a, b, ref data @ ..] = *parameters else {
        return Err(5);
    };
    table::write(table, number(a, b), data)?;
    let mut bytes = [0; 8];
    bytes[..data.len()].copy_from_slice(data);
    let (min, max) = table::limits(table);
    *registered = Registered { address: u16::from_le_bytes([a, b]), count: data.len() as u8, bytes, min, max };
    table::set_registered(table, true);
    Ok(vec![])
}

fn action(table: &mut Table, registered: &mut Registered, parameters: &[u8]) -> Outcome {
    if !parameters.is_empty() {
        return Err(5);
    }
    if registered.count == 0 {
        return Err(2);
    }
    let write = std::mem::take(registered);
    table::set_registered(table, false);
    if (write.min, write.max) != table::limits(table) {
        return Err(6);
    }
    store(table, usize::from(write.address), &write.bytes[..usize::from(write.count)])
}

fn reboot(table: &mut Table, registered: &mut Registered, parameters: &[u8]) -> Outcome {
    if !parameters.is_empty() {
        return Err(5);
    }
    *registered = Registered::default();
    table::reboot(table);
    Ok(vec![])
}

fn factory_reset(table: &mut Table, registered: &mut Registered, sent: Sent, parameters: &[u8]) -> Outcome {
    let &[option] = parameters else {
        return Err(5);
    };
    let (keep_id, keep_baud_code) = match option {
        0xFF if sent == Sent::ToAll => return Ok(vec![]),
        0xFF => (false, false),
        0x01 => (true, false),
        0x02 => (true, true),
        _ => return Err(4),
    };
    table::reset_rom(table, keep_id, keep_baud_code);
    reboot(table, registered, &[])
}

/// A Sync list in its parts, or nothing if any rule is broken anywhere in it.
struct Sync<'a> {
    address: usize,
    length: usize,
    /// IDs, each with the bytes after it.
    entries: Vec<(u8, &'a [u8])>,
}

fn sync_list(parameters: &[u8], bytes_with_ids: bool) -> Option<Sync<'_>> {
    let [a, b, c, d, ref list @ ..] = *parameters else {
        return None;
    };
    let (address, length) = (number(a, b), number(c, d));
    let entry = if bytes_with_ids { 1 + length } else { 1 };
    if length == 0 || list.len() % entry != 0 {
        return None;
    }
    let entries: Vec<(u8, &[u8])> = list.chunks(entry).map(|entry| (entry[0], &entry[1..])).collect();
    let ids: Vec<u8> = entries.iter().map(|&(id, _)| id).collect();
    usable(&ids).then_some(Sync { address, length, entries })
}

/// None of the IDs is above 252, and none comes twice.
fn usable(ids: &[u8]) -> bool {
    (0..ids.len()).all(|i| ids[i] <= 252 && !ids[..i].contains(&ids[i]))
}

fn sync_read(table: &Table, parameters: &[u8]) -> Option<Reaction> {
    let list = sync_list(parameters, false)?;
    let slot = list.entries.iter().position(|&(id, _)| id == table::own_id(table))?;
    Some(answered(1, slot as u8, table::read(table, list.address, list.length)))
}

fn sync_write(table: &mut Table, parameters: &[u8]) -> Option<Outcome> {
    let list = sync_list(parameters, true)?;
    let own = table::own_id(table);
    let (_, data) = list.entries.iter().find(|&&(id, _)| id == own)?;
    Some(store(table, list.address, data))
}

/// What a Bulk list says to one device.
struct Bulk<'a> {
    id: u8,
    address: usize,
    length: usize,
    /// None of Bulk Read.
    data: &'a [u8],
}

/// All of a Bulk list, or nothing if any rule is broken anywhere in it.
fn bulk_list(parameters: &[u8], with_data: bool) -> Option<Vec<Bulk<'_>>> {
    let mut entries = Vec::new();
    let mut rest = parameters;
    while !rest.is_empty() {
        let [id, a, b, c, d, ref behind @ ..] = *rest else {
            return None;
        };
        let (address, length) = (number(a, b), number(c, d));
        let count = if with_data { length } else { 0 };
        entries.push(Bulk { id, address, length, data: behind.get(..count)? });
        rest = &behind[count..];
    }
    let ids: Vec<u8> = entries.iter().map(|entry| entry.id).collect();
    let some_empty = entries.iter().any(|entry| entry.length == 0);
    (usable(&ids) && !some_empty).then_some(entries)
}

fn bulk_read(table: &Table, parameters: &[u8]) -> Option<Reaction> {
    let entries = bulk_list(parameters, false)?;
    let slot = entries.iter().position(|entry| entry.id == table::own_id(table))?;
    Some(answered(1, slot as u8, table::read(table, entries[slot].address, entries[slot].length)))
}

fn bulk_write(table: &mut Table, parameters: &[u8]) -> Option<Outcome> {
    let entries = bulk_list(parameters, true)?;
    let own = table::own_id(table);
    let entry = entries.iter().find(|entry| entry.id == own)?;
    Some(store(table, entry.address, entry.data))
}

#[cfg(test)]
mod tests {
    use super::*;
    use crate::{fresh, measure_call, well_formed};

    /// What a device does with a packet as it goes over the line, and its status.
    fn answer(table: &mut Table, registered: &mut Registered, packet: &[u8]) -> Vec<u8> {
        assert!(well_formed(packet));
        let (mut body, mut out) = ([0; 1_022], [0; 40]);
        let answer = packet_call(table, *registered, packet, &mut body, &mut out).unwrap();
        *registered = answer.registered;
        out[..answer.count].to_vec()
    }

    const STATUS: [u8; 11] = [0xFF, 0xFF, 0xFD, 0x00, 0x01, 0x04, 0x00, 0x55, 0x00, 0xA1, 0x0C];
    const PING_STATUS: [u8; 14] = [0xFF, 0xFF, 0xFD, 0x00, 0x01, 0x07, 0x00, 0x55, 0x00, 0x06, 0x04, 0x26, 0x65, 0x5D];

    #[test]
    fn published_exchanges() {
        let (mut table, mut none) = (fresh(), Registered::default());
        measure_call(&mut table, 166, 0).unwrap();
        let ping = [0xFF, 0xFF, 0xFD, 0x00, 0x01, 0x03, 0x00, 0x01, 0x19, 0x4E];
        assert_eq!(answer(&mut table, &mut none, &ping), PING_STATUS);
        let ping_all = [0xFF, 0xFF, 0xFD, 0x00, 0xFE, 0x03, 0x00, 0x01, 0x31, 0x42];
        assert_eq!(answer(&mut table, &mut none, &ping_all), PING_STATUS);

        let read = [0xFF, 0xFF, 0xFD, 0x00, 0x01, 0x07, 0x00, 0x02, 0x84, 0x00, 0x04, 0x00, 0x1D, 0x15];
        let present = [0xFF, 0xFF, 0xFD, 0x00, 0x01, 0x08, 0x00, 0x55, 0x00, 0xA6, 0x00, 0x00, 0x00, 0x8C, 0xC0];
        assert_eq!(answer(&mut table, &mut none, &read), present);
        let sync_read = [0xFF, 0xFF, 0xFD, 0x00, 0xFE, 0x09, 0x00, 0x82, 0x84, 0x00, 0x04, 0x00, 0x01, 0x02, 0xCE, 0xFA];
        assert_eq!(answer(&mut table, &mut none, &sync_read), present);

        let before = table;
        let write = [0xFF, 0xFF, 0xFD, 0x00, 0x01, 0x09, 0x00, 0x03, 0x74, 0x00, 0x00, 0x02, 0x00, 0x00, 0xCA, 0x89];
        assert_eq!(answer(&mut table, &mut none, &write), STATUS);
        let mut wanted = before;
        wanted[116..120].copy_from_slice(&512i32.to_le_bytes());
        assert_eq!(table, wanted);
        assert_eq!(none, Registered::default());
    }

    /// Both lists have an entry of device 2 beside that of device 1.
    #[test]
    fn bulk_exchanges() {
        let (mut table, mut none) = (fresh(), Registered::default());
        let read = [
            0xFF, 0xFF, 0xFD, 0x00, 0xFE, 0x0D, 0x00, 0x92, 0x02, 0x84, 0x00, 0x04, 0x00, 0x01, 0x74, 0x00, 0x04, 0x00, 0x60,
            0x3A,
        ];
        let status = [0xFF, 0xFF, 0xFD, 0x00, 0x01, 0x08, 0x00, 0x55, 0x00, 0x00, 0x00, 0x00, 0x00, 0xBF, 0xB8];
        assert_eq!(answer(&mut table, &mut none, &read), status);
        let write = [
            0xFF, 0xFF, 0xFD, 0x00, 0xFE, 0x12, 0x00, 0x93, 0x01, 0x74, 0x00, 0x04, 0x00, 0x00, 0x02, 0x00, 0x00, 0x02, 0x1F,
            0x00, 0x01, 0x00, 0x50, 0x19, 0xC4,
        ];
        assert!(answer(&mut table, &mut none, &write).is_empty());
        let mut wanted = fresh();
        wanted[116..120].copy_from_slice(&512i32.to_le_bytes());
        assert_eq!(table, wanted);
    }

    #[test]
    fn registered_write() {
        let (mut table, mut registered) = (fresh(), Registered::default());
        let reg_write = [0xFF, 0xFF, 0xFD, 0x00, 0x01, 0x09, 0x00, 0x04, 0x68, 0x00, 0xC8, 0x00, 0x00, 0x00, 0xAE, 0x8E];
        assert_eq!(answer(&mut table, &mut registered, &reg_write), STATUS);
        assert_eq!(registered, Registered { address: 104, count: 4, bytes: [200, 0, 0, 0, 0, 0, 0, 0], min: 0, max: 4_095 });
        assert_eq!((table[69], table[104]), (1, 0));
        let action = [0xFF, 0xFF, 0xFD, 0x00, 0x01, 0x03, 0x00, 0x05, 0x02, 0xCE];
        assert_eq!(answer(&mut table, &mut registered, &action), STATUS);
        assert_eq!((table[69], table[104], registered), (0, 200, Registered::default()));
        assert_eq!(answer(&mut table, &mut registered, &action)[8], 2);
    }

    /// The goal 512 suits the limits from before and those after it.
    #[test]
    fn registered_at_other_limits() {
        let (mut table, mut registered) = (fresh(), Registered::default());
        let mut receive = |table: &mut Table, body: &[u8]| answer(table, &mut registered, &packet_of(1, body))[8];
        assert_eq!(receive(&mut table, &[4, 116, 0, 0, 2, 0, 0]), 0);
        assert_eq!(receive(&mut table, &[3, 48, 0, 0xA0, 0x0F, 0, 0]), 0);
        assert_eq!(receive(&mut table, &[5]), 6);
        let mut wanted = fresh();
        wanted[48..52].copy_from_slice(&4_000i32.to_le_bytes());
        assert_eq!((table, registered), (wanted, Registered::default()));
    }

    /// The error byte of the status to a body sent to ID 1, or nothing.
    fn error(table: &mut Table, body: &[u8]) -> Option<u8> {
        answer(table, &mut Registered::default(), &packet_of(1, body)).get(8).copied()
    }

    #[test]
    fn errors() {
        let mut table = fresh();
        assert_eq!(error(&mut table, &[3, 104, 0, 0xFF, 0xFF, 0xFF, 0xFF]), Some(0));
        assert_eq!(table[104..108], [0xFF; 4]);
        let before = table;
        assert_eq!(error(&mut table, &[3, 104, 0, 0x4B, 0x01, 0, 0]), Some(4));
        assert_eq!(error(&mut table, &[3, 104, 0, 1, 0]), Some(5));
        assert_eq!(error(&mut table, &[3, 48, 0, 100, 0, 0, 0, 200, 0, 0, 0]), Some(6));
        assert_eq!(error(&mut table, &[3, 132, 0, 1, 0, 0, 0]), Some(7));
        assert_eq!(error(&mut table, &[0x92]), Some(2));
        assert_eq!(error(&mut table, &[0x82]), Some(2));
        assert_eq!(error(&mut table, &[1, 0]), Some(5));
        assert_eq!(error(&mut table, &[6, 3]), Some(4));
        assert_eq!(error(&mut table, &[0x55]), None);
        assert_eq!(table, before);
        measure_call(&mut table, 0, 4).unwrap();
        assert_eq!(error(&mut table, &[1, 0]), Some(0x85));
        assert_eq!(error(&mut table, &[8]), Some(0));
    }

    #[test]
    fn levels() {
        let answered = |level, body: &[u8]| {
            let mut table = fresh();
            table[68] = level;
            error(&mut table, body).is_some()
        };
        for (body, lowest) in [
            (&[1][..], 0),
            (&[1, 1], 0),
            (&[2], 1),
            (&[2, 0, 0, 2, 0], 1),
            (&[0x82], 1),
            (&[0x83], 2),
            (&[0x92], 1),
            (&[0x92, 1, 0, 0, 2, 0], 1),
            (&[0x93], 2),
            (&[0x93, 1, 65, 0, 1, 0, 1], 2),
            (&[0x9A], 2),
            (&[8], 2),
            (&[9], 2),
        ] {
            for level in [0, 1, 2, 3, 255] {
                assert_eq!(answered(level, body), level >= lowest, "{body:02x?} at level {level}");
            }
        }
    }

    #[test]
    fn slots() {
        let mut out = [0; 32];
        let mut slot = |body: &[u8]| {
            let heard = Heard::Packet { id: 254, body };
            let answer = device_call(&mut fresh(), Registered::default(), heard, &mut out).unwrap();
            (answer.count, answer.slot)
        };
        assert_eq!(slot(&[1]), (14, 1));
        assert_eq!(slot(&[0x82, 0, 0, 2, 0, 7, 0, 1, 9]), (13, 2));
        // its own read is refused, in its slot
        assert_eq!(slot(&[0x82, 2, 0, 2, 0, 7, 1]), (11, 1));
        assert_eq!(slot(&[0x92, 7, 0, 0, 1, 0, 0, 9, 9, 9, 9, 1, 0, 0, 2, 0, 9, 2, 0, 2, 0]), (13, 2));
        assert_eq!(slot(&[0x92, 7, 0, 0, 1, 0, 1, 2, 0, 2, 0]), (11, 1));
        for nothing in [
            &[0x82, 0, 0, 0, 0, 1][..],
            &[0x82, 0, 0, 1, 0, 1, 253],
            &[0x82, 0, 0, 1, 0, 1, 5, 5],
            &[0x82, 0, 0, 1],
            // no list; not ours; a length 0, an ID that is none, an ID twice, a cut entry
            &[0x92],
            &[0x92, 7, 0, 0, 1, 0],
            &[0x92, 1, 0, 0, 1, 0, 5, 0, 0, 0, 0],
            &[0x92, 1, 0, 0, 1, 0, 253, 0, 0, 1, 0],
            &[0x92, 1, 0, 0, 1, 0, 5, 0, 0, 1, 0, 5, 0, 0, 1, 0],
            &[0x92, 1, 0, 0, 1, 0, 5, 0, 0, 1],
        ] {
            assert_eq!(slot(nothing), (0, 0), "{nothing:02x?}");
        }
    }
}
