use crate::{compare_status, hex, must_agree, Calls, Comparison, Difference, Guarded, PROVED};
use reference::{carry_out_call, carry_out_packet_call, device_call, packet_call, DeviceAnswer, Heard, Registered, Rng, Waiting};
use std::hint::black_box;

pub const PACKET: u8 = 1;
pub const BAD_CHECKSUM: u8 = 2;

/// What the device's calls borrow, with bytes around it that no call may touch.
#[derive(Clone)]
struct Borrowed {
    table: Guarded,
    reply: Guarded,
}

/// One device's life, lived twice: every call goes to the proved code and to the reference, and all that is answered and left
/// must be the same.
pub struct DevicePair {
    ours: Borrowed,
    expected: Borrowed,
    pub registered: Registered,
    /// What the reply buffer is filled with before each call.
    filler: u8,
    exports: Calls,
}

/// What the proved device answered. The error byte is there where a status is.
#[derive(Clone, Copy, PartialEq, Eq, Debug)]
pub struct Told {
    pub count: i64,
    pub slot: usize,
    pub error: Option<u8>,
}

impl DevicePair {
    pub fn new(rng: &mut Rng, table: &[u8], registered: Registered, reply_length: usize) -> DevicePair {
        DevicePair::of(PROVED, rng, table, registered, reply_length)
    }

    pub fn of(exports: Calls, rng: &mut Rng, table: &[u8], registered: Registered, reply_length: usize) -> DevicePair {
        let ours = Borrowed { table: Guarded::new(rng, table), reply: Guarded::new(rng, &vec![0; reply_length]) };
        DevicePair { expected: ours.clone(), ours, registered, filler: rng.byte(), exports }
    }

    pub fn table(&self) -> &[u8] {
        self.ours.table.bytes()
    }

    pub fn reply(&self) -> &[u8] {
        self.ours.reply.bytes()
    }

    /// The same change of the table on both sides, as firmware or chance may make it.
    pub fn change(&mut self, change: impl Fn(&mut [u8])) {
        change(self.ours.table.bytes_mut());
        change(self.expected.table.bytes_mut());
    }

    pub fn fresh(&mut self) -> i64 {
        must_agree(self.try_fresh())
    }

    pub fn measure(&mut self, position: i32, hardware_error: u8) -> i64 {
        must_agree(self.try_measure(position, hardware_error))
    }

    pub fn hear(&mut self, kind: u8, id: u8, body: &[u8]) -> Told {
        must_agree(self.try_hear(kind, id, body))
    }

    /// A packet as received, whose unstuffed body goes into a buffer of so many bytes.
    pub fn hear_packet(&mut self, rng: &mut Rng, packet: &[u8], room: usize) -> Told {
        let filler = rng.bytes(room);
        must_agree(self.try_hear_packet(packet, &Guarded::new(rng, &filler)))
    }

    pub fn try_fresh(&mut self) -> Result<i64, Difference> {
        let before = self.table().to_vec();
        let answer = (self.exports.fresh)(self.ours.table.bytes_mut());
        let wanted = reference::fresh_call(self.expected.table.bytes_mut());
        let given = || format!("table {}", hex(&before));
        self.same_table(&Comparison { export: "dxl_fresh", given: &given }, answer, wanted)
    }

    pub fn try_measure(&mut self, position: i32, hardware_error: u8) -> Result<i64, Difference> {
        let before = self.table().to_vec();
        let answer = (self.exports.measure)(self.ours.table.bytes_mut(), position, hardware_error);
        let wanted = reference::measure_call(self.expected.table.bytes_mut(), position, hardware_error);
        let given = || format!("position {position}, hardware error {hardware_error}, table {}", hex(&before));
        self.same_table(&Comparison { export: "dxl_measure", given: &given }, answer, wanted)
    }

    /// After a call on the table by itself.
    fn same_table(&self, comparison: &Comparison, answer: i64, wanted: Result<(), u8>) -> Result<i64, Difference> {
        comparison.same("the answer", answer, wanted.map_or_else(|refusal| -i64::from(refusal), |()| 0))?;
        self.same_memory(comparison)?;
        Ok(answer)
    }

    fn same_memory(&self, comparison: &Comparison) -> Result<(), Difference> {
        comparison.same_guarded("the table", &self.ours.table, &self.expected.table)?;
        comparison.same_guarded("the reply buffer", &self.ours.reply, &self.expected.reply)
    }

    pub fn try_hear(&mut self, kind: u8, id: u8, body: &[u8]) -> Result<Told, Difference> {
        let (before, registered) = self.refill();
        let mut lent = body.to_vec();
        let mut split = Split::new(self);

        let Borrowed { table, reply } = &mut self.ours;
        let answer = (self.exports.device)(table.bytes_mut(), exported(registered), kind, id, &lent, reply.bytes_mut());
        let heard = match kind {
            PACKET => Heard::Packet { id, body },
            BAD_CHECKSUM => Heard::BadChecksum { id },
            _ => Heard::Nothing,
        };
        let Borrowed { table, reply } = &mut self.expected;
        let wanted = device_call(table.bytes_mut(), registered, heard, reply.bytes_mut());

        let room = self.reply().len();
        let given = || {
            let (body, table) = (hex(body), hex(&before));
            format!("kind {kind}, ID {id}, body {body}, {registered:?}, table {table}, reply buffer of {room}")
        };
        let comparison = Comparison { export: "dxl_device", given: &given };
        comparison.same_bytes("the body", black_box(&mut lent).as_slice(), body)?;
        let told = self.told(&comparison, answer, wanted)?;

        let carried = (self.exports.carry_out)(split.ours.table.bytes_mut(), exported(registered), kind, id, &lent);
        let wanted = carry_out_call(split.expected.table.bytes_mut(), registered, heard);
        let comparison = Comparison { export: "dxl_carry_out", given: &given };
        comparison.same_bytes("the body", black_box(&mut lent).as_slice(), body)?;
        split.same(&comparison, self, &told, carried, wanted)?;
        Ok(told)
    }

    /// A packet as received, whose unstuffed body goes into this buffer.
    pub fn try_hear_packet(&mut self, packet: &[u8], buffer: &Guarded) -> Result<Told, Difference> {
        let (before, registered) = self.refill();
        let mut lent = packet.to_vec();
        let (mut body, mut expected_body) = (buffer.clone(), buffer.clone());
        let mut split = Split::new(self);

        let Borrowed { table, reply } = &mut self.ours;
        let answer = (self.exports.exchange)(table.bytes_mut(), exported(registered), &lent, body.bytes_mut(), reply.bytes_mut());
        let Borrowed { table, reply } = &mut self.expected;
        let wanted = packet_call(table.bytes_mut(), registered, packet, expected_body.bytes_mut(), reply.bytes_mut());

        let (room, reply) = (buffer.bytes().len(), self.reply().len());
        let given = || {
            let (packet, table) = (hex(packet), hex(&before));
            format!("packet {packet}, body buffer of {room}, {registered:?}, table {table}, reply buffer of {reply}")
        };
        let comparison = Comparison { export: "dxl_exchange", given: &given };
        comparison.same_bytes("the packet", black_box(&mut lent).as_slice(), packet)?;
        comparison.same_guarded("the body buffer", &body, &expected_body)?;
        let told = self.told(&comparison, answer, wanted)?;

        let (mut body, mut expected_body) = (buffer.clone(), buffer.clone());
        let carried =
            (self.exports.carry_out_packet)(split.ours.table.bytes_mut(), exported(registered), &lent, body.bytes_mut());
        let wanted = carry_out_packet_call(split.expected.table.bytes_mut(), registered, packet, expected_body.bytes_mut());
        let comparison = Comparison { export: "dxl_carry_out_packet", given: &given };
        comparison.same_bytes("the packet", black_box(&mut lent).as_slice(), packet)?;
        comparison.same_guarded("the body buffer", &body, &expected_body)?;
        split.same(&comparison, self, &told, carried, wanted)?;
        Ok(told)
    }

    /// A new filling for the reply buffers; answers the table and the registered write.
    fn refill(&mut self) -> (Vec<u8>, Registered) {
        self.filler = self.filler.wrapping_add(1);
        for device in [&mut self.ours, &mut self.expected] {
            device.reply.bytes_mut().fill(self.filler);
        }
        (self.table().to_vec(), self.registered)
    }

    /// After a call of the device: the answer, and all that both sides have left.
    fn told(
        &mut self,
        comparison: &Comparison,
        answer: exports::Answer,
        wanted: Result<DeviceAnswer, u8>,
    ) -> Result<Told, Difference> {
        let (count, slot, left) = match wanted {
            Ok(answer) => (answer.count as i64, usize::from(answer.slot), answer.registered),
            Err(refusal) => (-i64::from(refusal), 0, self.registered),
        };
        comparison.same_shown("the answer", answer, exports::Answer { count, slot, registered: exported(left) }, shown)?;
        self.same_memory(comparison)?;

        self.registered = left;
        Ok(Told { count, slot, error: (count > 0).then(|| self.reply()[8]) })
    }
}

fn shown(answer: &exports::Answer) -> String {
    let exports::Answer { count, slot, registered } = answer;
    let exports::Registered { address, count: n, bytes, min, max } = registered;
    format!("count {count}, slot {slot}, registered: address {address}, count {n}, bytes {}, min {min}, max {max}", hex(bytes))
}

pub(crate) fn exported(registered: Registered) -> exports::Registered {
    let Registered { address, count, bytes, min, max } = registered;
    exports::Registered { address, count, bytes, min, max }
}

pub(crate) fn exported_reply(waiting: Waiting) -> exports::Reply {
    let Waiting { speaks, id, error, count, bytes, slot } = waiting;
    exports::Reply { speaks, id, error, count, bytes, slot }
}

fn shown_carried(carried: &exports::Carried) -> String {
    let exports::Carried { refusal, reply, registered } = carried;
    format!("refusal {refusal}, {reply:?}, {registered:?}")
}

/// What the two calls find that are made beside the one call.
struct Split {
    ours: Borrowed,
    expected: Borrowed,
    registered: Registered,
}

impl Split {
    fn new(device: &DevicePair) -> Split {
        Split { ours: device.ours.clone(), expected: device.expected.clone(), registered: device.registered }
    }

    /// After the first call, with the second: what they answer and leave; and that they are the one call, which `device` has
    /// made, unless that has refused the reply buffer.
    fn same(
        &mut self,
        comparison: &Comparison,
        device: &DevicePair,
        one: &Told,
        carried: exports::Carried,
        wanted: Result<(Waiting, Registered), u8>,
    ) -> Result<(), Difference> {
        let wanted = match wanted {
            Ok((waiting, left)) => {
                exports::Carried { refusal: 0, reply: exported_reply(waiting), registered: exported(left) }
            }
            Err(refusal) => exports::Carried {
                refusal: -i64::from(refusal),
                reply: exports::Reply::default(),
                registered: exported(self.registered),
            },
        };
        comparison.same_shown("the answer", carried, wanted, shown_carried)?;
        comparison.same_guarded("the table", &self.ours.table, &self.expected.table)?;
        let count = if carried.refusal == 0 {
            compare_status(&device.exports, carried.reply, &mut self.ours.reply, &mut self.expected.reply)?
        } else {
            carried.refusal
        };
        if one.count != -24 {
            comparison.same("count and slot of both calls", (count, carried.reply.slot), (one.count, one.slot))?;
            comparison.same("the registered write of both calls", carried.registered, exported(device.registered))?;
            comparison.same_guarded("the table of both calls", &self.ours.table, &device.ours.table)?;
            comparison.same_guarded("the reply buffer of both calls", &self.ours.reply, &device.ours.reply)?;
        }
        Ok(())
    }
}
