//! The calls that keep nothing: each goes to an export and to the reference, and all that is answered and left must be the same.

use crate::calls::EncodeCall;
use crate::{hex, number, Calls, Comparison, Difference, Guarded, Lent};
use reference::{v1, Answer, Event, Found, Rng};

/// The checksum functions beside the one that the exports stand on.
const OTHER_LEAVES: [(&str, fn(u16, &[u8]) -> u16); 2] =
    [("dxl_test_crc16_small", exports::test::crc16_small), ("dxl_test_crc16_fold", exports::test::crc16_fold)];

pub fn compare_checksum(calls: &Calls, rng: &mut Rng, start: u16, bytes: &[u8]) -> Result<u16, Difference> {
    let mut ours = Lent::new(rng, bytes, 0);
    let expected = ours.clone();
    let answer = ours.call(|bytes, _| (calls.crc16)(start, bytes));
    let given = || format!("start {start:04x}, {} bytes {}", bytes.len(), hex(bytes));
    let comparison = Comparison { export: "dxl_crc16", given: &given };
    let sum = reference::checksum(start, bytes);
    comparison.same_shown("the checksum", answer, sum, |sum| format!("{sum:04x}"))?;
    comparison.same_lent(&ours, &expected)?;
    for (export, leaf) in OTHER_LEAVES {
        let other = ours.call(|bytes, _| leaf(start, bytes));
        let comparison = Comparison { export, given: &given };
        comparison.same_shown("the checksum", other, sum, |sum| format!("{sum:04x}"))?;
        comparison.same_lent(&ours, &expected)?;
    }
    Ok(answer)
}

pub fn compare_flipped(calls: &Calls, rng: &mut Rng, crc: u16, flips: &[u8], after: usize) -> Result<u16, Difference> {
    let mut ours = Lent::new(rng, flips, 0);
    let expected = ours.clone();
    let answer = ours.call(|flips, _| (calls.crc16_flipped)(crc, flips, after));
    let given = || format!("checksum {crc:04x}, flips {}, {after} bytes after", hex(flips));
    let comparison = Comparison { export: "dxl_crc16_flipped", given: &given };
    comparison.same_shown("the checksum", answer, reference::flipped(crc, flips, after), |sum| format!("{sum:04x}"))?;
    comparison.same_lent(&ours, &expected)?;
    Ok(answer)
}

/// What the encoder writes of an instruction and its parameters into a buffer with so much room.
pub struct Encoded<'a> {
    pub id: u8,
    pub instruction: u8,
    pub params: &'a [u8],
    pub room: usize,
    pub at: usize,
}

pub fn compare_encode(calls: &Calls, rng: &mut Rng, what: Encoded) -> Result<i64, Difference> {
    compare_encoder("dxl_encode", calls.encode, reference::encode, rng, what)
}

pub fn compare_v1_encode(calls: &Calls, protocol: v1::Protocol, rng: &mut Rng, what: Encoded) -> Result<i64, Difference> {
    let (export, call) = match protocol {
        v1::Protocol::P1 => ("dxl_p1_encode", calls.p1_encode),
        v1::Protocol::Mercury => ("dxl_mercury_encode", calls.mercury_encode),
    };
    let second = |id, instruction, params: &[u8], out: &mut [u8], at| v1::encode(protocol, id, instruction, params, out, at);
    compare_encoder(export, call, second, rng, what)
}

fn compare_encoder(
    export: &'static str,
    call: EncodeCall,
    second: impl Fn(u8, u8, &[u8], &mut [u8], usize) -> Answer,
    rng: &mut Rng,
    what: Encoded,
) -> Result<i64, Difference> {
    let Encoded { id, instruction, params, room, at } = what;
    let mut ours = Lent::new(rng, params, room);
    let mut expected = ours.clone();
    let answer = ours.call(|params, out| call(id, instruction, params, out, at));
    let wanted = expected.call(|params, out| second(id, instruction, params, out, at));
    let given = || format!("ID {id}, instruction {instruction:02x}, at {at} of {room}, parameters {}", hex(params));
    let comparison = Comparison { export, given: &given };
    comparison.same("the answer", answer, number(wanted))?;
    comparison.same_lent(&ours, &expected)?;
    Ok(answer)
}

/// The answer, and the unstuffed body where there is one.
pub fn compare_unstuff(calls: &Calls, rng: &mut Rng, body: &[u8], room: usize) -> Result<(i64, Vec<u8>), Difference> {
    let mut ours = Lent::new(rng, body, room);
    let mut expected = ours.clone();
    let answer = ours.call(calls.unstuff);
    let wanted = expected.call(reference::unstuff_into);
    let given = || format!("room for {room}, {} bytes {}", body.len(), hex(body));
    let comparison = Comparison { export: "dxl_unstuff", given: &given };
    comparison.same("the answer", answer, number(wanted))?;
    comparison.same_lent(&ours, &expected)?;
    Ok((answer, ours.output()[..answer.max(0) as usize].to_vec()))
}

/// An event in numbers. Kind 1: a packet of `count` bytes; 2: a bad checksum; all 0: there is none.
fn in_numbers(found: Option<Found>) -> exports::Event {
    let Some(Found { at: offset, next, event }) = found else { return exports::Event::default() };
    match event {
        Event::Packet { id, bytes } => exports::Event { offset, count: bytes.len(), next, kind: 1, id },
        Event::BadChecksum { id } => exports::Event { offset, count: 0, next, kind: 2, id },
    }
}

pub fn compare_next_event(calls: &Calls, rng: &mut Rng, segment: &[u8], from: usize) -> Result<exports::Event, Difference> {
    let mut ours = Lent::new(rng, segment, 0);
    let expected = ours.clone();
    let answer = ours.call(|segment, _| (calls.next_event)(segment, from));
    let given = || format!("from {from}, {} bytes {}", segment.len(), hex(segment));
    let comparison = Comparison { export: "dxl_next_event", given: &given };
    comparison.same("the answer", answer, in_numbers(reference::next_event(segment, from)))?;
    comparison.same_lent(&ours, &expected)?;
    Ok(answer)
}

/// A reply, whether or not a device has made it, is sent into these two buffers.
pub fn compare_status(
    calls: &Calls,
    reply: exports::Reply,
    ours: &mut Guarded,
    expected: &mut Guarded,
) -> Result<i64, Difference> {
    let exports::Reply { speaks, id, error, count, bytes, slot } = reply;
    let answer = (calls.status)(reply, ours.bytes_mut());
    let waiting = reference::Waiting { speaks, id, error, count, bytes, slot };
    let wanted = reference::status_call(waiting, expected.bytes_mut());
    let room = ours.bytes().len();
    let given = || format!("{reply:?}, reply buffer of {room}");
    let comparison = Comparison { export: "dxl_status", given: &given };
    comparison.same("the answer", answer, number(wanted))?;
    comparison.same_guarded("the reply buffer", ours, expected)?;
    Ok(answer)
}

/// The planner's answer; its goals are compared too, since no call writes them.
pub fn compare_plan(calls: &Calls, rng: &mut Rng, goals: &[i32], room: usize) -> Result<i64, Difference> {
    let mut ours = Lent::new(rng, &[], room);
    let mut expected = ours.clone();
    let lent = goals.to_vec();
    let answer = ours.call(|_, out| (calls.plan)(&lent, out));
    let wanted = expected.call(|_, out| reference::plan_into(goals, out));
    let given = || format!("room for {room}, goals {goals:?}");
    let comparison = Comparison { export: "dxl_plan", given: &given };
    comparison.same("the answer", answer, number(wanted))?;
    comparison.same("the goals", &lent[..], goals)?;
    comparison.same_lent(&ours, &expected)?;
    Ok(answer)
}

pub fn compare_plan_check(calls: &Calls, rng: &mut Rng, goals: &[i32], plan: &[u8]) -> Result<i64, Difference> {
    let mut ours = Lent::new(rng, plan, 0);
    let expected = ours.clone();
    let lent = goals.to_vec();
    let answer = ours.call(|plan, _| (calls.plan_check)(&lent, plan));
    let wanted = reference::plan_check(goals, plan).map(usize::from);
    let given = || format!("goals {goals:?}, {} bytes {}", plan.len(), hex(plan));
    let comparison = Comparison { export: "dxl_plan_check", given: &given };
    comparison.same("the answer", answer, number(wanted))?;
    comparison.same("the goals", &lent[..], goals)?;
    comparison.same_lent(&ours, &expected)?;
    Ok(answer)
}
