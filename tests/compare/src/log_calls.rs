//! The calls on a line log, beside the reference.

use crate::{hex, number, Calls, Comparison, Difference, Lent};
use exports::{Found, Salvaged};
use reference::Rng;

pub fn compare_log_write(calls: &Calls, rng: &mut Rng, bytes: &[u8], lengths: &[u32], room: usize) -> Result<i64, Difference> {
    let mut ours = Lent::new(rng, bytes, room);
    let mut expected = ours.clone();
    let lent = lengths.to_vec();
    let answer = ours.call(|bytes, out| (calls.log_write)(bytes, &lent, out));
    let wanted = expected.call(|bytes, out| reference::log_write(bytes, lengths, out));
    let given = || format!("lengths {lengths:?}, room for {room}, {} bytes {}", bytes.len(), hex(bytes));
    let comparison = Comparison { export: "dxl_log_write", given: &given };
    comparison.same("the answer", answer, number(wanted))?;
    comparison.same("the lent lengths", &lent[..], lengths)?;
    comparison.same_lent(&ours, &expected)?;
    Ok(answer)
}

pub fn compare_log_check(calls: &Calls, rng: &mut Rng, log: &[u8]) -> Result<i64, Difference> {
    let mut ours = Lent::new(rng, log, 0);
    let expected = ours.clone();
    let answer = ours.call(|log, _| (calls.log_check)(log));
    let given = || format!("{} bytes {}", log.len(), hex(log));
    let comparison = Comparison { export: "dxl_log_check", given: &given };
    comparison.same("the answer", answer, number(reference::log_check(log).map(|()| 0)))?;
    comparison.same_lent(&ours, &expected)?;
    Ok(answer)
}

/// An answer in numbers.
fn in_numbers(answer: Result<Option<(usize, usize)>, u8>) -> Found {
    match answer {
        Ok(Some((segment, offset))) => Found { found: 1, segment, offset },
        Ok(None) => Found::default(),
        Err(refusal) => Found { found: -i64::from(refusal), ..Found::default() },
    }
}

pub fn compare_log_last(calls: &Calls, rng: &mut Rng, log: &[u8], id: u8) -> Result<Found, Difference> {
    let mut ours = Lent::new(rng, log, 0);
    let expected = ours.clone();
    let answer = ours.call(|log, _| (calls.log_last)(log, id));
    let given = || format!("ID {id}, {} bytes {}", log.len(), hex(log));
    let comparison = Comparison { export: "dxl_log_last", given: &given };
    comparison.same("the answer", answer, in_numbers(reference::log_last(log, id)))?;
    comparison.same_lent(&ours, &expected)?;
    Ok(answer)
}

/// Numbers before and after a lent report, which no call may touch.
const MARGIN: usize = 6;

/// An answer in numbers.
fn salvaged_in_numbers(answer: &Result<(usize, reference::Salvaged), u8>) -> Salvaged {
    match answer {
        Ok((count, report)) => Salvaged {
            count: *count as i64,
            dropped: report.dropped.len(),
            index_changed: report.index_changed,
            leftover: report.leftover,
            header_changed: u8::from(report.header_changed),
        },
        Err(refusal) => Salvaged { count: -i64::from(*refusal), ..Salvaged::default() },
    }
}

/// With a report of so many numbers.
pub fn compare_log_salvage(calls: &Calls, rng: &mut Rng, log: &[u8], room: usize, numbers: usize) -> Result<Salvaged, Difference> {
    let mut ours = Lent::new(rng, log, room);
    let mut expected = ours.clone();
    let mut our_report: Vec<u32> = (0..numbers + 2 * MARGIN).map(|_| rng.word() as u32).collect();
    let mut report = our_report.clone();
    let lent = MARGIN..MARGIN + numbers;
    let answer = ours.call(|log, out| (calls.log_salvage)(log, out, &mut our_report[lent.clone()]));
    let wanted = expected.call(|log, out| reference::log_salvage(log, out, &mut report[lent.clone()]));
    let given = || format!("room for {room}, a report of {numbers} numbers, {} bytes {}", log.len(), hex(log));
    let comparison = Comparison { export: "dxl_log_salvage", given: &given };
    comparison.same("the answer", answer, salvaged_in_numbers(&wanted))?;
    comparison.same("the report", &our_report[..], &report[..])?;
    comparison.same_lent(&ours, &expected)?;
    Ok(answer)
}
