//! The second of two calls: the proved one and the reference answer any reply the same and leave the same buffer.

use compare::{compare_status, Guarded, PROVED};
use exports::Reply;
use reference::{fresh, measure_call, Rng};

fn sent(rng: &mut Rng, reply: Reply, room: usize) -> (i64, Vec<u8>) {
    let filler = rng.bytes(room);
    let mut ours = Guarded::new(rng, &filler);
    let mut expected = ours.clone();
    let answer = compare_status(&PROVED, reply, &mut ours, &mut expected).unwrap_or_else(|difference| panic!("{difference}"));
    (answer, ours.bytes().to_vec())
}

/// 11, 12 and 24, in this order and before silence is looked at. [D52 D53 N1 N2 N8 N10]
#[test]
fn refusals_in_their_order() {
    let mut rng = Rng::new(80);
    for speaks in [0, 1, 2, 255] {
        for id in [0, 1, 252, 253, 254, 255] {
            for count in [0, 1, 7, 8, 9, 255] {
                for room in [0, 22, 31, 32, 33, 64] {
                    let reply = Reply { speaks, id, error: 0x80, count, bytes: [9; 8], slot: usize::MAX };
                    let wanted = match () {
                        () if id > 252 => -11,
                        () if count > 8 => -12,
                        () if room < 32 => -24,
                        () if speaks == 0 => 0,
                        () => 11 + i64::from(count),
                    };
                    assert_eq!(sent(&mut rng, reply, room).0, wanted, "{reply:?} into {room} bytes");
                }
            }
        }
    }
}

/// Bytes past the count change nothing, and the longest status has 22 bytes. [D53]
#[test]
fn any_replies() {
    let (mut rng, mut longest) = (Rng::new(81), 0);
    for _ in 0..20_000 {
        let marked = |rng: &mut Rng| if rng.one_in(4) { rng.byte() } else { rng.pick(&[0xFF, 0xFF, 0xFD]) };
        let mut bytes = [0; 8];
        bytes.fill_with(|| marked(&mut rng));
        let (id, error) = (rng.pick(&[0, 1, 252]), marked(&mut rng));
        let reply = Reply { speaks: 1, id, error, count: rng.between(0, 8) as u8, bytes, slot: 0 };
        let (answer, status) = sent(&mut rng, reply, 32);
        longest = longest.max(answer);
        let mut other = reply;
        other.bytes[usize::from(reply.count)..].fill_with(|| rng.byte());
        other.slot = rng.word() as usize;
        let (same, again) = sent(&mut rng, other, 32);
        assert_eq!((answer, &status[..answer as usize]), (same, &again[..same as usize]), "{reply:?}");
    }
    assert_eq!(longest, 22);
}

/// The alert goes by the hardware error after the instruction, and ID and level by the table before it; a later change of the table
/// does not reach a reply that waits. [D29 D30 D50 D51 D54]
#[test]
fn settled_in_the_first_call() {
    let mut rng = Rng::new(82);
    let none = exports::Registered::default();
    let mut table = fresh();
    measure_call(&mut table, 166, 0x20).unwrap();
    table[7] = 9;
    // Factory Reset FF: the ID is 1 from now on, and the hardware error is 0
    let carried = exports::carry_out(&mut table, none, 1, 9, &[6, 0xFF]);
    assert_eq!((carried.refusal, table[7], table[70]), (0, 1, 0));
    assert_eq!(carried.reply, Reply { speaks: 1, id: 9, ..Reply::default() });
    measure_call(&mut table, 166, 1).unwrap();
    let (_, status) = sent(&mut rng, carried.reply, 32);
    assert_eq!((status[4], status[8]), (9, 0));

    // Ping to all waits for the slot of the own ID, and the alert that it has is kept
    let carried = exports::carry_out(&mut table, none, 1, 254, &[1]);
    assert_eq!((carried.reply.slot, carried.reply.error), (1, 0x80));
    measure_call(&mut table, 166, 0).unwrap();
    assert_eq!(sent(&mut rng, carried.reply, 32).1[8], 0x80);
    // a good Write to device 0 speaks, though all but the mark of its reply is 0
    table[7] = 0;
    let carried = exports::carry_out(&mut table, none, 1, 0, &[3, 65, 0, 1]);
    assert_eq!(carried.reply, Reply { speaks: 1, ..Reply::default() });
    // and what is for another is silence
    assert_eq!(exports::carry_out(&mut table, none, 1, 5, &[1]).reply, Reply::default());
}
