//! Plans of goals: the planner writes what the reference writes, and the test accepts what the reference accepts: plans of any
//! planner, and plans with one thing wrong.

use compare::{any_plan, compare_plan, compare_plan_check, goals, joined, must_agree, spoiled, PROVED};
use exports::{Registered, Reply};
use reference::Rng;

fn plan(rng: &mut Rng, goals: &[i32], room: usize) -> i64 {
    must_agree(compare_plan(&PROVED, rng, goals, room))
}

fn check(rng: &mut Rng, goals: &[i32], plan: &[u8]) -> i64 {
    must_agree(compare_plan_check(&PROVED, rng, goals, plan))
}

/// The example of the request. [W3 W4 W6 W7 X34]
#[test]
fn two_goals() {
    let mut rng = Rng::new(83);
    let mut goals = vec![-1; 253];
    goals[3] = 7;
    goals[9] = 255;
    let expected = [
        0xFF, 0xFF, 0xFD, 0x00, 0xFE, 0x11, 0x00, 0x83, 0x74, 0x00, 0x04, 0x00, 0x03, 0x07, 0x00, 0x00, 0x00, 0x09, 0xFF, 0x00,
        0x00, 0x00, 0x90, 0x10,
    ];
    let mut out = [0xAA; 30];
    assert_eq!(exports::plan(&goals, &mut out), 24);
    assert_eq!(out[..24], expected);
    assert_eq!(out[24..], [0xAA; 6]);
    assert_eq!(check(&mut rng, &goals, &expected), 1);
}

/// Every count of wanted goals, and every room around the plan's size. [W1 W2 W6-W8]
#[test]
fn our_plans() {
    let mut rng = Rng::new(80);
    let mut two = 0;
    for wanted in 0..=253 {
        let mut goals = goals(&mut rng, 0);
        for goal in goals.iter_mut().take(wanted) {
            *goal = rng.pick(&[0, 1, 255, 256, 4094, 4095, 0xFF, 0xFFF]);
        }
        for i in (1..253).rev() {
            goals.swap(i, rng.between(0, i));
        }
        let size = 5 * wanted + 14 * wanted.div_ceil(203);
        assert_eq!(plan(&mut rng, &goals, size), size as i64);
        assert_eq!(plan(&mut rng, &goals, size + 9), size as i64);
        if size > 0 {
            assert_eq!(plan(&mut rng, &goals, size - 1), -13);
            assert_eq!(plan(&mut rng, &goals, 0), -13);
        }
        let mut out = vec![0; size];
        exports::plan(&goals, &mut out);
        assert_eq!(check(&mut rng, &goals, &out), 1);
        two += usize::from(wanted > 203);
    }
    assert_eq!(two, 50);
}

/// Lists that are refused, whatever the rest is; where both refusals apply, 41 comes first. [N10 N19 N20 W2]
#[test]
fn refused_goals() {
    let mut rng = Rng::new(81);
    for n in [0, 1, 252, 254, 300] {
        let goals = vec![rng.pick(&[-1, 5, -2, 4096]); n];
        assert_eq!(plan(&mut rng, &goals, 2000), -41);
        assert_eq!(check(&mut rng, &goals, &[]), -41);
    }
    for id in [0, 100, 252] {
        for goal in [-2, 4096, i32::MIN, i32::MAX] {
            let mut goals = goals(&mut rng, 100);
            goals[id] = goal;
            assert_eq!(plan(&mut rng, &goals, 0), -42);
            assert_eq!(check(&mut rng, &goals, &[]), -42);
        }
    }
}

/// Anyone's plans, and the same with one thing wrong. [W3-W5 W9]
#[test]
fn any_plans() {
    let mut rng = Rng::new(82);
    let (mut accepted, mut not) = (0, 0);
    for _ in 0..3_000 {
        let wanted = rng.pick(&[0, 1, 3, 30, 253]);
        let goals = goals(&mut rng, wanted);
        let packets = any_plan(&mut rng, &goals);
        let good = joined(&packets);
        assert_eq!(check(&mut rng, &goals, &good), 1);
        accepted += 1;
        let wrong = spoiled(&mut rng, &goals, packets);
        not += usize::from(check(&mut rng, &goals, &wrong) == 0);
    }
    assert!(not > 2_500, "{accepted} accepted, {not} not");
}

/// What a device is after the events of a segment that a reader took in chunks of any size, the gap finished.
fn heard(rng: &mut Rng, segment: &[u8], table: &mut [u8; 136], registered: Registered, in_one: bool) -> usize {
    let (mut held, mut count, mut packet) = ([0xAA; 1030], 0, [0xAA; 1031]);
    let (mut body, mut reply) = ([0xAA; 1022], [0xAA; 32]);
    let (mut left, mut gap, mut packets) = (segment, false, 0);
    loop {
        let last = gap;
        let step = if last {
            exports::gap(&mut held, &mut count, &mut packet)
        } else {
            let n = rng.between(0, left.len().min(40));
            let step = exports::feed(&mut held, &mut count, &left[..n], &mut packet);
            left = &left[step.taken..];
            gap = left.is_empty();
            step
        };
        match step.kind {
            0 if last => return packets,
            0 => continue,
            kind => assert_eq!(kind, 1),
        }
        packets += 1;
        if in_one {
            let answer = exports::exchange(table, registered, &packet[..step.count], &mut body, &mut reply);
            assert_eq!((answer.count, answer.registered, reply), (0, registered, [0xAA; 32]));
        } else {
            let carried = exports::carry_out_packet(table, registered, &packet[..step.count], &mut body);
            assert_eq!((carried.refusal, carried.reply, carried.registered), (0, Reply::default(), registered));
        }
    }
}

/// Anyone's plan, heard by devices with limits of their own: the goal is stored where they admit it, and no other byte changes. [W10]
#[test]
fn plans_heard() {
    let mut rng = Rng::new(84);
    let (mut stored, mut outside, mut unwanted) = (0, 0, 0);
    for _ in 0..6_000 {
        let many = rng.pick(&[1, 3, 30, 253]);
        let goals = goals(&mut rng, many);
        let packets = any_plan(&mut rng, &goals);
        let mut before = [0; 136];
        exports::fresh(&mut before);
        before[7] = rng.between(0, 252) as u8;
        before[64] = rng.between(0, 1) as u8;
        before[68] = rng.between(0, 2) as u8;
        let goal = goals[usize::from(before[7])];
        let (min, max) = (rng.pick(&[0, goal.max(0), goal + 1, 2000]), rng.pick(&[4095, goal.max(0), goal.max(1) - 1, 2100]));
        before[52..56].copy_from_slice(&min.to_le_bytes());
        before[48..52].copy_from_slice(&max.to_le_bytes());
        before[116..120].copy_from_slice(&rng.between(0, 4095).to_le_bytes()[..4]);
        let registered = Registered { address: 116, count: 4, bytes: [9; 8], min, max };
        let (mut table, mut expected) = (before, before);
        if goal < 0 {
            unwanted += 1;
        } else if min <= goal && goal <= max {
            expected[116..120].copy_from_slice(&goal.to_le_bytes());
            stored += 1;
        } else {
            outside += 1;
        }
        let in_one = rng.between(0, 1) == 1;
        assert_eq!(heard(&mut rng, &joined(&packets), &mut table, registered, in_one), packets.len());
        assert_eq!(table, expected, "goal {goal}, limits {min} to {max}");
    }
    assert!(stored > 500 && outside > 500 && unwanted > 1_000, "{stored} stored, {outside} outside, {unwanted} unwanted");
}
