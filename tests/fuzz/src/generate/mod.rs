//! Draws cases. A case depends on the seed and its number alone.

mod board;
mod device;
mod line;
mod log;
mod single;
mod whole;

use crate::{Case, Operation};
use reference::Rng;

pub fn case(seed: u64, number: u64) -> Case {
    let mut rng = of_case(seed, number);
    Case { memory: rng.word(), operations: operations(&mut rng) }
}

/// Neighbours in seed or number share nothing.
fn of_case(seed: u64, number: u64) -> Rng {
    let mixed = Rng::new(seed).word();
    Rng::new(Rng::new(mixed.wrapping_add(number)).word())
}

fn operations(rng: &mut Rng) -> Vec<Operation> {
    match rng.between(0, 99) {
        0..=1 => single::several(rng, single::checksum),
        2..=6 => single::several(rng, single::plan),
        7..=9 => single::several(rng, single::flip),
        10..=15 => single::several(rng, single::encode),
        16..=22 => single::several(rng, single::encode_v1),
        23..=29 => single::several(rng, single::unstuff),
        30..=35 => single::several(rng, line::plain),
        36..=41 => single::several(rng, single::status),
        42..=48 => line::reader(rng),
        49..=54 => line::reader_v1(rng),
        55..=59 => device::table(rng),
        60..=73 => device::life(rng),
        74..=77 | 88..=89 => whole::life(rng),
        78..=80 => single::several(rng, log::write),
        81..=84 => single::several(rng, log::ask),
        85..=87 => single::several(rng, log::salvage),
        _ => line::exchange(rng),
    }
}
