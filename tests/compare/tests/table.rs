//! The calls on a control table by itself: the proved ones and the reference answer the same and leave the same table.

use compare::DevicePair;
use reference::{Registered, Rng, TABLE_BYTES};

/// Tables of every length up to 300, whatever they hold; many of the right one. [N5 N12 N13 T1 T4 T5]
#[test]
fn fresh_and_measurement() {
    let mut rng = Rng::new(55);
    for length in (0..=300).chain([136; 200]) {
        let mut bytes = rng.bytes(length);
        if rng.one_in(2) && length > 7 {
            bytes[7] = 255;
        }
        let mut device = DevicePair::new(&mut rng, &bytes, Registered::default(), 0);
        let wanted = if length == TABLE_BYTES { 0 } else { -21 };
        let any = rng.word() as i32;
        let position = rng.pick(&[0, 1, -1, i32::MIN, i32::MAX, 166, any]);
        assert_eq!(device.measure(position, rng.byte()), wanted);
        assert_eq!(device.fresh(), wanted);
        assert_eq!(device.measure(position, rng.byte()), wanted);
    }
}
