/// x^16 + x^15 + x^2 + 1, without its highest term.
const POLYNOMIAL: u16 = 0x8005;

/// The remainder of the bytes, highest bit first, from a start value, without a final inversion: one bit at a time.
pub fn checksum(start: u16, bytes: &[u8]) -> u16 {
    let mut register = start;
    for byte in bytes {
        for bit in (0..8).rev() {
            let incoming = (byte >> bit) & 1 == 1;
            let outgoing = register >> 15 == 1;
            register <<= 1;
            if incoming != outgoing {
                register ^= POLYNOMIAL;
            }
        }
    }
    register
}

/// The checksum of bytes of which some bits were flipped, from the checksum before: the flips alone, with as many bytes of 0
/// behind them as the flipped bytes have bytes behind them, have the difference of the two as their checksum from 0.
pub fn flipped(crc: u16, flips: &[u8], after: usize) -> u16 {
    crc ^ after_zeros(checksum(0, flips), after)
}

/// A plain pass. Bytes of 0 lead every register back to itself in the end, and from there on the same way again, so that of a
/// long run only the last round is walked.
fn after_zeros(start: u16, count: usize) -> u16 {
    let mut register = start;
    for walked in 1..=count {
        register = checksum(register, &[0]);
        if register == start {
            return after_zeros(start, (count - walked) % walked);
        }
    }
    register
}

#[cfg(test)]
mod tests {
    use super::{checksum, flipped};

    #[test]
    fn ping() {
        assert_eq!(checksum(0, &[0xFF, 0xFF, 0xFD, 0x00, 0x01, 0x03, 0x00, 0x01]), 0x4E19);
    }

    #[test]
    fn one_flipped_bit() {
        let damaged = [0xFF, 0xFF, 0xFD, 0x00, 0x11, 0x03, 0x00, 0x01];
        assert_eq!(flipped(0x4E19, &[0x10], 3), checksum(0, &damaged));
    }

    #[test]
    fn one_bit_is_the_polynomial() {
        assert_eq!(checksum(0, &[1]), 0x8005);
    }
}
