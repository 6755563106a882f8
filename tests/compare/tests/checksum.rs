//! The checksum: the proved export and the reference give the same.

use compare::{compare_flipped, must_agree, published, Published, Status, PROVED};
use exports::{crc16, crc16_flipped, test::crc16_fold, test::crc16_small};
use reference::{checksum, Rng};

type Leaf = fn(u16, &[u8]) -> u16;
const LEAVES: [(&str, Leaf); 3] =
    [("by a table of 256", crc16), ("by sixteen numbers", crc16_small), ("without a table", crc16_fold)];

/// The two bytes at the end are the checksum of all before them, low byte first, by both implementations.
fn ends_with_checksum(bytes: &[u8]) -> bool {
    let (covered, crc) = bytes.split_at(bytes.len() - 2);
    let sum = checksum(0, covered);
    assert_eq!(crc16(0, covered), sum);
    crc == sum.to_le_bytes()
}

fn length_fits(bytes: &[u8]) -> bool {
    7 + usize::from(u16::from_le_bytes([bytes[5], bytes[6]])) == bytes.len()
}

/// Cuts in rising order; two that are equal make an empty part.
fn parts<'a>(rng: &mut Rng, bytes: &'a [u8], count: usize) -> Vec<&'a [u8]> {
    let mut cuts: Vec<usize> = (1..count).map(|_| rng.between(0, bytes.len())).collect();
    if rng.one_in(3) {
        cuts.extend(cuts.clone());
    }
    cuts.push(0);
    cuts.push(bytes.len());
    cuts.sort();
    cuts.windows(2).map(|ends| &bytes[ends[0]..ends[1]]).collect()
}

/// [C1 C5 C11]
#[test]
fn random_slices_whole_and_in_parts() {
    let mut rng = Rng::new(1);
    for case in 0..120_000 {
        let count = rng.between(0, 2_000);
        let bytes = rng.bytes(count);
        let start = rng.word() as u16;
        let sum = checksum(start, &bytes);
        for (how, crc16) in LEAVES {
            assert_eq!(crc16(start, &bytes), sum, "case {case}: {count} bytes from {start:04x}, {how}");
        }

        let count = match case % 3 {
            0 => 2,
            1 => 3,
            _ => rng.between(4, 40),
        };
        let (mut crc, mut fold) = (start, start);
        for part in parts(&mut rng, &bytes, count) {
            crc = crc16(crc, part);
            fold = crc16_fold(fold, part);
        }
        assert_eq!((crc, fold), (sum, sum), "case {case}: in parts, from {start:04x}");
    }
}

/// [C5]
#[test]
fn every_start_without_bytes_and_with_one() {
    let mut rng = Rng::new(2);
    for start in 0..=u16::MAX {
        let byte = rng.byte();
        for (how, crc16) in LEAVES {
            assert_eq!(crc16(start, &[]), start, "{how}");
            assert_eq!(crc16(start, &[byte]), checksum(start, &[byte]), "from {start:04x}, byte {byte:02x}, {how}");
        }
    }
}

/// [C2 C10]
#[test]
fn every_byte_from_every_high_half() {
    for high in 0..=255u8 {
        for byte in 0..=255u8 {
            let start = u16::from_be_bytes([high, 0x5A]);
            for (how, crc16) in LEAVES {
                assert_eq!(crc16(start, &[byte]), checksum(start, &[byte]), "from {start:04x}, byte {byte:02x}, {how}");
            }
        }
    }
}

/// Every count around whole turns of eight bytes, with single bits among bytes of 0 as well as with random bytes. [C11]
#[test]
fn every_count_up_to_forty() {
    let mut rng = Rng::new(7);
    for count in 0..=40 {
        let ones = (0..8 * count).map(|bit| (0..count).map(|at| if at == bit / 8 { 1 << (bit % 8) } else { 0 }).collect());
        let inputs: Vec<Vec<u8>> = ones.chain((0..200).map(|_| rng.bytes(count))).collect();
        for bytes in inputs {
            for start in [0, 1, 0x8000, 0xFFFF, rng.word() as u16] {
                let sum = checksum(start, &bytes);
                for (how, crc16) in LEAVES {
                    assert_eq!(crc16(start, &bytes), sum, "{bytes:02x?} from {start:04x}, {how}");
                }
            }
        }
    }
}

#[test]
fn a_megabyte() {
    let bytes = Rng::new(3).bytes(1 << 20);
    let sum = checksum(0, &bytes);
    for (how, crc16) in LEAVES {
        assert_eq!(crc16(0, &bytes), sum, "{how}");
    }
}

/// [C4 G2 K6 P8]
#[test]
fn published_packets() {
    let packets = published();
    let good: Vec<&Published> = packets.iter().filter(|packet| packet.status == Status::Good).collect();
    for packet in &good {
        assert!(length_fits(&packet.bytes), "{}: length", packet.place);
        assert!(ends_with_checksum(&packet.bytes), "{}: checksum", packet.place);
    }
    let count = |document: &str| good.iter().filter(|packet| packet.place.starts_with(document)).count();
    assert_eq!([count("000"), count("001"), count("002")], [27, 25, 33]);
}

/// [K6]
#[test]
fn misprints_are_wrong() {
    let packets = published();
    let misprints: Vec<&Published> = packets.iter().filter(|packet| packet.status == Status::Misprint).collect();
    for packet in &misprints {
        assert!(!ends_with_checksum(&packet.bytes), "{}: the checksum is right", packet.place);
    }
    let places: Vec<&str> = misprints.iter().map(|packet| packet.place.as_str()).collect();
    assert_eq!(places, ["000 line 302", "002 line 471", "002 line 743+745"]);
}

/// The parts of one answer, joined, are the good packet printed as their rows together, and each part ends with the checksum of
/// all bytes up to it. [K6]
#[test]
fn parts_join_to_a_packet() {
    let packets = published();
    let mut joined = Vec::new();
    let mut whole: Option<&Published> = None;
    let mut answers = 0;
    for packet in &packets {
        if packet.status == Status::Part {
            joined.extend(&packet.bytes);
            assert!(ends_with_checksum(&joined), "{}: checksum of the parts so far", packet.place);
            if joined == whole.expect("a part follows its packet").bytes {
                answers += 1;
                joined.clear();
            }
        } else {
            assert!(joined.is_empty(), "{}: the parts before it are no whole packet", packet.place);
            whole = Some(packet);
        }
    }
    assert!(joined.is_empty());
    assert_eq!(answers, 2);
}

fn xor(a: &[u8], b: &[u8]) -> Vec<u8> {
    assert_eq!(a.len(), b.len());
    a.iter().zip(b).map(|(x, y)| x ^ y).collect()
}

/// The checksum of an exclusive or is the exclusive or of the checksums, the starts combined likewise.
#[test]
fn sums_add() {
    let mut rng = Rng::new(4);
    for case in 0..20_000 {
        let count = if case % 10 == 0 { 0 } else { rng.between(0, 300) };
        let (a, b) = (rng.bytes(count), rng.bytes(count));
        let [s, t] = if case % 4 == 0 { [0, 0] } else { [rng.word() as u16, rng.word() as u16] };
        assert_eq!(crc16(s ^ t, &xor(&a, &b)), crc16(s, &a) ^ crc16(t, &b), "case {case}: {count} bytes from {s:04x}, {t:04x}");
    }
}

/// From the checksum of three parts that of the same with bits flipped in the second: parts of any length, also empty ones, and
/// any start.
#[test]
fn flipped_bits() {
    let mut rng = Rng::new(5);
    for case in 0..20_000 {
        let [before, within, after] = [rng.between(0, 40), rng.between(0, 12), rng.between(0, 1_200) / rng.between(1, 400)];
        let (a, b, c) = (rng.bytes(before), rng.bytes(within), rng.bytes(after));
        let flips = rng.bytes(within);
        let start = rng.word() as u16;
        let crc = checksum(start, &[&a[..], &b, &c].concat());
        let changed = checksum(start, &[&a[..], &xor(&b, &flips), &c].concat());
        assert_eq!(crc16_flipped(crc, &flips, after), changed, "case {case}: {before}, {within} and {after} bytes");
        must_agree(compare_flipped(&PROVED, &mut rng, crc, &flips, after));
    }
}

/// Each bit of each published packet, before its checksum, flipped by itself.
#[test]
fn every_bit_of_published_packets() {
    for packet in published().iter().filter(|packet| packet.status == Status::Good) {
        let covered = &packet.bytes[..packet.bytes.len() - 2];
        let crc = crc16(0, covered);
        for (at, bit) in (0..covered.len()).flat_map(|at| (0..8).map(move |bit| (at, 1 << bit))) {
            let mut changed = covered.to_vec();
            changed[at] ^= bit;
            assert_eq!(crc16_flipped(crc, &[bit], covered.len() - at - 1), checksum(0, &changed), "{}: byte {at}", packet.place);
        }
    }
}

/// Every count with few binary digits, their neighbours, and the largest there is.
#[test]
fn flips_far_from_the_end() {
    let mut rng = Rng::new(6);
    for bit in 0..usize::BITS {
        let power = 1usize << bit;
        for after in [power - 1, power, power + 1, usize::MAX - power, usize::MAX, rng.word() as usize >> (63 - bit)] {
            let flips = rng.bytes(2);
            must_agree(compare_flipped(&PROVED, &mut rng, 0x4E19, &flips, after));
        }
    }
    for after in [32_766, 32_767, 32_768, 65_534, 65_535, 65_536] {
        must_agree(compare_flipped(&PROVED, &mut rng, 0, &[1], after));
    }
}
