use crate::{body, noise, segment};
use reference::{packet_of, verdict, Event, Rng, Verdict};

/// What is on the line in the promise over lists of calls: noise, then packets, then a rest.
pub struct NoisyLine {
    /// How many bytes of it are noise.
    pub noise: usize,
    pub packets: Vec<Vec<u8>>,
    /// What follows the packets is the beginning of another one, and not all of it.
    ends_in_a_beginning: bool,
    pub bytes: Vec<u8>,
}

/// What follows the packets.
pub struct Rest {
    pub bytes: Vec<u8>,
    pub is_a_beginning: bool,
}

impl Rest {
    pub fn draw(rng: &mut Rng) -> Rest {
        let (bytes, is_a_beginning) = match rng.between(0, 3) {
            0 => (vec![], false),
            1 => {
                let length = rng.between(1, 600);
                let mut next = packet_of(4, &body(rng, length));
                next.truncate(rng.between(0, next.len() - 1));
                (next, true)
            }
            2 => (segment(rng, 3, 200), false),
            _ => (noise(rng, 1_200), false),
        };
        Rest { bytes, is_a_beginning }
    }
}

impl NoisyLine {
    pub fn new(noise: Vec<u8>, packets: Vec<Vec<u8>>, rest: Rest) -> NoisyLine {
        let bytes = [&noise[..], &packets.concat(), &rest.bytes].concat();
        NoisyLine { noise: noise.len(), packets, ends_in_a_beginning: rest.is_a_beginning, bytes }
    }

    /// Some stretch that starts in the noise and ends beyond it is itself a packet: then nothing is promised.
    pub fn noise_makes_a_packet(&self) -> bool {
        (0..self.noise).any(|start| match verdict(&self.bytes[start..]) {
            Verdict::Packet { count, .. } => start + count > self.noise,
            _ => false,
        })
    }

    /// The packets of which all bytes are among the first so many, with their offsets, and the offset behind them.
    pub fn packets_within(&self, taken: usize) -> (Vec<(usize, Event)>, usize) {
        let mut at = self.noise;
        let mut packets = Vec::new();
        for packet in &self.packets {
            if at + packet.len() > taken {
                break;
            }
            packets.push((at, Event::Packet { id: packet[4], bytes: packet.clone() }));
            at += packet.len();
        }
        (packets, at)
    }

    /// Whether so many bytes end in a packet that is still arriving, after so many of the packets.
    pub fn still_arriving(&self, whole: usize) -> bool {
        whole < self.packets.len() || self.ends_in_a_beginning
    }
}
