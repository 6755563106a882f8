use reference::{Answer, Rng};
use std::hint::black_box;
use std::ops::Range;

/// Bytes before, between and after what is lent.
const MARGIN: usize = 24;

/// The memory that one call borrows: an input and an output, with bytes around both that no call may touch. Two copies, one given
/// to the reference and one to the proved code, must be the same afterwards, byte by byte.
#[derive(Clone, PartialEq, Eq)]
pub struct Lent {
    memory: Vec<u8>,
    input: Range<usize>,
    output: Range<usize>,
}

impl Lent {
    /// The output and the margins are random bytes.
    pub fn new(rng: &mut Rng, input: &[u8], output_length: usize) -> Lent {
        let output_start = MARGIN + input.len() + MARGIN;
        let mut memory = rng.bytes(output_start + output_length + MARGIN);
        let lent = MARGIN..MARGIN + input.len();
        memory[lent.clone()].copy_from_slice(input);
        Lent { memory, input: lent, output: output_start..output_start + output_length }
    }

    pub fn call<R>(&mut self, f: impl FnOnce(&[u8], &mut [u8]) -> R) -> R {
        let (before, after) = self.memory.split_at_mut(self.output.start);
        let answer = f(&before[self.input.clone()], &mut after[..self.output.len()]);
        // What was lent as input is compared too, so the compiler must not take it for unchanged.
        black_box(&mut self.memory);
        answer
    }

    pub fn input(&self) -> &[u8] {
        &self.memory[self.input.clone()]
    }

    pub fn output(&self) -> &[u8] {
        &self.memory[self.output.clone()]
    }

    /// All the memory, and how many bytes of it stand before the output.
    pub fn with_margins(&self) -> (usize, &[u8]) {
        (self.output.start, &self.memory)
    }
}

/// One borrowed buffer with bytes around it that no call may touch; for calls that borrow more than an input and an output, or
/// one memory many times.
#[derive(Clone)]
pub struct Guarded {
    memory: Vec<u8>,
}

impl Guarded {
    /// The margins are random bytes.
    pub fn new(rng: &mut Rng, contents: &[u8]) -> Guarded {
        let margins = rng.bytes(2 * MARGIN);
        Guarded { memory: [&margins[..MARGIN], contents, &margins[MARGIN..]].concat() }
    }

    pub fn bytes(&self) -> &[u8] {
        &self.memory[MARGIN..self.memory.len() - MARGIN]
    }

    pub fn bytes_mut(&mut self) -> &mut [u8] {
        let end = self.memory.len() - MARGIN;
        &mut self.memory[MARGIN..end]
    }

    /// The buffer and what is around it, and how many bytes of that stand before it.
    pub fn with_margins(&self) -> (usize, &[u8]) {
        (MARGIN, &self.memory)
    }

    /// The buffer as one of a fixed length.
    pub fn array_mut<const N: usize>(&mut self) -> &mut [u8; N] {
        self.bytes_mut().try_into().expect("the buffer was made with this length")
    }
}

/// An answer as the exports give it: a refusal is minus its number.
pub fn number(answer: Answer) -> i64 {
    match answer {
        Ok(count) => count as i64,
        Err(refusal) => -i64::from(refusal),
    }
}
