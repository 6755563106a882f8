use crate::{Guarded, Lent};
use std::fmt;

/// How many bytes of a difference are shown.
const SHOWN: usize = 16;

/// An export and the reference differ: in what, and what each of them gave, bytes in hex.
#[derive(Clone, PartialEq, Eq, Debug)]
pub struct Difference {
    pub export: &'static str,
    pub what: String,
    pub expected: String,
    pub got: String,
    /// What the call was given.
    pub given: String,
}

impl fmt::Display for Difference {
    fn fmt(&self, f: &mut fmt::Formatter) -> fmt::Result {
        let Difference { export, what, expected, got, given } = self;
        write!(f, "{export} differs in {what}\n  expected {expected}\n  got      {got}\n  given    {given}")
    }
}

/// The bytes in hex, without anything between them.
pub fn hex(bytes: &[u8]) -> String {
    bytes.iter().map(|byte| format!("{byte:02x}")).collect()
}

/// The comparison of one call.
pub struct Comparison<'a> {
    pub export: &'static str,
    pub given: &'a dyn Fn() -> String,
}

impl Comparison<'_> {
    fn difference(&self, what: &str, got: String, expected: String) -> Difference {
        Difference { export: self.export, what: what.to_string(), expected, got, given: (self.given)() }
    }

    pub fn same<T: PartialEq + fmt::Debug>(&self, what: &str, got: T, expected: T) -> Result<(), Difference> {
        self.same_shown(what, got, expected, |answer| format!("{answer:?}"))
    }

    pub fn same_shown<T: PartialEq>(&self, what: &str, got: T, expected: T, show: fn(&T) -> String) -> Result<(), Difference> {
        if got == expected {
            return Ok(());
        }
        Err(self.difference(what, show(&got), show(&expected)))
    }

    /// Two buffers of one length. A difference is shown from its first byte on; offsets count from `start`.
    fn same_from(&self, what: &str, start: usize, got: &[u8], expected: &[u8]) -> Result<(), Difference> {
        if got == expected {
            return Ok(());
        }
        let at = (0..got.len()).find(|&i| got[i] != expected[i]).expect("buffers of one length");
        let end = got.len().min(at + SHOWN);
        let offset = at as i64 - start as i64;
        let shown = |bytes: &[u8]| format!("{} from offset {offset} on", hex(&bytes[at..end]));
        Err(self.difference(what, shown(got), shown(expected)))
    }

    pub fn same_bytes(&self, what: &str, got: &[u8], expected: &[u8]) -> Result<(), Difference> {
        self.same_from(what, 0, got, expected)
    }

    /// A borrowed buffer and the bytes around it.
    pub fn same_guarded(&self, what: &str, got: &Guarded, expected: &Guarded) -> Result<(), Difference> {
        self.same_bytes(what, got.bytes(), expected.bytes())?;
        let (before, got) = got.with_margins();
        self.same_from(&format!("the bytes around {what}"), before, got, expected.with_margins().1)
    }

    /// An input, an output and the bytes around both.
    pub fn same_lent(&self, got: &Lent, expected: &Lent) -> Result<(), Difference> {
        self.same_bytes("the output buffer", got.output(), expected.output())?;
        self.same_bytes("the lent input", got.input(), expected.input())?;
        let (before, got) = got.with_margins();
        self.same_from("the bytes around input and output", before, got, expected.with_margins().1)
    }
}

/// For a test, which ends with the first difference.
#[track_caller]
pub fn must_agree<T>(compared: Result<T, Difference>) -> T {
    compared.unwrap_or_else(|difference| panic!("{difference}"))
}
