//! One call over a stored log.

use crate::answers::{answer_of, Refusal, Verdict};
use crate::ffi;
use core::fmt;

/// What a run over a log came to. It prints as the program does: answer, refusal number or 0, mask, taken and place, with single spaces.
#[derive(Clone, Copy, Debug, PartialEq, Eq, Hash)]
pub struct Outcome {
    /// The verdict where the run ended, or why the sheet, the log or a record was refused.
    pub answer: Result<Verdict, Refusal>,
    /// The verdict's mask; after a record's refusal, the rules that were open just before it; else 0.
    pub mask: u16,
    /// How many records were taken.
    pub taken: u32,
}

impl Outcome {
    /// By what the call returned, 0 where it has written the twelve bytes and else a refusal's number, and by those bytes.
    fn returned(number: u32, out: &[u8; 12]) -> Outcome {
        if number == 0 {
            return Outcome::of(out);
        }
        Outcome {
            answer: Err(Refusal::of(u8::try_from(number).unwrap_or(u8::MAX), None)),
            mask: 0,
            taken: 0,
        }
    }

    fn of(out: &[u8; 12]) -> Outcome {
        let four = |at: usize| u32::from_le_bytes([out[at], out[at + 1], out[at + 2], out[at + 3]]);
        let mask = u16::from_le_bytes([out[2], out[3]]);
        Outcome {
            answer: answer_of(out[0], out[1], mask, four(8), Some(four(8))),
            mask,
            taken: four(4),
        }
    }

    /// The five numbers: answer (0 whole, 1 open, 2 broken, 3 refused), refusal number or 0, mask, taken, place.
    pub fn numbers(&self) -> [u32; 5] {
        let (answer, refusal, place) = match self.answer {
            Ok(Verdict::Whole) => (0, 0, 0),
            Ok(Verdict::Open { .. }) => (1, 0, 0),
            Ok(Verdict::Broken { at, .. }) => (2, 0, at),
            Err(refusal) => (refusal.answer().into(), refusal.number().into(), refusal.place().unwrap_or(0)),
        };
        [answer, refusal, self.mask.into(), self.taken, place]
    }
}

impl fmt::Display for Outcome {
    fn fmt(&self, f: &mut fmt::Formatter<'_>) -> fmt::Result {
        let [answer, refusal, mask, taken, place] = self.numbers();
        write!(f, "{answer} {refusal} {mask} {taken} {place}")
    }
}

/// Runs a log under a sheet, from a fresh monitor, for at most `budget` records. A record has 5 bytes: a name 0 to 63, or FF for a clock reading, then the time, little-endian.
///
/// Only a refusal or a break stops the run before the budget or the log is used up. The whole sheet is looked at before the log.
///
/// ```
/// use guard::{run, Verdict};
/// // document 01's printed case
/// let sheet = [
///     0x4C, 0x4F, 0x42, 1, 0, 0, 0, 0, 0, 0, 0, 0, 0, 1, 1, 1, 0, 2, 0, 0, 0, 0, 0, 2, 0, 1, 0, 1, 0, 1, 1, 0, 1, 0,
/// ];
/// let log = [1, 5, 0, 0, 0, 0, 5, 0, 0, 0, 2, 9, 0, 0, 0, 2, 10, 0, 0, 0];
/// let outcome = run(&sheet, &log, u32::MAX);
/// assert_eq!(outcome.answer, Ok(Verdict::Broken { at: 4, mask: 1 }));
/// assert_eq!(outcome.to_string(), "2 0 1 4 4");
/// assert_eq!(run(&sheet, &log, 3).to_string(), "0 0 0 3 0");
/// ```
pub fn run(sheet: &[u8], log: &[u8], budget: u32) -> Outcome {
    let mut out = [0; 12];
    let number = ffi::call(sheet, log, budget, &mut out);
    Outcome::returned(number, &out)
}

#[cfg(test)]
mod tests {
    use super::*;

    #[test]
    fn numbers_are_those_of_the_twelve_bytes() {
        let numbers = |out: [u8; 12]| Outcome::of(&out).numbers();
        assert_eq!(numbers([0, 0, 0, 0, 3, 1, 0, 0, 0, 0, 0, 0]), [0, 0, 0, 259, 0]);
        assert_eq!(numbers([1, 0, 1, 2, 3, 0, 0, 0, 0, 0, 0, 0]), [1, 0, 513, 3, 0]);
        assert_eq!(numbers([2, 0, 1, 0, 0, 0, 0, 1, 0, 0, 0, 1]), [2, 0, 1, 1 << 24, 1 << 24]);
        assert_eq!(numbers([3, 12, 5, 0, 2, 0, 0, 0, 10, 0, 0, 0]), [3, 12, 5, 2, 10]);
        assert_eq!(numbers([3, 14, 0, 0, 0, 0, 0, 0, 0, 0, 0, 0]), [3, 14, 0, 0, 0]);
        assert_eq!(numbers([3, 1, 0, 0, 0, 0, 0, 0, 32, 0, 0, 0]), [3, 1, 0, 0, 32]);
    }

    /// A library of another version: its numbers are passed on, as an error.
    #[test]
    fn unknown_numbers_are_errors() {
        for out in [[3, 19, 5, 0, 2, 0, 0, 0, 10, 0, 0, 0], [4, 0, 5, 0, 2, 0, 0, 0, 10, 0, 0, 0], [255; 12]] {
            let outcome = Outcome::of(&out);
            assert!(matches!(outcome.answer, Err(Refusal::Unknown { .. })));
            let mask = u16::from_le_bytes([out[2], out[3]]).into();
            let four = |at: usize| u32::from_le_bytes([out[at], out[at + 1], out[at + 2], out[at + 3]]);
            assert_eq!(outcome.numbers(), [out[0].into(), out[1].into(), mask, four(4), four(8)]);
        }
    }

    #[test]
    fn what_the_call_returns() {
        let returned = |number| Outcome::returned(number, &[0; 12]).answer;
        assert_eq!(returned(0), Ok(Verdict::Whole));
        assert_eq!(returned(15), Err(Refusal::OutputShort));
        for (number, passed) in [(19, 19), (255, 255), (256, 255), (271, 255), (u32::MAX, 255)] {
            assert!(matches!(returned(number), Err(Refusal::Unknown { number, .. }) if number == passed));
        }
    }
}
