//! What the guard answers: a verdict, or a refusal.

use core::fmt;

/// The library's number for a refusal.
const REFUSED: u8 = 3;

/// The verdict on everything seen so far.
///
/// Document 01 has these three and no others, so that a host's `match` can name each: a verdict that it passes over by `_` could be the break.
///
/// A mask has bit r for rule r of the sheet, in file order from 0; [`rules`](Verdict::rules) gives the numbers.
#[derive(Clone, Copy, Debug, PartialEq, Eq, Hash)]
pub enum Verdict {
    /// Every rule's trace is a match.
    Whole,
    /// No rule is broken, and the rules of the mask are open: a continuation makes a match.
    Open {
        /// the open rules
        mask: u16,
    },
    /// No continuation makes a match of the mask's rules: stop the plugin. It stays so.
    Broken {
        /// the observation that broke them, counted from 1 among those taken
        at: u32,
        /// the rules that broke at it
        mask: u16,
    },
}

impl Verdict {
    /// The rules that are open or broken, as bits; 0 for whole.
    pub fn mask(self) -> u16 {
        match self {
            Verdict::Whole => 0,
            Verdict::Open { mask } | Verdict::Broken { mask, .. } => mask,
        }
    }

    /// The numbers of the rules that are open or broken, rising.
    ///
    /// ```
    /// use guard::Verdict;
    /// assert_eq!(Verdict::Broken { at: 7, mask: 0b1000_0000_0000_0101 }.rules().collect::<Vec<_>>(), [0, 2, 15]);
    /// ```
    pub fn rules(self) -> impl Iterator<Item = usize> {
        let mask = self.mask();
        (0..16).filter(move |r| mask >> r & 1 == 1)
    }

    /// Whether the plugin is to be stopped.
    pub fn is_broken(self) -> bool {
        matches!(self, Verdict::Broken { .. })
    }
}

impl fmt::Display for Verdict {
    fn fmt(&self, f: &mut fmt::Formatter<'_>) -> fmt::Result {
        match self {
            Verdict::Whole => return f.write_str("whole"),
            Verdict::Open { .. } => f.write_str("open: rules")?,
            Verdict::Broken { at, .. } => write!(f, "broken at {at}: rules")?,
        }
        self.rules().try_for_each(|r| write!(f, " {r}"))
    }
}

/// Why a sheet, an observation, a log, a buffer or a round was refused. Nothing has changed then.
///
/// A sheet's `place` is the offset of the first faulty field. An observation's is the refused record's offset in its log, and `None` in a live session.
///
/// Later versions of the guard refuse for more reasons, so that a `match` needs an arm for the rest.
///
/// ```
/// use guard::{Book, Refusal};
/// let refusal = Book::open(b"LOB\x03\x00").unwrap_err();
/// assert_eq!(refusal, Refusal::Version { place: 3 });
/// assert_eq!((refusal.number(), refusal.place()), (3, Some(3)));
/// assert_eq!(refusal.to_string(), "refusal 3 at byte 3: the sheet's version is neither 1 nor 2");
/// ```
#[derive(Clone, Copy, Debug, PartialEq, Eq, Hash)]
#[non_exhaustive]
#[allow(missing_docs)] // the fields, which are said above
pub enum Refusal {
    /// 1: a field doesn't fit in the bytes left.
    Truncated { place: u32 },
    /// 2: the mark is not "LOB".
    Mark { place: u32 },
    /// 3: the version is neither 1 nor 2.
    Version { place: u32 },
    /// 4: a count, kind or join outside its values. A join is 0 or 1 in version 1, and 0 to 3 in version 2.
    Value { place: u32 },
    /// 5: a Q count, trigger or t where 0 is due.
    NotZero { place: u32 },
    /// 6: a trigger or a range's name above 63.
    Name { place: u32 },
    /// 7: u is 0, or v < u. In version 2 a v of 0 is no upper end: u or more.
    Bounds { place: u32 },
    /// 8: a range's name is already in the rule. An input that is named in Q is 9, which is looked at first.
    NameTwice { place: u32 },
    /// 9: a trigger that is an output, or a name of Q that is an input, already in the rule or not.
    Direction { place: u32 },
    /// 10: bytes after the last rule.
    LeftOver { place: u32 },
    /// 11: an observation before the latest one.
    TimeFalls { place: Option<u32> },
    /// 12: an observation's name of 64 or more.
    NameUnknown { place: Option<u32> },
    /// 13: 4,294,967,295 observations are already taken. Only a session can meet it.
    CountFull,
    /// 14: the log's length is no multiple of 5, or above 4,294,967,295.
    LogLength,
    /// 15: the output has under 12 bytes. [`run`](crate::run) has an output of its own, so that this never comes from here.
    OutputShort,
    /// 16: the buffer is shorter than the sheet. Only [`Book::write`](crate::Book::write) can meet it.
    BufferShort,
    /// 17: the book has no rule of this number. Only [`Book::play`](crate::Book::play) can meet it, and looks for it first.
    RuleUnknown,
    /// 18: the chosen round is longer than the output. Only [`Book::play`](crate::Book::play) can meet it.
    RoundLong,
    /// An answer or a refusal's number that this package doesn't know, as the library gave them: the library is of another version. What has changed isn't known. Take it as a
    /// reason to stop the plugin.
    Unknown { answer: u8, number: u8, place: Option<u32> },
}

impl Refusal {
    /// The refusal of a number at a place, as the library gives them.
    pub(crate) fn of(number: u8, place: Option<u32>) -> Refusal {
        let at = place.unwrap_or(0);
        match number {
            1 => Refusal::Truncated { place: at },
            2 => Refusal::Mark { place: at },
            3 => Refusal::Version { place: at },
            4 => Refusal::Value { place: at },
            5 => Refusal::NotZero { place: at },
            6 => Refusal::Name { place: at },
            7 => Refusal::Bounds { place: at },
            8 => Refusal::NameTwice { place: at },
            9 => Refusal::Direction { place: at },
            10 => Refusal::LeftOver { place: at },
            11 => Refusal::TimeFalls { place },
            12 => Refusal::NameUnknown { place },
            13 => Refusal::CountFull,
            14 => Refusal::LogLength,
            15 => Refusal::OutputShort,
            16 => Refusal::BufferShort,
            17 => Refusal::RuleUnknown,
            18 => Refusal::RoundLong,
            _ => Refusal::Unknown {
                answer: REFUSED,
                number,
                place,
            },
        }
    }

    /// A refusal that is none of its call's.
    pub(crate) fn unknown(number: u8) -> Refusal {
        Refusal::Unknown {
            answer: REFUSED,
            number,
            place: None,
        }
    }

    /// The library's number for the answer that a refusal is.
    pub(crate) fn answer(self) -> u8 {
        match self {
            Refusal::Unknown { answer, .. } => answer,
            _ => REFUSED,
        }
    }

    /// Number, place and explanation.
    fn parts(self) -> (u8, Option<u32>, &'static str) {
        use Refusal::*;
        match self {
            Truncated { place } => (1, Some(place), "the sheet is cut off: a field doesn't fit in the bytes left"),
            Mark { place } => (2, Some(place), "the sheet's mark is not \"LOB\""),
            Version { place } => (3, Some(place), "the sheet's version is neither 1 nor 2"),
            Value { place } => (
                4,
                Some(place),
                "a count, kind or join is outside its values (a join is 0 or 1 in version 1, 0 to 3 in version 2)",
            ),
            NotZero { place } => (5, Some(place), "a Q count, trigger or t is not 0 where 0 is due"),
            Name { place } => (6, Some(place), "a trigger or a range's name is above 63"),
            Bounds { place } => (
                7,
                Some(place),
                "a range's u is 0, or its v is below u (in version 2 a v of 0 is no upper end)",
            ),
            NameTwice { place } => (8, Some(place), "a range's name is already in the rule"),
            Direction { place } => (9, Some(place), "a trigger is an output, or a name of Q is an input"),
            LeftOver { place } => (10, Some(place), "bytes are left over after the last rule"),
            TimeFalls { place } => (11, place, "the observation's time is before the latest one"),
            NameUnknown { place } => (12, place, "the observation's name is 64 or more"),
            CountFull => (13, None, "4,294,967,295 observations are already taken"),
            LogLength => (14, None, "the log's length is no multiple of 5, or above 4,294,967,295"),
            OutputShort => (15, None, "the output has under 12 bytes"),
            BufferShort => (16, None, "the buffer is shorter than the sheet"),
            RuleUnknown => (17, None, "the book has no rule of this number"),
            RoundLong => (18, None, "the chosen round is longer than the output"),
            Unknown { number, place, .. } => (number, place, "the library's answer is not known to this package"),
        }
    }

    /// The number of documents 01 and 02, 1 to 18; for one that isn't known, the library's.
    pub fn number(self) -> u8 {
        self.parts().0
    }

    /// The offset of the faulty field in the sheet, or of the refused record in the log.
    pub fn place(self) -> Option<u32> {
        self.parts().1
    }

    /// What is wrong, in one line and without the place.
    pub fn explanation(self) -> &'static str {
        self.parts().2
    }
}

impl fmt::Display for Refusal {
    fn fmt(&self, f: &mut fmt::Formatter<'_>) -> fmt::Result {
        let (number, place, explanation) = self.parts();
        if let Refusal::Unknown { answer, .. } = self {
            write!(f, "answer {answer}, ")?;
        }
        match place {
            Some(place) => write!(f, "refusal {number} at byte {place}: {explanation}"),
            None => write!(f, "refusal {number}: {explanation}"),
        }
    }
}

impl core::error::Error for Refusal {}

/// A verdict or a refusal from the numbers of an answer.
pub(crate) fn answer_of(answer: u8, refusal: u8, mask: u16, at: u32, place: Option<u32>) -> Result<Verdict, Refusal> {
    match answer {
        0 => Ok(Verdict::Whole),
        1 => Ok(Verdict::Open { mask }),
        2 => Ok(Verdict::Broken { at, mask }),
        REFUSED => Err(Refusal::of(refusal, place)),
        _ => Err(Refusal::Unknown {
            answer,
            number: refusal,
            place,
        }),
    }
}

#[cfg(test)]
mod tests {
    use super::*;
    use std::format;
    use std::string::ToString;
    use std::vec::Vec;

    #[test]
    fn each_number_has_its_refusal_back() {
        for number in 1..=18 {
            let refusal = Refusal::of(number, Some(9));
            assert_eq!(refusal.number(), number);
            let placed = !(13..=18).contains(&number);
            assert_eq!(refusal.place(), placed.then_some(9), "{refusal:?}");
            assert!(!refusal.explanation().contains('\n'));
        }
        assert_eq!(Refusal::of(11, None).place(), None);
    }

    #[test]
    fn an_unknown_number_is_an_error_that_has_it() {
        for number in (0..=255).filter(|n| !(1..=18).contains(n)) {
            let refusal = Refusal::of(number, Some(9));
            assert_eq!((refusal.answer(), refusal.number(), refusal.place()), (3, number, Some(9)));
            assert_eq!(answer_of(3, number, 1, 9, Some(9)), Err(refusal));
        }
        let words = "answer 3, refusal 19: the library's answer is not known to this package";
        assert_eq!(Refusal::of(19, None).to_string(), words);
    }

    #[test]
    fn an_unknown_answer_is_an_error_that_has_it() {
        for answer in 4..=255 {
            let refusal = answer_of(answer, 7, 1, 9, Some(9)).unwrap_err();
            assert_eq!((refusal.answer(), refusal.number(), refusal.place()), (answer, 7, Some(9)));
            assert!(refusal.to_string().starts_with(&format!("answer {answer}, refusal 7 at byte 9: ")));
        }
    }

    /// One text for each number, in C and here.
    #[test]
    fn the_header_has_the_same_texts() {
        let header = include_str!("../../../include/guard.h");
        let texts: Vec<_> = header
            .lines()
            .filter_map(|line| line.strip_prefix("        \"")?.strip_suffix("\","))
            .collect();
        let ours: Vec<_> = (1..=18)
            .map(|number| Refusal::of(number, None).explanation().replace('"', "\\\""))
            .collect();
        assert_eq!(texts, ours);
    }

    #[test]
    fn answers_by_number() {
        assert_eq!(answer_of(0, 0, 0, 0, None), Ok(Verdict::Whole));
        assert_eq!(answer_of(1, 0, 5, 0, None), Ok(Verdict::Open { mask: 5 }));
        assert_eq!(answer_of(2, 0, 5, 9, None), Ok(Verdict::Broken { at: 9, mask: 5 }));
        assert_eq!(answer_of(3, 13, 0, 0, None), Err(Refusal::CountFull));
    }

    #[test]
    fn verdicts_in_words() {
        assert_eq!(Verdict::Whole.to_string(), "whole");
        assert_eq!(Verdict::Open { mask: 6 }.to_string(), "open: rules 1 2");
        assert_eq!(Verdict::Broken { at: 3, mask: 1 }.to_string(), "broken at 3: rules 0");
        assert_eq!(Verdict::Whole.rules().count(), 0);
        assert_eq!(Verdict::Open { mask: 0xFFFF }.rules().count(), 16);
    }
}
