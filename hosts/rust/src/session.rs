//! A book, and live sessions under it.

use crate::answers::{answer_of, Refusal, Verdict};
use crate::ffi::{self, MonitorBytes, Tables, BOOK_WORDS, MONITOR_BYTES, RECORD_BYTES};
use alloc::boxed::Box;
use core::borrow::Borrow;
use core::fmt;
use core::ops::RangeInclusive;

/// A translated sheet. Any number of sessions can go on under one book, in any threads.
#[derive(Clone)]
pub struct Book {
    tables: Box<Tables>,
}

impl Book {
    /// Reads a sheet.
    ///
    /// # Errors
    /// Refusals 1 to 10, with the offset of the first faulty field.
    ///
    /// ```
    /// use guard::{Book, Refusal};
    /// assert_eq!(Book::open(b"").unwrap_err(), Refusal::Truncated { place: 0 });
    /// assert_eq!(Book::open(b"LOL").unwrap_err(), Refusal::Mark { place: 0 });
    /// ```
    pub fn open(sheet: &[u8]) -> Result<Book, Refusal> {
        let mut tables = Box::new([0; BOOK_WORDS]);
        let mut monitor = [0; MONITOR_BYTES];
        let opened = answer(ffi::open(sheet, &mut tables, &mut monitor), true);
        opened.map(|_| Book { tables })
    }

    /// Writes the sheet of this book into the buffer: the sheet's own bytes, in its own version. Answers how many they are; later bytes of the buffer stay as they were.
    ///
    /// Just the sheet's length is enough, and [`SHEET_BYTES`](crate::SHEET_BYTES) always is. The written bytes open into the same book.
    ///
    /// # Errors
    /// Refusal 16, [`Refusal::BufferShort`]: the buffer is shorter than the sheet, and nothing is written.
    ///
    /// ```
    /// use guard::{Book, Refusal, SHEET_BYTES};
    /// // rule R of document 01 in a sheet of version 2, which says that name 63 is an output, though no rule has it
    /// let sheet = [
    ///     0x4C, 0x4F, 0x42, 2, 0, 0, 0, 0, 0, 0, 0, 0, 0x80, 1, 1, 1, 0, 2, 0, 0, 0, 0, 0, 2, 0, 1, 0, 1, 0, 1, 1, 0, 1, 0,
    /// ];
    /// let book = Book::open(&sheet)?;
    /// let mut buffer = [0; SHEET_BYTES];
    /// let length = book.write(&mut buffer)?;
    /// assert_eq!(buffer[..length], sheet);
    /// assert_eq!(book.write(&mut [0; 33]), Err(Refusal::BufferShort));
    /// # Ok::<(), guard::Refusal>(())
    /// ```
    pub fn write(&self, buffer: &mut [u8]) -> Result<usize, Refusal> {
        let length = buffer.len();
        counted(ffi::write(&self.tables, buffer), length, 16..=16)
    }

    /// Plays the plugin, and the host's own calls too: writes one round of a rule into the output, as log records of [`RECORD_BYTES`](crate::RECORD_BYTES) each, all at this time. Answers how
    /// many they are; later bytes of the output stay as they were.
    ///
    /// The rule is its number in the sheet, in file order from 0. Every choice gives a round that matches, and missing choice bytes count as 0; `docs/PLAYING.md` says which bytes pick which
    /// round.
    ///
    /// # Errors
    /// Looked for in this order: 17, [`Refusal::RuleUnknown`]: the book has no rule of this number; 18, [`Refusal::RoundLong`]: the round is longer than the output. Nothing is written then.
    ///
    /// ```
    /// use guard::{Book, Refusal};
    /// // rule R of document 01: names 0 and 1, once each and in any order, before each 2
    /// let sheet = [
    ///     0x4C, 0x4F, 0x42, 1, 0, 0, 0, 0, 0, 0, 0, 0, 0, 1, 1, 1, 0, 2, 0, 0, 0, 0, 0, 2, 0, 1, 0, 1, 0, 1, 1, 0, 1, 0,
    /// ];
    /// let book = Book::open(&sheet)?;
    /// let mut log = [0; 15];
    /// assert_eq!(book.play(0, 9, &[], &mut log)?, 3);
    /// assert_eq!(log, [0, 9, 0, 0, 0, 1, 9, 0, 0, 0, 2, 9, 0, 0, 0]);
    /// // a first byte of 2: the second of the two names comes first
    /// assert_eq!(book.play(0, 9, &[2], &mut log)?, 3);
    /// assert_eq!(log, [1, 9, 0, 0, 0, 0, 9, 0, 0, 0, 2, 9, 0, 0, 0]);
    /// assert_eq!(book.play(0, 9, &[], &mut log[..14]), Err(Refusal::RoundLong));
    /// assert_eq!(book.play(1, 9, &[], &mut []), Err(Refusal::RuleUnknown));
    /// # Ok::<(), guard::Refusal>(())
    /// ```
    pub fn play(&self, rule: u32, time: u32, choice: &[u8], out: &mut [u8]) -> Result<usize, Refusal> {
        let room = out.len() / RECORD_BYTES;
        counted(ffi::play(&self.tables, rule, time, choice, out), room, 17..=18)
    }

    /// A fresh session under this book.
    pub fn session(&self) -> Session<&Book> {
        Session::under(self)
    }
}

impl fmt::Debug for Book {
    fn fmt(&self, f: &mut fmt::Formatter<'_>) -> fmt::Result {
        f.debug_struct("Book").finish_non_exhaustive()
    }
}

/// An answer's number: answer, refusal, mask and place, lowest first. A live observation has no place but a break's.
fn answer(word: u64, of_sheet: bool) -> Result<Verdict, Refusal> {
    let place = (word >> 32) as u32;
    answer_of(word as u8, (word >> 8) as u8, (word >> 16) as u16, place, of_sheet.then_some(place))
}

/// The number of a call that writes at most so many bytes or records: how many they are, or minus one of its own refusals' numbers in 64 bits. Any other is one that this package doesn't know.
fn counted(word: u64, most: usize, own: RangeInclusive<u8>) -> Result<usize, Refusal> {
    match (usize::try_from(word), u8::try_from(word.wrapping_neg())) {
        (Ok(count), _) if count <= most => Ok(count),
        (_, Ok(number)) if own.contains(&number) => Err(Refusal::of(number, None)),
        (_, number) => Err(Refusal::unknown(number.unwrap_or(u8::MAX))),
    }
}

/// One plugin's session: everything that was observed so far, in one monitor of [`MONITOR_BYTES`](crate::MONITOR_BYTES) bytes.
///
/// The book is borrowed, or shared: `B` is `&Book` from [`Book::session`], or for example an `Arc<Book>` where a session has to own its book.
///
/// ```
/// # fn sheet() -> Vec<u8> {
/// #     let mut bytes = b"LOB\x01\0\x02\0\0\0\0\0\0\0\x01".to_vec();
/// #     bytes.extend([2, 1, 1, 0, 10, 0, 0, 0, 0, 1, 0, 2, 0, 3, 0, 0, 1, 1, 1, 0, 2, 0]);
/// #     bytes
/// # }
/// use guard::{Book, Session, Verdict};
/// use std::sync::Arc;
/// // rule T of document 01: two or three 0, then one or two 1 at most 10 ms after the last 0
/// let book = Arc::new(Book::open(&sheet())?);
/// let mut session = Session::under(Arc::clone(&book));
/// session.event(0, 0)?;
/// session.event(0, 1)?;
/// session.event(0, 2)?;
/// // what a timer calls, so that a deadline is noticed while no call is made
/// assert_eq!(session.clock(12)?, Verdict::Open { mask: 1 });
/// assert_eq!(session.clock(13)?, Verdict::Broken { at: 5, mask: 1 });
/// # Ok::<(), guard::Refusal>(())
/// ```
///
/// A borrowed book outlives its sessions:
///
/// ```compile_fail,E0597
/// let mut session = {
///     let book = guard::Book::open(&[])?;
///     book.session()
/// };
/// session.clock(0)?;
/// # Ok::<(), guard::Refusal>(())
/// ```
#[derive(Clone)]
pub struct Session<B: Borrow<Book>> {
    book: B,
    monitor: MonitorBytes,
}

impl<B: Borrow<Book>> Session<B> {
    /// A fresh session: nothing taken, latest time 0, verdict whole.
    pub fn under(book: B) -> Session<B> {
        let mut session = Session {
            book,
            monitor: [0; MONITOR_BYTES],
        };
        session.restart();
        session
    }

    /// Goes on from stored bytes, those of [`bytes`](Session::bytes) under an equal book, or a fresh session's under any. For any others the verdicts are free, and nothing else happens.
    pub fn resume(book: B, bytes: MonitorBytes) -> Session<B> {
        Session { book, monitor: bytes }
    }

    /// The bytes of the monitor, to be stored.
    pub fn bytes(&self) -> MonitorBytes {
        self.monitor
    }

    /// The same session from the start.
    pub fn restart(&mut self) {
        ffi::start(&mut self.monitor);
    }

    /// One call between host and plugin, at a time in milliseconds. After a break every observation gets the same answer, unchecked.
    ///
    /// # Errors
    /// Looked for in this order: 12 for a name of 64 or more, 11 for a time before the latest one, 13 after 4,294,967,295 observations. Nothing has changed then.
    pub fn event(&mut self, name: u32, time: u32) -> Result<Verdict, Refusal> {
        answer(ffi::event(&self.book.borrow().tables, &mut self.monitor, name, time), false)
    }

    /// A time alone: what a host's timer calls, so that a deadline is noticed while no call is made.
    ///
    /// # Errors
    /// Refusals 11 and 13, as for [`event`](Session::event).
    pub fn clock(&mut self, time: u32) -> Result<Verdict, Refusal> {
        answer(ffi::clock(&self.book.borrow().tables, &mut self.monitor, time), false)
    }

    /// The verdict on what was taken so far.
    ///
    /// # Errors
    /// [`Refusal::Unknown`], from a library that this package doesn't know, and nothing else: a monitor holds a verdict.
    pub fn verdict(&self) -> Result<Verdict, Refusal> {
        answer(ffi::verdict(&self.monitor), false)
    }

    /// How many observations were taken: all but the refused ones and those after a break.
    pub fn taken(&self) -> u32 {
        ffi::taken(&self.monitor)
    }

    /// The book of this session.
    pub fn book(&self) -> &Book {
        self.book.borrow()
    }
}

impl<B: Borrow<Book>> fmt::Debug for Session<B> {
    fn fmt(&self, f: &mut fmt::Formatter<'_>) -> fmt::Result {
        f.debug_struct("Session")
            .field("verdict", &self.verdict())
            .field("taken", &self.taken())
            .finish_non_exhaustive()
    }
}

#[cfg(test)]
mod tests {
    use super::*;

    #[test]
    fn an_answer_by_its_word() {
        assert_eq!(answer(2 | 5 << 16 | 9 << 32, false), Ok(Verdict::Broken { at: 9, mask: 5 }));
        assert_eq!(answer(3 | 4 << 8 | 13 << 32, true), Err(Refusal::Value { place: 13 }));
        assert_eq!(answer(3 | 11 << 8, false), Err(Refusal::TimeFalls { place: None }));
    }

    #[test]
    fn a_writers_word() {
        let (minus, written) = (|n: u64| n.wrapping_neg(), |word, length| counted(word, length, 16..=16));
        assert_eq!((written(0, 0), written(34, 34), written(34, 5774)), (Ok(0), Ok(34), Ok(34)));
        assert_eq!([0, 33, 5774].map(|length| written(minus(16), length)), [Err(Refusal::BufferShort); 3]);
        // what this library never says: more than the buffer has, or another refusal
        for (word, number) in [
            (35, 255),
            (1 << 63, 255),
            (minus(1), 1),
            (minus(15), 15),
            (minus(17), 17),
            (minus(256), 255),
        ] {
            assert_eq!(written(word, 34), Err(Refusal::unknown(number)));
        }
    }

    #[test]
    fn a_players_word() {
        let (minus, played) = (|n: u64| n.wrapping_neg(), |word, room| counted(word, room, 17..=18));
        assert_eq!((played(2, 2), played(2, 9)), (Ok(2), Ok(2)));
        assert_eq!([0, 2].map(|room| played(minus(17), room)), [Err(Refusal::RuleUnknown); 2]);
        assert_eq!([0, 2].map(|room| played(minus(18), room)), [Err(Refusal::RoundLong); 2]);
        // what this library never says: more records than there is room for, or another refusal
        for (word, number) in [(3, 255), (minus(16), 16), (minus(19), 19), (minus(256), 255)] {
            assert_eq!(played(word, 2), Err(Refusal::unknown(number)));
        }
    }

    /// "For each accepted sheet, writing its book gives the sheet's own bytes and version, and reading these gives the same book."
    #[test]
    fn a_written_book_opens_into_the_same_words() {
        let mut sheet = *b"LOB\x02\0\0\0\0\0\0\0\0\x80\x01\x01\x01\0\x02\0\0\0\0\x03\x01\0\x03\0\0\0";
        for v in [0, 3, 65535u16] {
            sheet[27..].copy_from_slice(&v.to_le_bytes());
            let book = Book::open(&sheet).unwrap();
            let mut buffer = [0xA5; 30];
            assert_eq!(book.write(&mut buffer), Ok(29));
            assert_eq!((&buffer[..29], buffer[29]), (&sheet[..], 0xA5));
            assert_eq!(Book::open(&buffer[..29]).unwrap().tables, book.tables);
        }
    }

    /// A library of another version may give any word: it is an answer, or an error that has its numbers.
    #[test]
    fn any_word_is_a_verdict_or_an_error() {
        for low in 0..=u16::MAX {
            for of_sheet in [false, true] {
                let [kind, number] = low.to_le_bytes();
                let place = of_sheet.then_some(9);
                match answer(u64::from(low) | 6 << 16 | 9 << 32, of_sheet) {
                    Ok(verdict) => assert!(kind < 3 && [0, 6].contains(&verdict.mask())),
                    Err(Refusal::Unknown { answer, number: n, place: p }) => {
                        assert!((answer, n, p) == (kind, number, place) && (kind > 3 || !(1..=18).contains(&n)))
                    }
                    Err(refusal) => assert!(kind == 3 && refusal.number() == number),
                }
            }
        }
    }
}
