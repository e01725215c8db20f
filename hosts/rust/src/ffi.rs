//! The library's calls, as safe functions. Each call is total: it needs valid pointers to memory that does not overlap, and nothing else, and it writes only what is lent to it
//! to be written. Rust's references give just that, and every bit pattern of the arrays is allowed.

/// How many bytes a monitor has: `GUARD_MONITOR_BYTES` in `include/guard.h`.
pub const MONITOR_BYTES: usize = 528;

/// A monitor's bytes, which are the guard's own: a host stores and copies them, and does not read them.
pub type MonitorBytes = [u8; MONITOR_BYTES];

/// How many words a book has: `GUARD_BOOK_WORDS` there.
pub(crate) const BOOK_WORDS: usize = 1106;

/// No accepted sheet is longer: `GUARD_SHEET_BYTES` there. A buffer of this length is enough for [`Book::write`](crate::Book::write).
pub const SHEET_BYTES: usize = 5774;

/// How many bytes a log's record has: `GUARD_RECORD_BYTES` there. A name 0 to 63, or FF for a clock reading; then the time, little-endian.
pub const RECORD_BYTES: usize = 5;

/// A book's words, as `guard_book` in `include/guard.h` has them.
pub(crate) type Tables = [u64; BOOK_WORDS];

extern "C" {
    fn guard_library_version() -> u32;
    fn guard_sheet_version() -> u32;
    fn guard4_run(sheet: *const u8, sheet_length: usize, log: *const u8, log_length: usize, budget: u32, out: *mut u8, out_length: usize) -> u32;
    fn guard4_open(sheet: *const u8, sheet_length: usize, book: *mut u64, monitor: *mut u8) -> u64;
    fn guard4_start(monitor: *mut u8);
    fn guard4_event(book: *const u64, monitor: *mut u8, name: u32, time: u32) -> u64;
    fn guard4_clock(book: *const u64, monitor: *mut u8, time: u32) -> u64;
    fn guard4_verdict(monitor: *const u8) -> u64;
    fn guard4_taken(monitor: *const u8) -> u32;
    fn guard4_write(book: *const u64, buffer: *mut u8, length: usize) -> u64;
    fn guard4_play(book: *const u64, rule: u32, time: u32, choice: *const u8, choice_length: usize, out: *mut u8, out_length: usize) -> u64;
}

/// The version of the library that is linked. This package is of [`LIBRARY_VERSION`](crate::LIBRARY_VERSION).
pub fn library_version() -> u32 {
    // SAFETY: the call takes nothing.
    unsafe { guard_library_version() }
}

/// The newest version of a sheet that the library reads; each older one is read too.
pub fn sheet_version() -> u32 {
    // SAFETY: the call takes nothing.
    unsafe { guard_sheet_version() }
}

/// The call over a log: 15 and `out` as it was if that has under 12 bytes, else 0 and the twelve bytes.
pub(crate) fn call(sheet: &[u8], log: &[u8], budget: u32, out: &mut [u8]) -> u32 {
    // SAFETY: each pointer comes with its slice's length, and `out`, borrowed mutably, overlaps neither of the others.
    unsafe { guard4_run(sheet.as_ptr(), sheet.len(), log.as_ptr(), log.len(), budget, out.as_mut_ptr(), out.len()) }
}

/// Reads a sheet into a book's words and makes a fresh monitor; a refused sheet changes neither.
pub(crate) fn open(sheet: &[u8], tables: &mut Tables, monitor: &mut MonitorBytes) -> u64 {
    // SAFETY: the sheet's pointer comes with its length; both arrays have the lengths that the call wants, by their types; all are distinct, since those are borrowed mutably.
    unsafe { guard4_open(sheet.as_ptr(), sheet.len(), tables.as_mut_ptr(), monitor.as_mut_ptr()) }
}

/// Makes a fresh monitor, the same for every book.
pub(crate) fn start(monitor: &mut MonitorBytes) {
    // SAFETY: the monitor has the length that the call wants, by its type, and is borrowed mutably.
    unsafe { guard4_start(monitor.as_mut_ptr()) }
}

/// One event. Every name of 64 or more is refused, 255 too.
pub(crate) fn event(tables: &Tables, monitor: &mut MonitorBytes, name: u32, time: u32) -> u64 {
    // SAFETY: both arrays have the lengths that the call wants, by their types; it only reads the book, and the monitor, borrowed mutably, is apart from it.
    unsafe { guard4_event(tables.as_ptr(), monitor.as_mut_ptr(), name, time) }
}

/// One clock reading.
pub(crate) fn clock(tables: &Tables, monitor: &mut MonitorBytes, time: u32) -> u64 {
    // SAFETY: as for `event`.
    unsafe { guard4_clock(tables.as_ptr(), monitor.as_mut_ptr(), time) }
}

/// The verdict that a monitor holds.
pub(crate) fn verdict(monitor: &MonitorBytes) -> u64 {
    // SAFETY: the monitor has the length that the call wants, by its type, and is only read.
    unsafe { guard4_verdict(monitor.as_ptr()) }
}

/// The number of observations that a monitor has taken.
pub(crate) fn taken(monitor: &MonitorBytes) -> u32 {
    // SAFETY: as for `verdict`.
    unsafe { guard4_taken(monitor.as_ptr()) }
}

/// Writes the sheet of a book: the number of bytes, or minus 16 in 64 bits and `buffer` as it was.
pub(crate) fn write(tables: &Tables, buffer: &mut [u8]) -> u64 {
    // SAFETY: the book has the length that the call wants, by its type, and is only read; the buffer's pointer comes with its length, and it is apart, being borrowed mutably.
    unsafe { guard4_write(tables.as_ptr(), buffer.as_mut_ptr(), buffer.len()) }
}

/// Plays a round of a rule: the number of records, or minus 17 or 18 in 64 bits and `out` as it was.
pub(crate) fn play(tables: &Tables, rule: u32, time: u32, choice: &[u8], out: &mut [u8]) -> u64 {
    // SAFETY: the book has the length that the call wants, by its type; it and the choice, whose pointer comes with its length, are only read; so does the output's, and it is apart from
    // both, being borrowed mutably.
    unsafe { guard4_play(tables.as_ptr(), rule, time, choice.as_ptr(), choice.len(), out.as_mut_ptr(), out.len()) }
}

#[cfg(test)]
mod tests {
    use super::*;
    use std::vec;

    /// A number that `include/guard.h` defines.
    fn defined(name: &str) -> Option<usize> {
        let mut lines = include_str!("../../../include/guard.h").lines();
        lines.find_map(|line| {
            let value = line.strip_prefix("#define ")?.strip_prefix(name)?;
            value.split_whitespace().next()?.parse().ok()
        })
    }

    #[test]
    fn the_lengths_of_the_header() {
        assert_eq!(defined("GUARD_BOOK_WORDS"), Some(BOOK_WORDS));
        assert_eq!(defined("GUARD_MONITOR_BYTES"), Some(MONITOR_BYTES));
        assert_eq!(defined("GUARD_SHEET_BYTES"), Some(SHEET_BYTES));
        assert_eq!(defined("GUARD_RECORD_BYTES"), Some(RECORD_BYTES));
    }

    /// "15 output under 12 bytes: it is unchanged and the call returns 15"; "Later bytes don't change."
    #[test]
    fn outputs_of_every_length() {
        for length in 0..80 {
            let mut out = vec![0xA5; length];
            let returned = call(&[], &[], 7, &mut out);
            if length < 12 {
                assert_eq!(returned, 15);
                assert!(out.iter().all(|&b| b == 0xA5));
            } else {
                assert_eq!(returned, 0);
                assert_eq!(out[..12], [3, 1, 0, 0, 0, 0, 0, 0, 0, 0, 0, 0]);
                assert!(out[12..].iter().all(|&b| b == 0xA5));
            }
        }
    }

    /// "For a book that no sheet gives, the result of this and of later calls on it is free": the calls return, and what they write is inside the buffer and the output.
    #[test]
    fn words_of_no_book() {
        let mut state = 1u64;
        let mut random = || {
            state = state.wrapping_mul(6364136223846793005).wrapping_add(1442695040888963407);
            state ^ state >> 29
        };
        for round in 0..3000 {
            let word = match round % 4 {
                0 => 0,
                1 => u64::MAX,
                _ => 0x0101_0101_0101_0101,
            };
            let tables: Tables = std::array::from_fn(|_| if round % 3 == 0 { word } else { random() });
            let mut memory = vec![0x5A; 16384];
            let length = random() as usize % 12000;
            let written = write(&tables, &mut memory[100..100 + length]);
            let end = if written == 16u64.wrapping_neg() {
                0
            } else {
                usize::try_from(written).unwrap()
            };
            assert!(end <= length && end <= 10894, "{end} of {length}");
            assert!(memory[..100].iter().chain(&memory[100 + end..]).all(|&b| b == 0x5A));
            memory.fill(0x5A);
            let choice = random().to_le_bytes();
            let played = play(&tables, random() as u32 % 18, 0, &choice, &mut memory[100..100 + length]);
            let end = if [17, 18].map(u64::wrapping_neg).contains(&played) {
                0
            } else {
                RECORD_BYTES * usize::try_from(played).unwrap()
            };
            assert!(end <= length, "{end} of {length}");
            assert!(memory[..100].iter().chain(&memory[100 + end..]).all(|&b| b == 0x5A));
        }
    }

    #[test]
    fn a_refused_sheet_changes_nothing() {
        let old: Tables = std::array::from_fn(|i| 0x9E37_79B9_7F4A_7C15_u64.wrapping_mul(i as u64 + 1));
        let mut tables = old;
        let before: MonitorBytes = std::array::from_fn(|i| (i * 37 + 11) as u8);
        let mut monitor = before;
        assert_eq!(open(b"LOC\x01\0", &mut tables, &mut monitor), 3 | 2 << 8, "refused, 2, at 0");
        assert_eq!(monitor, before);
        assert_eq!(tables, old);
    }
}
