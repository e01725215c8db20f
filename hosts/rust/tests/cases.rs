//! The cases that tests/host/cases.py takes from the reference: each log by the call, each list of observations by a session, each book written back, each of its rules played. The script says how
//! its file is laid out.

mod common;

use common::with_taken;
use guard::{run, Book, Refusal, Session, Verdict, RECORD_BYTES};
use std::path::{Path, PathBuf};
use std::process::Command;

/// The file's bytes: that of GUARD_CASES, or one written now.
fn file() -> Vec<u8> {
    if let Some(path) = std::env::var_os("GUARD_CASES") {
        return std::fs::read(path).expect("GUARD_CASES names a file that cases.py has written");
    }
    let script = Path::new(env!("CARGO_MANIFEST_DIR")).join("../../tests/host/cases.py");
    let path: PathBuf = std::env::temp_dir().join(format!("guard-cases-{}", std::process::id()));
    let status = Command::new("python3").arg(&script).arg(&path).status().expect("python3 runs cases.py");
    assert!(status.success(), "{} failed", script.display());
    let bytes = std::fs::read(&path).unwrap();
    std::fs::remove_file(&path).unwrap();
    bytes
}

struct Bytes<'a>(&'a [u8]);

impl<'a> Bytes<'a> {
    fn take(&mut self, n: usize) -> &'a [u8] {
        let (taken, rest) = self.0.split_at(n);
        self.0 = rest;
        taken
    }

    fn one(&mut self) -> u8 {
        self.take(1)[0]
    }

    fn two(&mut self) -> u16 {
        u16::from_le_bytes(self.take(2).try_into().unwrap())
    }

    fn four(&mut self) -> u32 {
        u32::from_le_bytes(self.take(4).try_into().unwrap())
    }

    fn slice(&mut self) -> &'a [u8] {
        let length = self.two();
        self.take(length.into())
    }

    fn answer(&mut self) -> [u32; 4] {
        [self.one().into(), self.one().into(), self.two().into(), self.four()]
    }
}

/// The four numbers of an answer: answer, refusal, mask, place.
fn numbers(answer: Result<Verdict, Refusal>) -> [u32; 4] {
    match answer {
        Ok(Verdict::Whole) => [0, 0, 0, 0],
        Ok(Verdict::Open { mask }) => [1, 0, mask.into(), 0],
        Ok(Verdict::Broken { at, mask }) => [2, 0, mask.into(), at],
        Err(refusal) => [3, refusal.number().into(), 0, refusal.place().unwrap_or(0)],
    }
}

/// A session that has taken so many before.
fn late(book: &Book, before: u32) -> Session<&Book> {
    Session::resume(book, with_taken(book.session().bytes(), before))
}

/// Plays the list and answers how many observations it had.
fn hold_session(number: u32, book: &Book, before: u32, bytes: &mut Bytes) -> u32 {
    let mut session = if before == 0 { book.session() } else { late(book, before) };
    let count = bytes.two();
    for i in 0..count {
        let (clock, name, time, due) = (bytes.one(), bytes.four(), bytes.four(), bytes.answer());
        let before = session.bytes();
        let answer = if clock == 1 { session.clock(time) } else { session.event(name, time) };
        assert_eq!(numbers(answer), due, "case {number}, observation {i}");
        assert!(
            answer.is_ok() || session.bytes() == before,
            "case {number}: a refusal changed the monitor"
        );
    }
    assert_eq!(numbers(session.verdict()), bytes.answer(), "case {number}, verdict");
    assert_eq!(session.taken(), bytes.four(), "case {number}, taken");
    count.into()
}

/// The book's sheet into a buffer that it fills, into one that is longer, and into one that is a byte too short; and what was written is opened and written again.
fn hold_written(number: u32, book: &Book, sheet: &[u8]) {
    let mut buffer = vec![0xA5; sheet.len() + 3];
    assert_eq!(book.write(&mut buffer[..sheet.len() - 1]), Err(Refusal::BufferShort), "case {number}");
    assert!(buffer.iter().all(|&b| b == 0xA5), "case {number}: a refusal wrote");
    for length in [sheet.len(), sheet.len() + 3] {
        assert_eq!(book.write(&mut buffer[..length]), Ok(sheet.len()), "case {number}");
        assert_eq!(buffer[..sheet.len()], *sheet, "case {number}");
        assert_eq!(buffer[sheet.len()..], [0xA5; 3], "case {number}");
    }
    let again = Book::open(&buffer[..sheet.len()]).unwrap();
    buffer.fill(0);
    assert_eq!(
        (again.write(&mut buffer), &buffer[..sheet.len()]),
        (Ok(sheet.len()), sheet),
        "case {number}"
    );
}

/// A round of each rule of the sheet, and 17 for the next number: the round leaves the rule whole, unless another breaks before. Answers how many rounds did.
fn hold_played(number: u32, book: &Book, rules: u8) -> u32 {
    let mut whole = 0;
    for rule in 0..u32::from(rules) {
        let choice: Vec<u8> = (0..number % 13).map(|i| (number.wrapping_mul(i + 7) >> 3) as u8).collect();
        let mut log = [0; 100 * RECORD_BYTES];
        let records = match book.play(rule, number, &choice, &mut log) {
            Ok(records) => records,
            refused => {
                assert_eq!(
                    (refused, log),
                    (Err(Refusal::RoundLong), [0; 100 * RECORD_BYTES]),
                    "case {number}, rule {rule}"
                );
                continue;
            }
        };
        let mut session = book.session();
        for record in log.chunks_exact(RECORD_BYTES).take(records) {
            assert_eq!(record[1..], number.to_le_bytes(), "case {number}, rule {rule}");
            session.event(record[0].into(), number).unwrap();
        }
        let verdict = session.verdict().unwrap();
        assert!(verdict.mask() >> rule & 1 == 0, "case {number}, rule {rule}: {verdict}");
        whole += u32::from(!verdict.is_broken());
    }
    assert_eq!(book.play(rules.into(), number, &[], &mut []), Err(Refusal::RuleUnknown), "case {number}");
    whole
}

#[test]
fn agree_with_the_reference() {
    let file = file();
    let mut bytes = Bytes(&file);
    let (cases, mut opened, mut observations, mut rounds) = (bytes.four(), 0, 0, 0);
    for number in 0..cases {
        let before = bytes.four();
        let (sheet, log, budget) = (bytes.slice(), bytes.slice(), bytes.four());
        let due = [bytes.one().into(), bytes.one().into(), bytes.two().into(), bytes.four(), bytes.four()];
        assert_eq!(run(sheet, log, budget).numbers(), due, "case {number}");
        let due = bytes.answer();
        match Book::open(sheet) {
            Ok(book) => {
                assert_eq!(due, [0; 4], "case {number}");
                opened += 1;
                hold_written(number, &book, sheet);
                rounds += hold_played(number, &book, sheet[13]);
                observations += hold_session(number, &book, before, &mut bytes);
            }
            Err(refusal) => {
                assert_eq!(numbers(Err(refusal)), due, "case {number}");
                bytes.take(2 + 8 + 4); // no list
            }
        }
    }
    assert!(bytes.0.is_empty());
    assert!(cases >= 10_000 && opened >= 5_000 && observations >= 50_000 && rounds >= 5_000);
}
