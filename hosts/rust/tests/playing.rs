//! Change 5, "Stub that plays the plugin": the examples of docs/PLAYING.md, the two refusals, and rounds of many choices. What is due is written out by hand.

mod common;

use common::{A, E, F, G, H, N, O, R, S, T, W};
use guard::{Book, Refusal, Session, Verdict, RECORD_BYTES};

/// Names: a, b and c are 0, 1 and 2, and i, the trigger, is 8; c is an output. The head of one rule and its fragments follow.
fn sheet(rule: &[u8]) -> Vec<u8> {
    [&[0x4C, 0x4F, 0x42, 2, 0, 4, 0, 0, 0, 0, 0, 0, 0, 1], rule].concat()
}

/// P = all(a[1,1] b[1,2]), trigger i.
fn in_a_row() -> Vec<u8> {
    sheet(&[1, 1, 0, 8, 0, 0, 0, 0, 0, 2, 0, 1, 0, 1, 0, 1, 1, 0, 2, 0])
}

/// P = any(a[1,1] b[2,2]), Q = all(c[1,3]), t = 0.
fn some() -> Vec<u8> {
    sheet(&[2, 1, 1, 0, 0, 0, 0, 0, 1, 2, 0, 1, 0, 1, 0, 1, 2, 0, 2, 0, 0, 1, 2, 1, 0, 3, 0])
}

/// P = all, shuffled (a[1,2] b[1,1]), trigger i.
fn shuffled() -> Vec<u8> {
    sheet(&[1, 1, 0, 8, 0, 0, 0, 0, 2, 2, 0, 1, 0, 2, 0, 1, 1, 0, 1, 0])
}

/// P = all(a[2,]), trigger i.
fn endless() -> Vec<u8> {
    sheet(&[1, 1, 0, 8, 0, 0, 0, 0, 0, 1, 0, 2, 0, 0, 0])
}

/// The names of the round of rule 0 at a time, each record's time held to it.
fn names(book: &Book, time: u32, choice: &[u8]) -> Vec<u8> {
    let mut out = vec![0xA5; 5000];
    let count = book.play(0, time, choice, &mut out).unwrap();
    let (round, rest) = out.split_at(RECORD_BYTES * count);
    assert!(rest.iter().all(|&b| b == 0xA5));
    let records = round.chunks_exact(RECORD_BYTES);
    records
        .map(|record| {
            assert_eq!(record[1..], time.to_le_bytes());
            record[0]
        })
        .collect()
}

#[test]
fn the_examples_of_the_page() {
    let letters = |text: &str| text.split(' ').map(|c| "abc-----i".find(c).unwrap() as u8).collect::<Vec<_>>();
    let table: [(Vec<u8>, &[(&[u8], &str)]); 4] = [
        (
            in_a_row(),
            &[
                (&[], "a b i"),
                (&[2], "b a i"),
                (&[2, 2], "b b a i"),
                (&[2, 2, 2], "b b a i"),
                (&[1, 0, 0, 1], "a b i"),
                (&[5], "b a i"),
            ],
        ),
        (
            some(),
            &[(&[], "a c"), (&[2], "b b c"), (&[2, 2, 1], "b b a c"), (&[1, 0, 1, 1, 1], "a c c c")],
        ),
        (shuffled(), &[(&[1, 2, 1], "a b a i"), (&[1, 2], "a b i")]),
        (endless(), &[(&[], "a a i")]),
    ];
    for (sheet, rows) in table {
        let book = Book::open(&sheet).unwrap();
        for (choice, due) in rows {
            for time in [0, 7, u32::MAX] {
                assert_eq!(names(&book, time, choice), letters(due), "{choice:?}");
            }
        }
    }
    let many = names(&Book::open(&endless()).unwrap(), 0, &[1; 300]);
    assert_eq!((many.len(), &many[..300], many[300]), (301, &[0; 300][..], 8));
}

/// "17, no such rule; 18, the chosen round is longer than the output; 17 is looked at first, and neither writes anything"; "later bytes don't change".
#[test]
fn refusals_and_room() {
    let book = Book::open(&in_a_row()).unwrap();
    let mut out = [0xA5; 24];
    for rule in [1, 2, 15, 16, 17, 256, 65536, u32::MAX] {
        for length in [0, 4, 24] {
            assert_eq!(book.play(rule, 7, &[2, 2], &mut out[..length]), Err(Refusal::RuleUnknown));
        }
    }
    for length in 0..20 {
        assert_eq!(book.play(0, 7, &[2, 2], &mut out[..length]), Err(Refusal::RoundLong), "{length}");
    }
    assert_eq!(out, [0xA5; 24]);
    for length in 20..=24 {
        assert_eq!(book.play(0, 7, &[2, 2], &mut out[..length]), Ok(4), "{length}");
        assert_eq!(
            (&out[..5], &out[15..20], &out[20..]),
            (&[1, 7, 0, 0, 0][..], &[8, 7, 0, 0, 0][..], &[0xA5; 4][..])
        );
        out.fill(0xA5);
    }
}

/// "Every choice gives a round that matches": of these sheets, which have one rule each, every round is whole, and whole again after itself.
#[test]
fn every_choice_is_whole() {
    let sheets: [&[u8]; 11] = [&T, &R, &N, &S, &A, &O, &W, &E, &F, &G, &H];
    let mut state = 1u64;
    for sheet in sheets {
        let book = Book::open(sheet).unwrap();
        let mut session = Session::under(&book);
        for time in 0..200 {
            let choice: Vec<u8> = (0..time % 20)
                .map(|_| {
                    state = state.wrapping_mul(6364136223846793005).wrapping_add(1442695040888963407);
                    (state >> 56) as u8
                })
                .collect();
            for name in names(&book, time, &choice) {
                session.event(name.into(), time).unwrap();
            }
            assert_eq!(session.verdict(), Ok(Verdict::Whole), "{choice:?}");
        }
    }
}
