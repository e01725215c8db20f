//! Sessions: several under one book, restarts, stored bytes, refusals that leave everything, the count's end, a stopped book, a range without an upper end, threads.

mod common;

use common::{with_taken, E, N, O, R, T};
use guard::{Book, Refusal, Session, Verdict, MONITOR_BYTES};
use std::sync::Arc;

const OPEN: Result<Verdict, Refusal> = Ok(Verdict::Open { mask: 1 });

fn refused_name() -> Result<Verdict, Refusal> {
    Err(Refusal::NameUnknown { place: None })
}

fn refused_time() -> Result<Verdict, Refusal> {
    Err(Refusal::TimeFalls { place: None })
}

#[test]
fn two_sessions_under_one_book() {
    let book = Book::open(&T).unwrap();
    let (mut one, mut two) = (book.session(), book.session());
    assert_eq!(one.event(0, 0), OPEN);
    assert_eq!((two.verdict(), two.taken()), (Ok(Verdict::Whole), 0));
    assert_eq!(one.event(0, 5), OPEN);
    assert_eq!(two.event(1, 3), Ok(Verdict::Broken { at: 1, mask: 1 }));
    assert_eq!(one.event(1, 15), Ok(Verdict::Whole));
    assert_eq!((one.taken(), two.taken()), (3, 1));
}

#[test]
fn a_restart_is_a_fresh_session() {
    let book = Book::open(&T).unwrap();
    let fresh = book.session().bytes();
    let mut session = book.session();
    assert_eq!(session.event(1, 7), Ok(Verdict::Broken { at: 1, mask: 1 }));
    session.restart();
    assert_eq!((session.bytes(), session.taken(), session.verdict()), (fresh, 0, Ok(Verdict::Whole)));
    assert_eq!(session.event(0, 0), OPEN);
}

#[test]
fn a_session_goes_on_from_stored_bytes() {
    let book = Book::open(&T).unwrap();
    let mut session = book.session();
    session.event(0, 0).unwrap();
    session.event(0, 5).unwrap();
    let bytes = session.bytes();
    let mut copy = session.clone();
    let again = Book::open(&T).unwrap();
    let mut resumed = Session::resume(&again, bytes);
    assert_eq!(resumed.taken(), 2);
    assert_eq!(resumed.event(1, 16), Ok(Verdict::Broken { at: 3, mask: 1 }));
    assert_eq!(copy.event(1, 15), Ok(Verdict::Whole));
}

/// "12 (a name of 64 or more), 11 (a time before the latest)": in this order, and nothing changes.
#[test]
fn a_refused_observation_changes_nothing() {
    let book = Book::open(&R).unwrap();
    let mut session = book.session();
    assert_eq!(session.event(1, 5), OPEN);
    let bytes = session.bytes();
    for name in [64, 127, 128, 254, 255, 256, 257, 319, 65536, 1 << 31, u32::MAX] {
        assert_eq!((session.event(name, 4), session.event(name, 6)), (refused_name(), refused_name()));
    }
    for time in 0..5 {
        assert_eq!((session.event(0, time), session.clock(time)), (refused_time(), refused_time()));
    }
    assert_eq!((session.bytes(), session.taken(), session.verdict()), (bytes, 1, OPEN));
    assert_eq!(session.event(0, 5), OPEN);
    assert_eq!(session.event(2, 5), Ok(Verdict::Whole));
}

/// "13, 4,294,967,295 already taken".
#[test]
fn the_count_ends() {
    let book = Book::open(&T).unwrap();
    let mut session = book.session();
    session.event(0, 7).unwrap();
    let mut session = Session::resume(&book, with_taken(session.bytes(), u32::MAX - 1));
    assert_eq!(session.taken(), u32::MAX - 1);
    assert_eq!(session.event(0, 8), OPEN);
    assert_eq!(session.taken(), u32::MAX);
    let bytes = session.bytes();
    assert_eq!(
        (session.event(0, 8), session.clock(9)),
        (Err(Refusal::CountFull), Err(Refusal::CountFull))
    );
    assert_eq!((session.event(64, 0), session.event(0, 7)), (refused_name(), refused_time()));
    assert_eq!((session.bytes(), session.verdict()), (bytes, OPEN));
}

/// "A stopped book gives that same answer to every later observation, unchecked."
#[test]
fn a_stopped_book_answers_the_same() {
    let book = Book::open(&N).unwrap();
    let mut session = book.session();
    let broken = Ok(Verdict::Broken { at: 1, mask: 1 });
    assert_eq!(session.event(2, 50), broken);
    let bytes = session.bytes();
    assert_eq!(
        (session.event(64, 50), session.event(0, 49), session.clock(0), session.event(0, 60)),
        (broken, broken, broken, broken)
    );
    assert_eq!((session.bytes(), session.taken()), (bytes, 1));
    assert_eq!(session.verdict(), broken);
}

#[test]
fn refused_sheets() {
    let refusal = |sheet: &[u8]| Book::open(sheet).unwrap_err();
    let with = |at: usize, byte: u8| {
        let mut sheet = R;
        sheet[at] = byte;
        refusal(&sheet)
    };
    assert_eq!(refusal(&R[..33]), Refusal::Truncated { place: 32 });
    assert_eq!(with(1, 0), Refusal::Mark { place: 0 });
    assert_eq!(with(4, 1), Refusal::Version { place: 3 });
    assert_eq!(with(13, 17), Refusal::Value { place: 13 });
    assert_eq!(with(16, 9), Refusal::NotZero { place: 16 });
    assert_eq!(with(17, 70), Refusal::Name { place: 17 });
    assert_eq!(with(25, 0), Refusal::Bounds { place: 25 });
    assert_eq!(with(29, 0), Refusal::NameTwice { place: 29 });
    assert_eq!(with(5, 4), Refusal::Direction { place: 17 });
    assert_eq!(refusal(&[&R[..], &[0]].concat()), Refusal::LeftOver { place: 34 });
    // "Version 2 sheets add join 2 (all, shuffled) and 3 (any, shuffled)"; "refusal 3 is for versions other than 1 and 2"
    assert_eq!((with(3, 0), with(3, 3)), (Refusal::Version { place: 3 }, Refusal::Version { place: 3 }));
    assert_eq!((with(22, 2), with(22, 3)), (Refusal::Value { place: 22 }, Refusal::Value { place: 22 }));
    let opens = |version: u8, join: u8| {
        let mut sheet = O;
        (sheet[3], sheet[22]) = (version, join);
        Book::open(&sheet).map(|_| ())
    };
    for join in 0..=255 {
        let refused = Err(Refusal::Value { place: 22 });
        assert_eq!(opens(1, join), if join < 2 { Ok(()) } else { refused });
        assert_eq!(opens(2, join), if join < 4 { Ok(()) } else { refused });
    }
    // "at field v refusal 7 is not given for v = 0; u = 0 still meets it"
    let bounded = |version: u8, u: u8, v: u8| {
        let mut sheet = E;
        (sheet[3], sheet[25], sheet[27]) = (version, u, v);
        Book::open(&sheet).map(|_| ())
    };
    let (at_u, at_v) = (Err(Refusal::Bounds { place: 25 }), Err(Refusal::Bounds { place: 27 }));
    for version in 1..=2 {
        assert_eq!((bounded(version, 0, 0), bounded(version, 0, 1)), (at_u, at_u));
        assert_eq!((bounded(version, 2, 1), bounded(version, 2, 2)), (at_v, Ok(())));
    }
    assert_eq!((bounded(1, 2, 0), bounded(2, 2, 0)), (at_v, Ok(())));
}

/// "At a range name the order becomes 1, 6, 9, 8", for opening and for a run alike. D: kind 2, P = {0, 3} all, Q = 1 then 2, t = 10; 1, 2 and 3 are outputs. P's names are at 24 and 29,
/// Q's at 36 and 43.
#[test]
fn the_order_at_a_name() {
    const D: [u8; 48] = [
        0x4C, 0x4F, 0x42, 1, 0, 14, 0, 0, 0, 0, 0, 0, 0, 1, 2, 1, 2, 0, 10, 0, 0, 0, 0, 2, 0, 1, 0, 1, 0, 3, 1, 0, 1, 0, 0, 1, 1, 1, 0, 1, 0, 0, 1,
        2, 1, 0, 1, 0,
    ];
    let with = |at: usize, name: u8| {
        let mut sheet = D;
        sheet[at] = name;
        let opened = Book::open(&sheet).map(|_| Verdict::Whole);
        assert_eq!(guard::run(&sheet, &[], u32::MAX).answer, opened);
        opened
    };
    let twice = |place| Err(Refusal::NameTwice { place });
    let wrong_way = |place| Err(Refusal::Direction { place });
    assert_eq!(with(43, 2), Ok(Verdict::Whole));
    assert_eq!(with(43, 64), Err(Refusal::Name { place: 43 }));
    // in Q an input of P, and one that the rule has not
    assert_eq!((with(36, 0), with(43, 0), with(43, 4)), (wrong_way(36), wrong_way(43), wrong_way(43)));
    // in Q an output twice, and an output of P; in P an input twice
    assert_eq!((with(43, 1), with(43, 3), with(29, 0)), (twice(43), twice(43), twice(29)));
}

/// "v = 0 means that u or more occurrences are allowed": more than sixteen bits count, on a range that one fewer than u would break; and the deadline is held off meanwhile.
#[test]
fn a_range_without_an_upper_end() {
    let book = Book::open(&E).unwrap();
    let mut session = book.session();
    for _ in 0..65_537 {
        assert_eq!(session.event(0, 0), OPEN);
    }
    assert_eq!((session.clock(99), session.event(0, 100), session.taken()), (OPEN, OPEN, 65_539));
    assert_eq!((session.event(9, 110), session.event(9, 110)), (Ok(Verdict::Whole), Ok(Verdict::Whole)));
    assert_eq!(session.event(9, 110), Ok(Verdict::Broken { at: 65_542, mask: 1 }));
    session.restart();
    session.event(0, 0).unwrap();
    assert_eq!(session.event(9, 0), Ok(Verdict::Broken { at: 2, mask: 1 }));
}

/// A session that owns its book, moved to another thread, and many threads under one book.
#[test]
fn threads() {
    let book = Arc::new(Book::open(&T).unwrap());
    let threads: Vec<_> = (0..8)
        .map(|late| {
            let mut session = Session::under(Arc::clone(&book));
            std::thread::spawn(move || {
                session.event(0, 0)?;
                session.event(0, 5)?;
                session.event(1, 12 + late)
            })
        })
        .collect();
    for (late, thread) in threads.into_iter().enumerate() {
        let verdict = if late <= 3 { Verdict::Whole } else { Verdict::Broken { at: 3, mask: 1 } };
        assert_eq!(thread.join().unwrap(), Ok(verdict));
    }
}

/// Nothing is kept from call to call but in a book and a monitor: books opened in many threads at once are each their own.
#[test]
fn books_opened_at_once() {
    let open_many = |odd: usize| {
        for i in 0..1000 {
            let (sheet, name, due): (&[u8], _, _) = if i % 2 == odd {
                (&T, 0, OPEN)
            } else {
                (&N, 2, Ok(Verdict::Broken { at: 1, mask: 1 }))
            };
            assert_eq!(Book::open(sheet).unwrap().session().event(name, 3), due);
        }
    };
    std::thread::scope(|scope| {
        for thread in 0..4 {
            scope.spawn(move || open_many(thread % 2));
        }
    });
}

/// "For a table or monitor that these calls didn't make, or a monitor opened for another book, the verdict is free; the call still returns".
#[test]
fn bytes_of_no_session() {
    let book = Book::open(&R).unwrap();
    let mut state = 1u64;
    for round in 0..2000u32 {
        let mut bytes = Book::open(&T).unwrap().session().bytes();
        for byte in bytes.iter_mut().skip(round as usize % MONITOR_BYTES) {
            state = state.wrapping_mul(6364136223846793005).wrapping_add(1442695040888963407);
            *byte = (state >> 56) as u8;
        }
        let mut session = Session::resume(&book, bytes);
        let _ = (session.verdict(), session.taken());
        for time in [0, 5, u32::MAX] {
            let _ = (session.event(round % 70, time), session.clock(time));
        }
        session.restart();
        assert_eq!(session.bytes(), book.session().bytes());
    }
}

#[test]
fn versions() {
    assert_eq!(guard::library_version(), guard::LIBRARY_VERSION);
    assert_eq!(guard::sheet_version(), 2);
}
