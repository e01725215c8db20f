//! Document 01, "Traces to settle arguments", its printed case, and the traces of changes 1 and 2: by log, live, and the log with each budget held to the session. What is due is written out by hand.

mod common;

use common::{A, E, F, G, H, N, O, R, S, T, W};
use guard::{run, Book, Refusal, Verdict};

/// Sheet; observations ("0@5" is name 0 at time 5, "c@5" a clock reading); each answer (w whole, o open, b broken with its k, r refused with its
/// number; the mask is 1); the five numbers.
const TRACES: [(&[u8], &str, &str, &str); 50] = [
    (&T, "", "", "0 0 0 0 0"),
    (&T, "0@0 0@5 1@15", "o o w", "0 0 0 3 0"),
    (&T, "0@0 0@5 1@16", "o o b3", "2 0 1 3 3"),
    (&T, "0@0 0@5 c@100", "o o o", "1 0 1 3 0"),
    (&T, "0@0 0@1 0@2 c@12", "o o o o", "1 0 1 4 0"),
    (&T, "0@0 0@1 0@2 c@13", "o o o b4", "2 0 1 4 4"),
    (&T, "0@0 0@5 1@15 c@99", "o o w w", "0 0 0 4 0"),
    (&T, "0@0 0@5 1@15 c@99 1@99", "o o w w b5", "2 0 1 5 5"),
    (&T, "0@0 1@0", "o b2", "2 0 1 2 2"),
    (&T, "0@0 0@0 0@0 0@0", "o o o b4", "2 0 1 4 4"),
    (&T, "0@7 1@6", "o r11", "3 11 1 1 5"),
    (&R, "1@0 0@0 2@0", "o o w", "0 0 0 3 0"),
    (&R, "0@0 1@0 0@0", "o o b3", "2 0 1 3 3"),
    (&N, "0@0 2@0 2@0 1@0", "o w w w", "0 0 0 4 0"),
    (&N, "2@0", "b1", "2 0 1 1 1"),
    (&R, "1@5 0@5 2@9 2@10", "o o w b4", "2 0 1 4 4"),
    (&S, "0@0 1@0 0@0 9@10", "o o o w", "0 0 0 4 0"),
    (&S, "0@0 1@0 1@0", "o o b3", "2 0 1 3 3"),
    (&S, "0@0 0@0 9@0", "o o b3", "2 0 1 3 3"),
    (&S, "0@0 1@0 c@99", "o o o", "1 0 1 3 0"),
    (&S, "0@0 1@0 0@0 c@99", "o o o b4", "2 0 1 4 4"),
    (&A, "3@0 0@50 1@60 c@70", "o o o o", "1 0 1 4 0"),
    (&A, "3@0 1@50 c@999 1@999", "o o o o", "1 0 1 4 0"),
    (&O, "0@0 1@0 1@0", "o o o", "1 0 1 3 0"),
    (&O, "0@0 1@0 2@0", "o o b3", "2 0 1 3 3"),
    (&O, "0@0 1@0 0@0 2@0", "o o o w", "0 0 0 4 0"),
    (&O, "1@0 2@0", "o w", "0 0 0 2 0"),
    (&O, "2@0", "b1", "2 0 1 1 1"),
    (&O, "1@0 0@0 1@0 1@0", "o o o b4", "2 0 1 4 4"),
    (&O, "1@0 1@0 2@0 1@0 1@0 2@0", "o o w o o w", "0 0 0 6 0"),
    (&W, "0@0 1@0 0@0 1@0 4@0 3@0 4@0 2@0", "o o o o o o o w", "0 0 0 8 0"),
    (&W, "0@0 1@0 0@0 1@0 4@0 3@0 2@0", "o o o o o o b7", "2 0 1 7 7"),
    (&E, "0@0 9@0", "o b2", "2 0 1 2 2"),
    (&E, "0@0 0@0 9@10", "o o w", "0 0 0 3 0"),
    (&E, "0@0 0@0 0@0 0@0 0@0 9@10", "o o o o o w", "0 0 0 6 0"),
    (&E, "0@0 0@0 0@0 0@0 c@99", "o o o o o", "1 0 1 5 0"),
    (&E, "0@0 0@0 0@50 9@60", "o o o w", "0 0 0 4 0"),
    (&E, "0@0 0@0 0@50 9@61", "o o o b4", "2 0 1 4 4"),
    (&E, "0@0 0@0 9@0 9@0 9@0", "o o w w b5", "2 0 1 5 5"),
    (&H, "0@0 0@0 1@0 0@0", "o o o b4", "2 0 1 4 4"),
    (&F, "0@0 0@0 1@0 0@0", "o o o b4", "2 0 1 4 4"),
    (&F, "0@0 0@0 1@0 c@11", "o o o b4", "2 0 1 4 4"),
    (&F, "1@0 0@0 0@0 c@99", "o o o o", "1 0 1 4 0"),
    (&G, "0@0 0@0 1@0 0@0 9@10", "o o o o w", "0 0 0 5 0"),
    (&G, "0@0 0@0 1@0 c@99", "o o o o", "1 0 1 4 0"),
    (&H, "0@0 0@0 1@0 3@0 1@0 3@0 1@0 2@0", "o o o o o o o w", "0 0 0 8 0"),
    (&H, "0@0 0@0 1@0 3@0 1@0 2@0", "o o o o o b6", "2 0 1 6 6"),
    (&F, "1@0 0@0 9@1 9@2 9@10 c@99", "o o w w w w", "0 0 0 6 0"),
    (&F, "1@0 0@0 9@1 9@2 9@10 c@99 9@99", "o o w w w w b7", "2 0 1 7 7"),
    (&F, "1@0 0@0 9@1 9@2 9@10 c@99 0@99", "o o w w w w o", "1 0 1 7 0"),
];

/// A name, or None for a clock reading, and a time.
fn observations(text: &str) -> Vec<(Option<u32>, u32)> {
    text.split_whitespace()
        .map(|word| {
            let (name, time) = word.split_once('@').unwrap();
            (name.parse().ok(), time.parse().unwrap())
        })
        .collect()
}

fn log_of(observations: &[(Option<u32>, u32)]) -> Vec<u8> {
    observations
        .iter()
        .flat_map(|&(name, time)| {
            let [a, b, c, d] = time.to_le_bytes();
            [name.map_or(0xFF, |n| n as u8), a, b, c, d]
        })
        .collect()
}

fn due(word: &str) -> Result<Verdict, Refusal> {
    match word.split_at(1) {
        ("w", _) => Ok(Verdict::Whole),
        ("o", _) => Ok(Verdict::Open { mask: 1 }),
        ("b", at) => Ok(Verdict::Broken {
            at: at.parse().unwrap(),
            mask: 1,
        }),
        (_, number) => {
            assert_eq!(number, "11");
            Err(Refusal::TimeFalls { place: None })
        }
    }
}

#[test]
fn by_log() {
    for (sheet, text, _, numbers) in TRACES {
        assert_eq!(run(sheet, &log_of(&observations(text)), u32::MAX).to_string(), numbers, "{text}");
    }
}

#[test]
fn live_and_each_budget_as_live() {
    for (sheet, text, answers, _) in TRACES {
        let list = observations(text);
        let log = log_of(&list);
        let book = Book::open(sheet).unwrap();
        let mut session = book.session();
        assert_eq!(session.verdict(), Ok(Verdict::Whole));
        assert_eq!(list.len(), answers.split_whitespace().count());
        for ((name, time), word) in list.into_iter().zip(answers.split_whitespace()) {
            let before = (session.verdict(), session.taken());
            let answer = match name {
                Some(name) => session.event(name, time),
                None => session.clock(time),
            };
            assert_eq!(answer, due(word), "{text}");
            match answer {
                Err(_) => assert_eq!((session.verdict(), session.taken()), before),
                Ok(verdict) => {
                    assert_eq!((session.verdict(), session.taken()), (Ok(verdict), before.1 + 1));
                    let outcome = run(sheet, &log, session.taken());
                    assert_eq!((outcome.answer, outcome.taken), (Ok(verdict), session.taken()), "{text}");
                }
            }
        }
    }
}
