//! The seven numbers of an answer: which of them stand for an answer, which for a refusal.

use bannelgo::raw::{Fields, Unanswered};
use bannelgo::{Edited, Outcome, Reading, SheetReading};

fn is_unknown<T: std::fmt::Debug>(answer: Result<T, Unanswered>) {
    assert!(matches!(answer, Err(Unanswered::Unknown(_))), "{answer:?}");
}

/// What each call makes of these fields is a refusal with this number.
fn refused(fields: Fields, number: u8) {
    let refused = Unanswered::Number(number);
    assert_eq!(fields.opened(), Err(refused.clone()));
    assert_eq!(fields.edited(), Err(refused.clone()));
    assert_eq!(fields.read(), Err(refused.clone()));
    assert_eq!(fields.word(), Err(refused.clone()));
    assert_eq!(fields.listed(9), Err(refused));
}

fn unknown_to_all(fields: Fields) {
    is_unknown(fields.opened());
    is_unknown(fields.edited());
    is_unknown(fields.read());
    is_unknown(fields.word());
    is_unknown(fields.listed(9));
}

#[test]
fn answers_read_back() {
    let edited = Edited {
        length: 3,
        standing: 2,
    };
    assert_eq!(Fields::of_edit(edited).edited(), Ok(edited));
    assert_eq!(Fields::of_open(65_535).opened(), Ok(65_535));
    assert_eq!(Fields::of_word(u64::MAX).word(), Ok(u64::MAX));
    for outcome in [Outcome::Nothing, Outcome::Part, Outcome::Whole] {
        let read = SheetReading {
            reading: Reading {
                outcome,
                length: 1,
                examined: 2,
                nesting: 3,
            },
            evaluations: 4,
        };
        assert_eq!(Fields::of_reading(read).read(), Ok(read));
        assert_eq!(Fields::of_listing(read, 5).listed(5), Ok((read, 5)));
        is_unknown(Fields::of_listing(read, 5).listed(4));
        is_unknown(Fields::of_listing(read, 5).read());
    }
}

#[test]
fn numbers_alone_are_refusals() {
    for number in 1..=20 {
        let fields = Fields::of_number(number);
        match number {
            1..=12 | 14 | 15 => refused(fields, number as u8),
            _ => unknown_to_all(fields),
        }
        for field in 0..6 {
            let mut more = fields;
            let place = [
                &mut more.outcome,
                &mut more.length,
                &mut more.examined,
                &mut more.nesting,
                &mut more.evaluations,
                &mut more.value,
            ];
            *place.into_iter().nth(field).expect("six fields") = 1;
            unknown_to_all(more);
        }
    }
}

#[test]
fn fields_of_another_call_are_unknown() {
    let outcome_3 = Fields {
        outcome: 3,
        ..Fields::default()
    };
    unknown_to_all(outcome_3);
    let length = Fields::of_open(1);
    is_unknown(length.word());
    assert_eq!(length.opened(), Ok(1));
    is_unknown(Fields::of_word(1).opened());
}
