//! The ledger by hand-worked cases, and against the definitions over any lent words.

use bannelgo::{Edited, SheetReading};
use bannelgo::{Outcome, Reading};
use bannelgo_development::calls::{Answer, Call};
use bannelgo_development::expr::{then, Expr, Grammar};
use bannelgo_development::generate::{small_grammar, text_of, Typist};
use bannelgo_development::reference::ledger::Ledger;
use bannelgo_development::reference::lent::Loan;
use bannelgo_development::reference::record::Fields;
use bannelgo_development::reference::{self, lent_listing, lent_reading};
use bannelgo_development::rng::Rng;
use bannelgo_development::samples::{D2, M10};
use bannelgo_development::small_stack::on_stack_of;

fn edit(start: usize, end: usize, replacement: &str) -> Call {
    Call::Edit {
        start,
        end,
        replacement: replacement.into(),
    }
}

fn look_up(rule: usize, position: usize) -> Call {
    Call::LookUp { rule, position }
}

fn edited(length: usize, standing: usize) -> Result<Answer, u64> {
    Ok(Answer::Edited(Edited { length, standing }))
}

/// Outcome, length, examined, nesting, evaluations.
fn read(fields: (Outcome, usize, usize, usize, usize)) -> Result<Answer, u64> {
    let (outcome, length, examined, nesting, evaluations) = fields;
    let reading = Reading {
        outcome,
        length,
        examined,
        nesting,
    };
    Ok(Answer::Reading(SheetReading {
        reading,
        evaluations,
    }))
}

#[test]
fn the_papers_digits() {
    let digits = reference::accepted_grammar(&D2).expect("D2 is accepted");
    let read_12a = read((Outcome::Part, 2, 3, 4, 4));
    let word = |word| Ok(Answer::Word(word));

    let mut m3 = Ledger::open(&digits, 5, b"12a");
    assert_eq!(m3.call(&Call::Read), read_12a);
    assert_eq!(m3.call(&look_up(0, 0)), word(0xC000_0008_0003_0002));
    assert_eq!(m3.call(&look_up(1, 2)), word(0x8000_0002_0001_0000));
    assert_eq!(m3.call(&look_up(0, 1)), word(0));
    assert_eq!(m3.call(&edit(2, 3, "")), edited(2, 2));
    assert_eq!(m3.call(&Call::Read), read((Outcome::Whole, 2, 3, 4, 2)));
    assert_eq!(m3.call(&edit(0, 0, "7")), edited(3, 4));
    assert_eq!(m3.call(&Call::Read), read((Outcome::Whole, 3, 4, 4, 2)));

    let mut m4 = Ledger::open(&digits, 5, b"12a");
    assert_eq!(m4.call(&Call::Read), read_12a);
    assert_eq!(m4.call(&edit(2, 2, "")), edited(3, 3));
    assert_eq!(m4.call(&Call::Read), read((Outcome::Part, 2, 3, 4, 1)));
    assert_eq!(m4.call(&Call::Read), read((Outcome::Part, 2, 3, 4, 0)));

    let mut m5 = Ledger::open(&digits, 5, b"");
    let read_nothing = read((Outcome::Nothing, 0, 1, 3, 2));
    assert_eq!(m5.call(&Call::Read), read_nothing);
}

#[test]
fn the_questions_9_to_11() {
    let digits = reference::accepted_grammar(&D2).expect("D2 is accepted");
    let mut ledger = Ledger::open(&digits, 4, b"123");
    for (call, number) in [
        (edit(2, 1, ""), 9),
        (edit(0, 4, ""), 9),
        (edit(0, 4, "too long"), 9),
        (edit(3, 3, "45"), 10),
        (edit(0, 3, "45678"), 10),
        (look_up(2, 0), 11),
        (look_up(0, 4), 11),
    ] {
        assert_eq!(ledger.call(&call), Err(number), "{call}");
    }
    assert_eq!(ledger.call(&edit(3, 3, "4")), edited(4, 0));
    assert_eq!(ledger.call(&edit(0, 3, "987")), edited(4, 0));
    assert_eq!(ledger.call(&look_up(1, 4)), Ok(Answer::Word(0)));
}

/// A refused reading empties the set, and the text can be read again afterwards.
#[test]
fn the_papers_brackets() {
    let brackets = reference::accepted_grammar(&M10).expect("M10 is accepted");
    let text = vec![b'('; 1_364];
    let mut ledger = Ledger::open(&brackets, 2_000, &text);
    let whole = read((Outcome::Whole, 1_364, 1_365, 4_095, 1_365));
    assert_eq!(ledger.call(&Call::Read), whole);
    assert_eq!(ledger.call(&edit(0, 0, "(")), edited(1_365, 1_365));
    assert_eq!(ledger.call(&Call::Read), Err(14));
    assert_eq!(ledger.call(&edit(0, 1, "")), edited(1_364, 0));
    assert_eq!(ledger.call(&Call::Read), whole);
}

/// S = E then any, E = empty: E's record at 0 stays there and also goes with the byte behind it.
#[test]
fn examined_0_stands_twice() {
    let rules = vec![then(Expr::Call(1), Expr::Any), Expr::Empty];
    let grammar = Grammar { start: 0, rules };
    let mut ledger = Ledger::open(&grammar, 2, b"a");
    assert_eq!(ledger.call(&Call::Read), read((Outcome::Whole, 1, 1, 3, 2)));
    assert_eq!(ledger.call(&edit(0, 0, "b")), edited(2, 3));
    assert_eq!(ledger.call(&Call::Read), read((Outcome::Part, 1, 1, 3, 1)));
}

#[test]
fn fields_lie_where_the_paper_says() {
    let m1 = Fields::of_word(0xC000_0008_0003_0002);
    let (held, matched, zero) = (true, true, 0);
    let expected = Fields {
        held,
        matched,
        zero,
        nesting: 4,
        examined: 3,
        length: 2,
    };
    assert_eq!(m1, expected);
    for bit in 0..64 {
        let fields = Fields::of_word(1 << bit);
        let inside = |low: u32| 1 << (bit - low);
        match bit {
            0..=15 => assert_eq!(fields.length, inside(0)),
            16..=32 => assert_eq!(fields.examined, inside(16)),
            33..=45 => assert_eq!(fields.nesting, inside(33)),
            46..=61 => assert_eq!(fields.zero, inside(46)),
            62 => assert!(fields.matched),
            _ => assert!(fields.held),
        }
        assert_eq!(fields.word(), 1 << bit);
    }
}

/// Along a list of calls the ledger and the definitions over lent words leave and answer the same.
#[test]
fn ledger_and_lent_words_agree() {
    on_stack_of(64 << 20, || {
        let rng = &mut Rng::new(2_001);
        for _ in 0..10_000 {
            let grammar = small_grammar(rng);
            one_list(rng, &grammar);
        }
    });
}

fn one_list(rng: &mut Rng, grammar: &Grammar) {
    let text = text_of(rng, grammar, 20);
    let cap = text.len() + rng.below(6);
    let mut ledger = Ledger::open(grammar, cap, &text);
    let mut loan = Loan {
        buffer: vec![b'a'; cap],
        n: 0,
        words: vec![!0; grammar.rules.len() * (cap + 1)],
    };
    assert_eq!(loan.open(grammar, &text), Ok(text.len()));
    let mut typist = Typist::default();
    for _ in 0..14 {
        let slots = rng.below(30);
        let call = match rng.below(8) {
            0 => Call::List { slots },
            _ => typist.call(rng, grammar, ledger.text(), cap),
        };
        let answer = over_words(grammar, &mut loan, &call);
        assert_eq!(ledger.call(&call), answer, "{call}, {grammar:?}");
        let left = Loan {
            buffer: ledger.buffer(),
            n: ledger.text().len(),
            words: ledger.table(),
        };
        assert_eq!(left, loan, "{call}, {grammar:?}");
    }
}

fn over_words(grammar: &Grammar, loan: &mut Loan, call: &Call) -> Result<Answer, u64> {
    if let Some(number) = loan.question_failed(grammar, call) {
        return Err(number);
    }
    match call {
        Call::Edit {
            start,
            end,
            replacement,
        } => Ok(Answer::Edited(loan.edit(
            grammar,
            *start,
            *end,
            replacement,
        ))),
        Call::Read => {
            let reading = lent_reading::read(grammar, loan);
            reading.expect("true words settle it").map(Answer::Reading)
        }
        Call::LookUp { rule, position } => {
            Ok(Answer::Word(loan.look_up(grammar, *rule, *position)))
        }
        Call::List { slots } => {
            let listing = lent_listing::list(grammar, loan, *slots);
            listing.expect("true words settle it").map(Answer::Listing)
        }
    }
}
