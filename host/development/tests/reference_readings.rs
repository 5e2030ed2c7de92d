//! The reference's two readers against each other, and the machine's count of the work.

use bannelgo_development::expr::{then, Expr, Grammar};
use bannelgo_development::generate::{damage, guarded, text_of, to_letters};
use bannelgo_development::reference::machine::evaluate_start;
use bannelgo_development::reference::{self, read, recursive};
use bannelgo_development::rng::Rng;
use bannelgo_development::samples::{D2, M10};
use bannelgo_development::small_stack::on_stack_of;

/// The stack of the recursive reader, which is enough also without optimisation.
const BIG_STACK: usize = 64 << 20;

#[test]
fn machine_and_recursive_reader_agree() {
    on_stack_of(BIG_STACK, || {
        let rng = &mut Rng::new(1501);
        let mut read_by_both = 0;
        for round in 0..20_000 {
            let rules = rng.between(1, 10);
            let nodes = 3 * rules + rng.below(60);
            let mut grammar = guarded(rng, rules, nodes);
            if round % 2 == 0 {
                to_letters(&mut grammar);
            }
            for _ in 0..3 {
                let mut text = text_of(rng, &grammar, 30);
                read_by_both += both(&grammar, &text);
                damage(rng, &mut text);
                read_by_both += both(&grammar, &text);
            }
        }
        assert!(read_by_both > 100_000, "only {read_by_both} pairs");
    });
}

/// Reads with both where the work is bounded; the number of pairs read, 0 or 1.
fn both(grammar: &Grammar, text: &[u8]) -> u32 {
    let Some(machine) = read(grammar, text, 20_000) else {
        return 0;
    };
    let recursive = recursive::read(grammar, text);
    assert_eq!(machine, recursive, "{grammar:?}, text {text:02x?}");
    1
}

#[test]
fn both_refuse_at_the_same_nesting() {
    on_stack_of(BIG_STACK, || {
        let grammar = reference::accepted_grammar(&M10).expect("M10 is accepted");
        for count in (1_350..1_380).chain([5_000, 65_535, 65_536]) {
            let text = vec![b'('; count];
            let machine = read(&grammar, &text, u64::MAX);
            assert_eq!(machine, Some(recursive::read(&grammar, &text)));
        }
    });
}

/// No nesting is too deep for the machine.
#[test]
fn the_machine_has_its_own_stack() {
    let grammar = reference::accepted_grammar(&M10).expect("M10 is accepted");
    let found = evaluate_start(&grammar, &vec![b'('; 1_000_000], u64::MAX);
    let found = found.expect("the work is not bounded");
    assert_eq!(found.end, Some(1_000_000));
    assert_eq!((found.reach, found.nesting), (1_000_001, 3_000_003));
}

#[test]
fn work_is_counted_as_without_records() {
    // Then, call, byte; star, and in each of two rounds call and byte.
    let digits = reference::accepted_grammar(&D2).expect("D2 is accepted");
    let work = |most| evaluate_start(&digits, b"12", most).map(|found| found.work);
    assert_eq!((work(8), work(7)), (Some(8), None));
    // Each of 64 rules calls the next one twice, the last one is empty.
    let twice = |rule: u8| then(Expr::Call(rule), Expr::Call(rule));
    let mut rules: Vec<Expr> = (1..64).map(twice).collect();
    rules.push(Expr::Empty);
    let doubling = Grammar { start: 0, rules };
    let found = evaluate_start(&doubling, b"", u64::MAX).expect("the work is not bounded");
    assert_eq!((found.nesting, found.work), (127, u64::MAX));
    assert_eq!(evaluate_start(&doubling, b"", 1 << 40), None);
}
