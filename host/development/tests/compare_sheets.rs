//! Compares the proved sheet with the plain ledger over many lists of calls, and single calls over any
//! lent words with the paper's definitions.

mod sheets;

use bannelgo_development::small_stack::on_small_stack;
use sheets::{
    cases, characters, deep, every, foreign, listings, lists, long, planners, tally, true_tables,
};

#[test]
fn lists_of_calls_are_the_ledgers() {
    on_small_stack(|| {
        let tallies = [
            lists::letters(3101),
            lists::bytes(3102),
            lists::full(3103),
            every::edits(3104),
            cases::changes(3108),
            characters::changes(3109),
            characters::borders(3110),
            planners::sheets(3105),
            deep::near_the_limit(3106),
            long::most_bytes(3107),
        ];
        let fewest = [
            ("open", 100_000),
            ("edit", 400_000),
            ("word", 200_000),
            ("whole", 100_000),
            ("part", 100_000),
            ("none", 100_000),
            ("1", 1_000),
            ("2", 1_000),
            ("3", 5_000),
            ("4", 5_000),
            ("5", 1_000),
            ("6", 1_000),
            ("7", 1_000),
            ("8", 20_000),
            ("9", 20_000),
            ("10", 20_000),
            ("11", 20_000),
            ("14", 500),
            ("15", 20_000),
            ("rows", 20_000),
            ("0 rows", 20_000),
            ("fold", 4_000),
            ("fold l", 3_000),
            ("char", 3_000),
            ("char l", 2_500),
            ("case", 40_000),
            ("inside", 30_000),
            ("split", 7_000),
            ("join", 5_500),
            ("goes on", 10_000),
            ("unlawful", 70_000),
        ];
        tally::settle(&tallies, 200_000, &fewest);
    });
}

#[test]
fn calls_over_any_words_are_the_papers() {
    on_small_stack(|| {
        let tallies = [foreign::foreign(3201), true_tables::readings(3202)];
        let fewest = [
            ("edit", 50_000),
            ("word", 30_000),
            ("whole", 20_000),
            ("part", 20_000),
            ("none", 20_000),
            ("9", 1_000),
            ("10", 1_000),
            ("11", 1_000),
            ("12", 5_000),
            ("14", 100),
            ("free", 5_000),
            ("fold", 1_000),
            ("char", 1_000),
            ("case", 8_000),
            ("inside", 2_500),
            ("split", 400),
            ("join", 100),
            ("goes on", 100),
            ("unlawful", 2_000),
        ];
        tally::settle(&tallies, 150_000, &fewest);
    });
}

#[test]
fn listings_are_the_ledgers_and_the_papers() {
    on_small_stack(|| {
        let tallies = [
            listings::near_the_limit(3301),
            listings::by_choices_and_calls(3302),
            listings::doubling(3303),
            listings::long_texts(3304),
            foreign::listings(3305),
            foreign::endless(3307),
            true_tables::listings(3306),
        ];
        let fewest = [
            ("rows", 20_000),
            ("0 rows", 20_000),
            ("12", 5_000),
            ("14", 500),
            ("15", 5_000),
            ("free l", 5_000),
            ("fold l", 1_000),
            ("char l", 500),
            ("case", 8_000),
            ("inside", 2_500),
            ("split", 400),
            ("join", 100),
            ("goes on", 100),
            ("unlawful", 2_000),
        ];
        tally::settle(&tallies, 150_000, &fewest);
    });
}
