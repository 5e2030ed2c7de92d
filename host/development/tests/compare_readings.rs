//! Compares the proved plain reading with the reference on many pairs of image and text.

mod readings;

use bannelgo_development::small_stack::on_small_stack;
use readings::{deep, every, long, random, refused, shapes, sheets, tally};

#[test]
fn both_readings_are_the_same() {
    on_small_stack(|| {
        tally::settle(&[
            every::one_rule(),
            every::two_rules(),
            every::one_rule_in_both_cases(),
            every::two_rules_in_both_cases(),
            every::one_rule_over_characters(),
            every::two_rules_over_characters(),
            random::letters(1101),
            random::bytes(1102),
            shapes::shapes(1201),
            sheets::sheets(1202),
            deep::near_the_limit(1301),
            deep::far_beyond(1302),
            long::lengths(),
            refused::damaged(1401),
            refused::careless(1402),
        ]);
    });
}
