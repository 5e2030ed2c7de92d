//! Nestings about 4,096 in a session.

use super::*;
use bannelgo_development::generate::brackets_of_nesting;
use bannelgo_development::rng::Rng;
use bannelgo_development::samples::M10;

pub fn brackets() -> Vec<Line> {
    vec![
        comment("M10: 1364 brackets have nesting 4095; 1365 give 14, and the set is empty then."),
        image(&M10),
        lend(1, 2_000),
        open(&[b'('; 1_364]),
        read(),
        look(0, 0),
        look(0, 1_364),
        edit(0, 0, "("),
        look(0, 1),
        read(),
        look(0, 1),
        look(0, 1_365),
        read(),
        edit(0, 1, ""),
        read(),
        read(),
        comment("The same nesting reached by typing in the middle and at the end."),
        edit(700, 700, ")"),
        read(),
        edit(1_365, 1_365, "("),
        read(),
        edit(700, 701, ""),
        read(),
        edit(1_365, 1_365, ")"),
        read(),
        edit(1_364, 1_365, ""),
        read(),
    ]
}

/// Sessions whose nesting goes over 4,096 and back.
pub fn deep() -> Vec<Line> {
    let rng = &mut Rng::new(5_003);
    let mut lines = vec![comment(
        "Other brackets: nesting 4094 to 4097, with brackets that come and go.",
    )];
    for nesting in 4_094..4_098 {
        let (grammar, count) = brackets_of_nesting(rng, nesting);
        let text = vec![b'('; count];
        lines.extend(session(&grammar, count + 4, &text));
        lines.extend([read(), look(1, count), edit(0, 0, "("), read()]);
        lines.extend([look(0, 0), edit(1, 3, ""), read(), look(0, 0)]);
        lines.extend([edit(count / 2, count / 2, "(("), read()]);
        lines.extend([edit(count, count, "z"), read()]);
    }
    lines
}
