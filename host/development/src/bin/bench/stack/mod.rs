//! The stack that readings and listings of a great nesting take.

mod painted;

use bannelgo::plain_reading;
use bannelgo::raw;
use bannelgo_development::calls::open_image;
use bannelgo_development::expr::{then, Expr, Grammar};
use bannelgo_development::generate::Levels;
use bannelgo_development::numbering::{image_of, Numbering};
use painted::bytes_written;

const MOST: usize = 4_096;

/// More slots than these texts have rows.
const SLOTS: usize = 70_000;

pub fn print() {
    println!("The stack at nesting {MOST}, KiB written to, and bytes for each level of nesting");
    print!("{:<28}{:>8}{:>7}", "levels", "plain", "each");
    println!("{:>9}{:>7}{:>9}{:>7}", "reading", "each", "listing", "each");
    print_stacks("M10's rule", &Levels::of_choices(1));
    print_stacks("choices inside each other", &Levels::of_choices(250));
    print_stacks("a chain of 64 rules", &Levels::of_calls(62));
    let ring = ring_stack() / 1_024;
    println!("{:<28}{ring:>40}", "a ring of untrue records");
}

fn print_stacks(name: &str, levels: &Levels) {
    let (whole, half) = (stacks(levels, MOST), stacks(levels, MOST / 2));
    print!("{name:<28}");
    for (width, (whole, half)) in [8, 9, 9].into_iter().zip(whole.into_iter().zip(half)) {
        let each = (whole - half) / (MOST / 2);
        print!("{:>width$}{each:>7}", whole / 1_024);
    }
    println!();
}

/// The bytes of a plain reading, of an opening and a reading, and of an opening and a listing.
fn stacks(levels: &Levels, nesting: usize) -> [usize; 3] {
    let (grammar, brackets) = levels.with_nesting(nesting);
    let image = image_of(&grammar, Numbering::Preorder);
    let text = vec![b'('; brackets];
    let open = || open_image(&image, &text, brackets).expect("the text is opened");
    let plain = bytes_written(|| {
        let read = plain_reading(&image, &text).expect("the text is read");
        assert_eq!(read.nesting, nesting);
    });
    let reading = bytes_written(|| {
        assert!(open().read().is_ok());
    });
    let listing = bytes_written(|| {
        assert!(open().list(SLOTS).is_ok());
    });
    [plain, reading, listing]
}

/// Held, matched, nesting 1, examined 0, length 0.
const MATCHED_NOTHING: u64 = 0xC000_0002_0000_0000;

/// The bytes of a listing over records that are not true, which say of rules in a ring of calls that they
/// matched nothing: it goes round until the allowance is used up.
fn ring_stack() -> usize {
    let mut rules: Vec<Expr> = (1..63).map(Expr::Call).collect();
    rules.extend([then(Expr::Call(63), Expr::Call(0)), Expr::Any]);
    let image = image_of(&Grammar { start: 0, rules }, Numbering::Preorder);
    let mut table = [[MATCHED_NOTHING; 64], [0; 64]].concat();
    let mut slots = vec![0; SLOTS];
    bytes_written(|| {
        let listed = raw::list(&image, b"a", 1, &mut table, &mut slots);
        assert_eq!(listed.number, 14);
    })
}
