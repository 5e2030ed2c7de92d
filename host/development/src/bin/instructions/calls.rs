//! The calls that are counted. All that touches the proved library is in this file.

use bannelgo::raw::check_image;
use bannelgo::{lending, plain_reading};
use bannelgo_development::big_images::{blocks, relay};
use bannelgo_development::dots::{self, lines_of};
use bannelgo_development::expr::Grammar;
use bannelgo_development::gap_sheet::{named_sheet, sheet, sheet_of_days, sheet_of_lines};
use bannelgo_development::gap_text::{keys, long_sheet, long_sheet_of_days, typing_places};
use bannelgo_development::numbering::{image_of, Numbering};

/// A call with what goes before and behind it.
pub struct Counted {
    pub name: String,
    /// The exported function whose instructions are counted.
    pub symbol: &'static str,
    /// Calls that function once, and others that are not counted.
    pub work: Box<dyn Fn()>,
}

/// The bytes that are left for keys in a sheet's buffer.
const ROOM: usize = 1_000;

/// More rows than the sheets have.
const SLOTS: usize = 100_000;

/// So many keys are in the sheet already, an unfinished entry, before one more is typed.
const TYPED: usize = 24;

type GrammarOf = fn() -> Grammar;

const GRAMMARS: [(&str, GrammarOf); 2] = [
    ("lines in one star", sheet_of_lines),
    ("lines grouped by day", sheet_of_days),
];

/// The sizes of the sheets in bytes, with their names.
const SIZES: [(&str, usize); 2] = [("60,000 bytes", 60_000), ("6,000 bytes", 6_000)];

pub fn all() -> Vec<Counted> {
    let mut calls = checks();
    calls.extend(SIZES.map(plain));
    calls.extend(dots::grammars().map(plain_by_any));
    calls.extend(SIZES.map(opening));
    for size in SIZES {
        calls.extend(GRAMMARS.map(|grammar| first_reading(grammar, size)));
    }
    for size in SIZES {
        for grammar in GRAMMARS {
            calls.extend(keys_at_places(grammar, size));
        }
    }
    for size in SIZES {
        calls.extend(GRAMMARS.map(|grammar| listing(grammar, size)));
    }
    calls
}

fn checks() -> Vec<Counted> {
    let counted = |name: &str, work: fn()| Counted {
        name: format!("image check, {name}"),
        symbol: "bannelgo_check_image",
        work: Box::new(work),
    };
    vec![
        counted("sheet", || {
            // The builder makes the call.
            named_sheet();
        }),
        counted("relay, worst order", || {
            check(&relay(64), Numbering::LastRuleFirst);
        }),
        counted("blocks", || check(&blocks(), Numbering::Preorder)),
    ]
}

fn check(grammar: &Grammar, numbering: Numbering) {
    assert_eq!(check_image(&image_of(grammar, numbering)), 0);
}

fn plain((size, bytes): (&str, usize)) -> Counted {
    Counted {
        name: format!("plain reading, {size}"),
        symbol: "bannelgo_plain_reading",
        work: Box::new(move || {
            let image = image_of(&sheet(), Numbering::Preorder);
            let read = plain_reading(&image, &long_sheet(bytes));
            assert!(read.is_ok_and(|read| read.is_whole()));
        }),
    }
}

/// A text of ASCII.
fn plain_by_any((name, grammar): (&str, Grammar)) -> Counted {
    Counted {
        name: format!("plain reading, {name}, 6,000 bytes"),
        symbol: "bannelgo_plain_reading",
        work: Box::new(move || {
            let image = image_of(&grammar, Numbering::Preorder);
            let read = plain_reading(&image, &lines_of(dots::ASCII, 6_000));
            assert!(read.is_ok_and(|read| read.is_whole()));
        }),
    }
}

fn opening((size, bytes): (&str, usize)) -> Counted {
    Counted {
        name: format!("open, {size}"),
        symbol: "bannelgo_open",
        work: Box::new(move || {
            Lent::open(sheet_of_lines, &long_sheet_of_days(bytes));
        }),
    }
}

fn first_reading((name, grammar): (&str, GrammarOf), (size, bytes): (&str, usize)) -> Counted {
    Counted {
        name: format!("first reading, {name}, {size}"),
        symbol: "bannelgo_read",
        work: Box::new(move || {
            Lent::open(grammar, &long_sheet_of_days(bytes)).read();
        }),
    }
}

fn listing((name, grammar): (&str, GrammarOf), (size, bytes): (&str, usize)) -> Counted {
    Counted {
        name: format!("listing, {name}, {size}"),
        symbol: "bannelgo_list",
        work: Box::new(move || {
            let mut sheet = Lent::open(grammar, &long_sheet_of_days(bytes));
            sheet.read();
            sheet.list();
        }),
    }
}

/// Edit and reading of a key at each place of a long sheet, and in the middle of a short one.
fn keys_at_places(
    (name, grammar): (&str, GrammarOf),
    (size, bytes): (&str, usize),
) -> Vec<Counted> {
    let places: &'static [&'static str] = match bytes {
        60_000 => &["start", "middle", "end"],
        _ => &["middle"],
    };
    let counted = |place: &'static str| {
        [("edit", "bannelgo_edit"), ("reading", "bannelgo_read")].map(|(what, symbol)| Counted {
            name: format!("{what} of a key, {name}, {size}, {place}"),
            symbol,
            work: Box::new(move || type_key(grammar, bytes, place)),
        })
    };
    places.iter().flat_map(|place| counted(place)).collect()
}

/// Types one key at the end of an unfinished line and reads. The sheet is read by a listing before, so that there is one reading.
fn type_key(grammar: GrammarOf, bytes: usize, place: &str) {
    let mut text = long_sheet_of_days(bytes);
    let places = typing_places(&text);
    let at = places.iter().find(|(name, _)| *name == place);
    let (_, at) = *at.expect("the sheet has such a place");
    let mut keys = keys();
    text.splice(at..at, keys.by_ref().take(TYPED));
    let mut sheet = Lent::open(grammar, &text);
    sheet.list();
    sheet.type_key(at + TYPED, keys.next().expect("keys have no end"));
    sheet.read();
}

/// A sheet over lent buffers: each function makes just one call.
struct Lent {
    image: Vec<u8>,
    buffer: Vec<u8>,
    n: usize,
    table: Vec<u64>,
}

impl Lent {
    fn open(grammar: GrammarOf, text: &[u8]) -> Lent {
        let image = image_of(&grammar(), Numbering::Preorder);
        let mut buffer = vec![0; text.len() + ROOM];
        let mut table = vec![0; lending::table_words(&image, buffer.len())];
        let opened = lending::open(&image, text, &mut buffer, &mut table);
        let n = opened.expect("the sheet is opened");
        Lent {
            image,
            buffer,
            n,
            table,
        }
    }

    fn type_key(&mut self, at: usize, key: u8) {
        let Lent {
            image,
            buffer,
            n,
            table,
        } = self;
        let edited = lending::edit(image, buffer, *n, table, at..at, &[key]);
        *n = edited.expect("there is room").length;
    }

    fn read(&mut self) {
        let read = lending::read(&self.image, &self.buffer, self.n, &mut self.table);
        assert!(read.expect("the sheet is read").reading.is_whole());
    }

    fn list(&mut self) {
        let mut slots = vec![0; SLOTS];
        let listed = lending::list(
            &self.image,
            &self.buffer,
            self.n,
            &mut self.table,
            &mut slots,
        );
        let (_, rows) = listed.expect("the sheet is listed");
        assert!(rows > self.n / 2);
    }
}
