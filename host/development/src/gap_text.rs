//! Texts that the grammars in `sheet` match whole, and keys that are typed into them.

/// What a planner types: a title, comments, and gaps with a colour, two times and values.
pub const PLANNERS_SHEET: &str = "\
GAPS North_3
# Week 11. Red is estimated, amber is copied from the week before, grey is open.
amber;  06:15:00 / 07:00:00;  12.4, 12.9, 13.1
red;    09:30:00 / 10:00:00;  8.75, ?
grey;   13:45:00 / 14:00:00;  ?

# The meter was changed at 16:20.
red;    16:15:00 / 17:00:00;  0, -0.25, +4
";

/// The same with the name of a site that has letters with accents, and with the unit of the values, which the
/// meter that came later writes in capitals.
pub const SITE_SHEET: &str = "\
GAPS Zürich-Süd
# Week 11. Red is estimated, amber is copied from the week before, grey is open.
amber;  06:15:00 / 07:00:00;  12.4, 12.9, 13.1 kWh
red;    09:30:00 / 10:00:00;  8.75, ? kWh
grey;   13:45:00 / 14:00:00;  ?

# The meter was changed at 16:20.
red;    16:15:00 / 17:00:00;  0, -0.25, +4 KWH
";

const TITLE: &str = "GAPS North_3\n";

const COLOURS: [&str; 5] = ["amber", "red", "grey", "green", "light_blue"];

/// A sheet of exactly so many bytes, at least 15 of them. The last line is a comment that fills up.
pub fn long_sheet(bytes: usize) -> Vec<u8> {
    sheet_with(bytes, line)
}

/// The same for the grammars for typing: each day has a heading and 40 lines.
pub fn long_sheet_of_days(bytes: usize) -> Vec<u8> {
    sheet_with(bytes, |number| match number % 41 {
        0 => format!("@ Day {}\n", number / 41 + 1),
        _ => line(number),
    })
}

fn sheet_with(bytes: usize, line: impl Fn(usize) -> String) -> Vec<u8> {
    let mut text = TITLE.to_string();
    for number in 0.. {
        let line = line(number);
        if text.len() + line.len() + "#\n".len() > bytes {
            break;
        }
        text += &line;
    }
    let filling = bytes - text.len() - "#\n".len();
    text += &format!("#{}\n", "-".repeat(filling));
    text.into_bytes()
}

/// Of every eight lines one is a comment, one is blank, and the others are entries.
fn line(number: usize) -> String {
    match number % 8 {
        0 => format!("# Day {}: values from the field unit.\n", number / 8 + 1),
        5 => "\n".to_string(),
        _ => entry(number),
    }
}

fn entry(number: usize) -> String {
    let colour = COLOURS[number % COLOURS.len()];
    let (hour, minute) = (number % 23, number % 4 * 15);
    let (whole, hundredths) = (number % 97, number * 7 % 100);
    format!(
        "{colour}; {hour:02}:{minute:02}:00 / {:02}:{minute:02}:00; {whole}.{hundredths:02}, ?, -{whole}\n",
        hour + 1
    )
}

/// What is typed at the end of a line: an entry, a comment and an entry that stays unfinished.
const TYPED: &str =
    "\namber; 06:15:00 / 07:00:00; 12.4, ?\n# copied from week 10\nred; 16:15:00 / 17";

/// The keys of a planner, one byte each, without end.
pub fn keys() -> impl Iterator<Item = u8> {
    TYPED.bytes().cycle()
}

/// The end of a line, in front of its newline: the first one at or after a place.
pub fn end_of_line(text: &[u8], place: usize) -> usize {
    let newline = text[place..].iter().position(|&byte| byte == b'\n');
    place + newline.expect("a sheet ends with a newline")
}

/// Where the keys are typed: the end of the first day's heading, of a line in the middle, of the last line.
pub fn typing_places(text: &[u8]) -> [(&'static str, usize); 3] {
    [
        ("start", end_of_line(text, TITLE.len())),
        ("middle", end_of_line(text, text.len() / 2)),
        ("end", end_of_line(text, text.len() - 1)),
    ]
}
