//! The tables of images and of characters and the runs of replay in the documents, held to the library and
//! to the program.

use bannelgo::plain_reading;
use bannelgo::raw::check_image;
use std::io::Write;
use std::path::Path;
use std::process::{Command, Stdio};

const WORDS: &str = include_str!("../../../docs/WORDS.md");
const IMAGES: &str = include_str!("../../../docs/IMAGE.md");

/// The bytes that hexadecimal digits stand for, with spaces between them.
fn bytes(hex: &str) -> Option<Vec<u8>> {
    let digits: String = hex.split_whitespace().collect();
    let pairs = (0..digits.len()).step_by(2);
    let pairs = pairs.map(|place| u8::from_str_radix(digits.get(place..place + 2)?, 16).ok());
    pairs.collect()
}

/// An image and the number that a row of a table says it gets.
fn image_and_number(row: &str) -> Option<(Vec<u8>, u64)> {
    let cells: Vec<&str> = row.split('|').map(str::trim).collect();
    let image = cells.iter().position(|cell| cell.starts_with('`'))?;
    let number = cells.get(image + 1)?.parse().ok()?;
    Some((bytes(cells[image].trim_matches('`'))?, number))
}

/// Every image of the tables in docs/IMAGE.md gets the number that stands beside it.
#[test]
fn images_get_the_numbers_that_the_document_says() {
    let mut met = [0; 8];
    for (image, number) in IMAGES.lines().filter_map(image_and_number) {
        assert_eq!(check_image(&image), number, "{image:02x?}");
        met[number as usize] += 1;
    }
    // The table says of number 1 that no byte at all gets it.
    assert_eq!(check_image(&[]), 1);
    assert!(met.iter().all(|&count| count >= 1), "{met:?}");
    assert!(met.iter().sum::<i32>() >= 25, "{met:?}");
}

/// Length and examined length of the character that a text begins with, by the image that docs/IMAGE.md has
/// for it.
fn character(text: &[u8]) -> (usize, usize) {
    let image = "10100100 0000 10000000";
    assert!(IMAGES.contains(&format!("`{image}`, which is `S <- .`")));
    let image = bytes(image).expect("it is hexadecimal");
    let reading = plain_reading(&image, text).expect("a short text is read");
    (reading.length, reading.examined)
}

/// A text, and the two lengths that a row of a table says its character has.
fn text_and_lengths(row: &str) -> Option<(Vec<u8>, (usize, usize))> {
    let cells: Vec<&str> = row.split('|').map(str::trim).collect();
    let [_, text, _, length, examined, _] = cells[..] else {
        return None;
    };
    let text = match text {
        "(no byte)" => vec![],
        hex => bytes(hex)?,
    };
    Some((text, (length.parse().ok()?, examined.parse().ok()?)))
}

#[test]
fn characters_have_the_lengths_that_the_document_says() {
    let rows: Vec<_> = IMAGES.lines().filter_map(text_and_lengths).collect();
    for (text, lengths) in &rows {
        assert_eq!(character(text), *lengths, "{text:02x?}");
    }
    assert!(rows.len() >= 16, "{rows:?}");
}

/// The lowest and the highest byte at each place of a row of the table of characters: "E0", "A0 to BF".
fn places(row: &str) -> Vec<[u8; 2]> {
    let places = row.split("   ").filter(|place| !place.is_empty());
    let both = |place: &str| match bytes(&place.replace("to", ""))?[..] {
        [only] => Some([only, only]),
        [low, high] => Some([low, high]),
        _ => None,
    };
    let places: Option<Vec<[u8; 2]>> = places.map(both).collect();
    places.expect("each place has one byte or two")
}

/// Each row's lowest and highest bytes make a character, the bytes next to them break it off, and all rows
/// together have as many characters as there are: 0x110000 without the 0x800 surrogates.
#[test]
fn characters_have_the_bytes_that_the_document_says() {
    let (_, table) = WORDS.split_once("\nfirst byte ").expect("there is a table");
    let rows = table.lines().skip(1).take_while(|line| *line != "```");
    let mut characters = 0;
    for places in rows.map(places) {
        let length = places.len();
        for end in [0, 1] {
            let text: Vec<u8> = places.iter().map(|place| place[end]).collect();
            assert_eq!(character(&text), (length, length), "{text:02x?}");
            for (at, [low, high]) in places.iter().enumerate().skip(1) {
                for next in [low - 1, high + 1] {
                    let mut broken = text.clone();
                    broken[at] = next;
                    assert_eq!(character(&broken), (1, at + 1), "{broken:02x?}");
                }
            }
        }
        let bytes = |[low, high]: &[u8; 2]| usize::from(high - low) + 1;
        characters += places.iter().map(bytes).product::<usize>();
    }
    assert_eq!(characters, 0x110000 - 0x800);
}

/// The input and the output of a document's run of replay.
fn replayed(document: &str) -> (&str, &str) {
    let begin = "```sh\ntarget/bin/replay <<'END'\n";
    let (_, behind) = document.split_once(begin).expect("the document has one");
    let (input, behind) = behind.split_once("END\n```").expect("it is closed");
    let (_, behind) = behind.split_once("```text\n").expect("it has an output");
    let (output, _) = behind.split_once("```").expect("it is closed");
    (input, output)
}

/// What replay prints to an input.
fn replay(input: &str) -> String {
    let program = Path::new(env!("CARGO_MANIFEST_DIR")).join("../../target/bin/replay");
    assert!(
        program.is_file(),
        "target/bin/replay is missing: bin/replay"
    );
    let mut command = Command::new(program);
    command.stdin(Stdio::piped()).stdout(Stdio::piped());
    let mut run = command.spawn().expect("replay starts");
    let mut stdin = run.stdin.take().expect("its input is a pipe");
    stdin
        .write_all(input.as_bytes())
        .expect("replay reads its input");
    drop(stdin);
    let output = run.wait_with_output().expect("replay ends");
    String::from_utf8(output.stdout).expect("replay prints text")
}

/// replay prints what WORDS.md and IMAGE.md say.
#[test]
fn replay_prints_what_the_documents_say() {
    for document in [WORDS, IMAGES] {
        let (input, output) = replayed(document);
        assert_eq!(replay(input), output);
    }
}
