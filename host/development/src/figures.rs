//! Numbers as people read them.

/// A number with a comma before every three digits.
pub fn grouped(number: u64) -> String {
    match number {
        0..=999 => number.to_string(),
        _ => format!("{},{:03}", grouped(number / 1_000), number % 1_000),
    }
}

#[test]
fn thousands_are_grouped() {
    let texts = [0, 999, 1_000, 65_535, 1_234_567, 1_000_000].map(grouped);
    let expected = ["0", "999", "1,000", "65,535", "1,234,567", "1,000,000"];
    assert_eq!(texts, expected);
}
