//! Which bytes a range matches, without its fold bit and with it.

pub fn between(byte: u8, low: u8, high: u8) -> bool {
    low <= byte && byte <= high
}

/// "a byte matches if it or its other ASCII case is between A and B".
pub fn between_in_either_case(byte: u8, low: u8, high: u8) -> bool {
    between(byte, low, high) || between(other_case(byte), low, high)
}

/// A letter's other case; every other byte is its own.
pub fn other_case(byte: u8) -> u8 {
    match byte.is_ascii_uppercase() {
        true => byte.to_ascii_lowercase(),
        false => byte.to_ascii_uppercase(),
    }
}
