//! Takes fields from a 32-bit word, most significant bit first.

pub struct TopBits {
    rest: u32,
}

impl TopBits {
    pub fn of_four_bytes(bytes: [u8; 4]) -> TopBits {
        TopBits {
            rest: u32::from_be_bytes(bytes),
        }
    }

    /// The two bytes are the first fields; zeros follow.
    pub fn of_two_bytes(bytes: [u8; 2]) -> TopBits {
        TopBits::of_four_bytes([bytes[0], bytes[1], 0, 0])
    }

    /// The next `width` bits, from 1 to 31 of them.
    pub fn take(&mut self, width: u32) -> usize {
        let field = self.rest >> (32 - width);
        self.rest <<= width;
        field as usize
    }
}
