//! Fields packed most significant bit first.

/// Takes fields off the front of some bytes.
pub struct Fields<'a> {
    bytes: &'a [u8],
    place: usize,
}

impl<'a> Fields<'a> {
    pub fn new(bytes: &'a [u8]) -> Self {
        Fields { bytes, place: 0 }
    }

    /// The next `width` bits (at most 128) as a number.
    pub fn take(&mut self, width: usize) -> u128 {
        let mut value = 0;
        let mut wanted = width;
        // Whole bytes at a time if the field begins at one.
        if self.place.is_multiple_of(8) {
            let whole = wanted / 8;
            for &byte in &self.bytes[self.place / 8..][..whole] {
                value = value << 8 | u128::from(byte);
            }
            self.place += 8 * whole;
            wanted -= 8 * whole;
        }
        while wanted > 0 {
            let left_in_byte = 8 - self.place % 8;
            let now = wanted.min(left_in_byte);
            let byte = self.bytes[self.place / 8] as u128;
            let piece = (byte >> (left_in_byte - now)) & ((1 << now) - 1);
            value = value << now | piece;
            self.place += now;
            wanted -= now;
        }
        value
    }

    pub fn flag(&mut self) -> bool {
        self.take(1) == 1
    }
}

/// Puts fields one after the other.
#[derive(Default)]
pub struct Packer {
    bytes: Vec<u8>,
    place: usize,
}

impl Packer {
    pub fn new() -> Self {
        Packer::default()
    }

    /// Appends the low `width` bits of `value`.
    pub fn put(mut self, value: u128, width: usize) -> Self {
        let mut left = width;
        while left > 0 {
            if self.place.is_multiple_of(8) {
                self.bytes.push(0);
            }
            let left_in_byte = 8 - self.place % 8;
            let now = left.min(left_in_byte);
            left -= now;
            let piece = (value >> left) as u8 & (0xFF >> (8 - now));
            self.bytes[self.place / 8] |= piece << (left_in_byte - now);
            self.place += now;
        }
        self
    }

    pub fn bytes(self) -> Vec<u8> {
        self.bytes
    }
}

/// The number in two bytes, the most significant first.
pub fn be16(bytes: &[u8]) -> u16 {
    u16::from_be_bytes(bytes.try_into().expect("two bytes"))
}

/// The number in four bytes, the most significant first.
pub fn be32(bytes: &[u8]) -> u32 {
    u32::from_be_bytes(bytes.try_into().expect("four bytes"))
}

#[cfg(test)]
#[path = "tests/bits.rs"]
mod tests;
