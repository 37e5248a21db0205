//! Tests of packed fields.

use super::*;

#[test]
fn fields_come_out_as_they_went_in() {
    let fields = [(5, 3), (1, 1), (42, 6), (0, 6), (0xBEEF, 16), (u128::MAX - 7, 128), (3, 2), (9, 6)];
    let mut packer = Packer::new();
    for (value, width) in fields {
        packer = packer.put(value, width);
    }
    let bytes = packer.bytes();
    assert_eq!(bytes.len(), 21);
    let mut reader = Fields::new(&bytes);
    for (value, width) in fields {
        assert_eq!(reader.take(width), value);
    }
}

#[test]
fn the_first_field_is_at_the_top() {
    assert_eq!(Packer::new().put(1, 3).put(0, 1).put(8, 6).put(0, 6).bytes(), [0x22, 0x00]);
    assert_eq!(Fields::new(&[0xA2]).take(3), 5);
}
