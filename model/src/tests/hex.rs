//! Tests of hexadecimal digits.

use super::*;

#[test]
fn there_and_back() {
    assert_eq!(literal("00 1f A0"), [0x00, 0x1F, 0xA0]);
    assert_eq!(write(&[0x00, 0x1F, 0xA0]), "001fa0");
    assert!(read("0").is_err());
    assert!(read("0g").is_err());
}
