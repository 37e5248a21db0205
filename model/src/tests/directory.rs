//! Tests of the directory against numbers worked out by hand.

use super::*;
use crate::directory::YARD;

#[test]
fn the_known_numbers() {
    let known: Vec<u8> = (0..64).filter(|&number| find(number).is_some()).collect();
    assert_eq!(known, [0, 1, 2, 3, 4, 8, 9, 10, 11, 12, 13, 14, 16]);
    assert_eq!(super::known(), 0xF8FE_8000_0000_0000);
}

#[test]
fn endpoints() {
    let taking = |connection| -> Vec<u8> {
        DIRECTORY.iter().filter(|resource| resource.takes(connection)).map(|resource| resource.number).collect()
    };
    assert_eq!(taking(Connection::AuthCrypt), [0, 1, 2, 3, 4, 8, 9, 10, 11, 12, 13, 16]);
    assert_eq!(taking(Connection::AnonClear), [0, 1, 2, 3, 4, 8, 12, 14]);
}

#[test]
fn the_yard_links_to_the_other_applications() {
    let others = DIRECTORY.iter().filter(|resource| !resource.configuration() && resource.number != YARD);
    assert!(others.map(|resource| resource.number).eq(LINKS));
}
