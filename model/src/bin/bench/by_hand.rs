//! The same work in C by hand, bench/yardstick.c, called as the library is. The unsafe code is
//! that of the binding's macro.

#![allow(unsafe_code)]

use model::library::Side;

tillerclover::calls!("yardstick");

pub const BY_HAND: Side = Side { judge, hand_in, take, access_list, test_list, convert_list };

extern "C" {
    fn measured_mark();
}

/// Does nothing: a program that counts instructions sees it called, and so where one case ends.
pub fn mark() {
    unsafe { measured_mark() }
}
