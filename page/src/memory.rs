//! How the page's script hands bytes over: `room` gives a buffer, `ask` answers
//! what is in it. Both ways a message is the length of an object (32 bits, the low
//! byte first), the object, and the bytes of a file.

use std::cell::RefCell;

use serde_json::{json, Value};

thread_local! {
    static MESSAGE: RefCell<Vec<u8>> = const { RefCell::new(Vec::new()) };
}

/// A buffer of that many bytes for the question. It is the script's until the next call.
#[no_mangle]
extern "C" fn room(length: usize) -> *mut u8 {
    MESSAGE.with_borrow_mut(|message| {
        message.clear();
        message.resize(length, 0);
        message.as_mut_ptr()
    })
}

/// Answers the question in the buffer: where the answer begins. `answered` has its length.
#[no_mangle]
extern "C" fn ask() -> *const u8 {
    MESSAGE.with_borrow_mut(|message| {
        *message = packed(match parts(message) {
            Some((question, file)) => crate::answer(&question, file),
            None => (json!({ "error": { "text": "this is no question" } }), Vec::new()),
        });
        message.as_ptr()
    })
}

/// The length of the answer.
#[no_mangle]
extern "C" fn answered() -> usize {
    MESSAGE.with_borrow(Vec::len)
}

fn parts(message: &[u8]) -> Option<(Value, &[u8])> {
    let (length, rest) = message.split_first_chunk::<4>()?;
    let (object, file) = rest.split_at_checked(u32::from_le_bytes(*length) as usize)?;
    Some((serde_json::from_slice(object).ok()?, file))
}

fn packed((object, file): (Value, Vec<u8>)) -> Vec<u8> {
    let object = object.to_string();
    let length = u32::try_from(object.len()).unwrap_or_default().to_le_bytes();
    [&length[..], object.as_bytes(), &file].concat()
}
