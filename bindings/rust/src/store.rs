//! A store that a power cut cannot break: the functions of include/tillerclover_store.h over slices, and the loop
//! that a program would write around them. docs/STORE.md says what is promised, and of what memory.
//!
//! A store for images of n bytes has [`length`]`(n)` bytes: two images and [`MARKS`] marks. One image is current;
//! a new one is written over the other, and one mark puts it in force.
//!
//! ```
//! use tillerclover::store::{current, length, put};
//!
//! // What the device holds, read when the power comes on: here new memory.
//! let mut device = vec![0xff; length(4)];
//! let mut copy = device.clone();
//! let writes = put(&mut copy, b"tare", |place, byte| {
//!     device[place] = byte;
//!     Ok::<u8, std::io::Error>(device[place])
//! })?;
//! assert_eq!((writes, current(&device, 4)), (5, Some(&b"tare"[..])));
//! # Ok::<(), tillerclover::store::Error<std::io::Error>>(())
//! ```

use core::fmt;

/// The bytes after the two images.
pub const MARKS: usize = 8;

/// The bytes of a store for images of n bytes.
#[inline]
#[must_use]
pub const fn length(n: usize) -> usize {
    2 * n + MARKS
}

/// What to do next to store an image.
#[derive(Clone, Copy, Debug, PartialEq, Eq)]
pub enum Step {
    /// The byte is to be written at the place.
    Write {
        /// The place in the store.
        place: usize,
        /// The byte.
        byte: u8,
    },
    /// The image is the current one.
    Done,
    /// The store's length is not [`length`] of the image's.
    Unfit,
}

/// Why an image is not stored. The image from before is still the current one, or the new one is.
#[derive(Debug)]
pub enum Error<E> {
    /// The store's length is not [`length`] of the image's. Nothing was written.
    Unfit,
    /// A cell does not keep what is written to it: this many writes did not do.
    Worn(usize),
    /// The device failed.
    Device(E),
}

impl<E: fmt::Display> fmt::Display for Error<E> {
    fn fmt(&self, text: &mut fmt::Formatter) -> fmt::Result {
        match self {
            Error::Unfit => write!(text, "the store is not one for an image of this length"),
            Error::Worn(writes) => write!(text, "the memory is worn: the image is not stored after {writes} writes"),
            Error::Device(fault) => write!(text, "the image cannot be stored: {fault}"),
        }
    }
}

impl<E: core::error::Error + 'static> core::error::Error for Error<E> {
    fn source(&self) -> Option<&(dyn core::error::Error + 'static)> {
        match self {
            Error::Device(fault) => Some(fault),
            _ => None,
        }
    }
}

const DONE: u64 = 0;
const WRITE: u64 = 1;

const _: () = assert!(size_of::<usize>() <= size_of::<u64>());

extern "C" {
    fn tillerclover_store_next(
        store: *const u8,
        store_length: u64,
        image: *const u8,
        image_length: u64,
        from: u64,
        place: *mut u64,
        byte: *mut u8,
    ) -> u64;
    fn tillerclover_store_current(store: *const u8, store_length: u64, n: u64, place: *mut u64) -> u64;
}

// The library takes any bytes, keeps no pointer and reads within only the lengths. Each pointer and length below is that
// of a living slice, and what is written to is a local of the call.

/// What to do next to store an image, where `store` is what the device holds. `from` is 0 at the start, and then the
/// place after the last write.
#[inline]
#[must_use]
pub fn next(store: &[u8], image: &[u8], from: usize) -> Step {
    let (mut place, mut byte) = (0, 0);
    let answer = unsafe {
        tillerclover_store_next(
            store.as_ptr(),
            store.len() as u64,
            image.as_ptr(),
            image.len() as u64,
            from as u64,
            &mut place,
            &mut byte,
        )
    };
    match answer {
        DONE => Step::Done,
        WRITE => Step::Write { place: place as usize, byte },
        _ => Step::Unfit,
    }
}

/// The current image, of n bytes; none, if the store is not one for such images.
#[inline]
#[must_use]
pub fn current(store: &[u8], n: usize) -> Option<&[u8]> {
    let mut place = 0;
    let answer = unsafe { tillerclover_store_current(store.as_ptr(), store.len() as u64, n as u64, &mut place) };
    (answer == DONE).then(|| &store[place as usize..][..n])
}

/// Stores an image: `write` writes a byte to the device and reads it back. `store` is the copy of what the device holds.
/// How many bytes were written.
///
/// # Errors
///
/// [`Error::Unfit`] before anything is written; [`Error::Worn`] where n + 1 writes did not do; [`Error::Device`] with what
/// `write` gave.
pub fn put<E>(
    store: &mut [u8],
    image: &[u8],
    mut write: impl FnMut(usize, u8) -> Result<u8, E>,
) -> Result<usize, Error<E>> {
    let (mut from, mut writes) = (0, 0);
    loop {
        match next(store, image, from) {
            Step::Done => return Ok(writes),
            Step::Unfit => return Err(Error::Unfit),
            Step::Write { .. } if writes > image.len() => return Err(Error::Worn(writes)),
            Step::Write { place, byte } => {
                store[place] = write(place, byte).map_err(Error::Device)?;
                from = place + 1;
                writes += 1;
            }
        }
    }
}
