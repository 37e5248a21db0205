//! UUIDs: sixteen bytes, written in the 8-4-4-4-12 form. Nil, sixteen zeros,
//! represents nobody.

use core::error::Error;
use core::fmt;
use core::str::FromStr;

use crate::text::pad;

/// A UUID, nil included.
///
/// ```
/// use tillerclover::Uuid;
///
/// let uuid: Uuid = "5b0d3a64-9c21-4e7f-8a15-3de290c74618".parse()?;
/// assert_eq!(uuid, "5B0D3A649C214E7F8A153DE290C74618".parse()?);
/// assert_eq!(uuid.to_string(), "5b0d3a64-9c21-4e7f-8a15-3de290c74618");
/// assert!(!uuid.is_nil());
/// assert!("5b0d".parse::<Uuid>().is_err());
/// # Ok::<(), tillerclover::UuidError>(())
/// ```
#[repr(transparent)]
#[derive(Clone, Copy, Debug, Default, PartialEq, Eq, PartialOrd, Ord, Hash)]
pub struct Uuid(pub [u8; 16]);

impl Uuid {
    /// Nobody.
    pub const NIL: Uuid = Uuid([0; 16]);

    /// Whether it is nil.
    pub fn is_nil(self) -> bool {
        self == Uuid::NIL
    }
}

/// A text that is no UUID.
#[derive(Clone, Copy, Debug, PartialEq, Eq)]
pub struct UuidError;

impl fmt::Display for UuidError {
    fn fmt(&self, f: &mut fmt::Formatter) -> fmt::Result {
        f.write_str("a UUID has 32 hexadecimal digits, as 5b0d3a64-9c21-4e7f-8a15-3de290c74618")
    }
}

impl Error for UuidError {}

impl FromStr for Uuid {
    type Err = UuidError;

    fn from_str(text: &str) -> Result<Uuid, UuidError> {
        let whole = text.len() == 32;
        let formed = text.len() == 36 && [8, 13, 18, 23].iter().all(|&place| text.as_bytes()[place] == b'-');
        let digits = text.bytes().enumerate().filter(|(place, _)| whole || ![8, 13, 18, 23].contains(place));
        let number = digits
            .map(|(_, digit)| char::from(digit).to_digit(16))
            .try_fold(0u128, |number, digit| Some(number << 4 | u128::from(digit?)));
        number.filter(|_| whole || formed).map(|number| Uuid(number.to_be_bytes())).ok_or(UuidError)
    }
}

impl fmt::Display for Uuid {
    fn fmt(&self, f: &mut fmt::Formatter) -> fmt::Result {
        let number = u128::from_be_bytes(self.0);
        let [a, b, c, d] = [(96, u32::MAX as u128), (80, 0xffff), (64, 0xffff), (48, 0xffff)]
            .map(|(shift, mask)| number >> shift & mask);
        let e = number & 0xffff_ffff_ffff;
        pad(f, format_args!("{a:08x}-{b:04x}-{c:04x}-{d:04x}-{e:012x}"))
    }
}
