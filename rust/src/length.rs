//! Length indicators: a length in two or three digits.

use crate::refusal::written;
use crate::{ffi, Refusal, Within};

/// How the digits of a length indicator are written.
#[derive(Clone, Copy, Debug, PartialEq, Eq, Hash)]
pub enum Encoding {
    /// A byte for each digit.
    Ascii,
    /// Two digits to a byte, with a leading 0 before three.
    Bcd,
    /// A byte for each digit.
    Ebcdic,
}

impl Encoding {
    fn number(self) -> u64 {
        match self {
            Encoding::Ascii => 0,
            Encoding::Bcd => 1,
            Encoding::Ebcdic => 2,
        }
    }
}

/// A length in two or three digits. Refuses any other count of digits, and a length that needs more (25).
///
/// ```
/// use obolchime::length::{self, Encoding};
///
/// assert_eq!(length::encode(17, 2, Encoding::Ascii)?, b"17");
/// assert_eq!(length::encode(123, 3, Encoding::Bcd)?, [0x01, 0x23]);
/// assert_eq!(length::encode(100, 2, Encoding::Ascii).unwrap_err().number(), 25);
/// # Ok::<(), obolchime::Refusal>(())
/// ```
pub fn encode(length: usize, digits: usize, encoding: Encoding) -> Result<Vec<u8>, Refusal> {
    let mut out = vec![0; 3];
    let written = encode_into(length, digits, encoding, &mut out)?;
    out.truncate(written);
    Ok(out)
}

/// As [`encode`], into a buffer: answers the length of the indicator, or refuses with 14 where it does not fit.
pub fn encode_into(length: usize, digits: usize, encoding: Encoding, out: &mut [u8]) -> Result<usize, Refusal> {
    written(ffi::length_encode(length, digits, encoding.number(), out), Within::Nothing)
}

/// The length that an indicator spells. Refuses a count of digits that is not two or three (25), a source that has not the bytes for
/// them (23), bytes that are no text of the encoding (22 for BCD, else 24), and text that is no digit (6).
///
/// ```
/// use obolchime::length::{self, Encoding};
///
/// assert_eq!(length::decode(b"017", 3, Encoding::Ascii)?, 17);
/// assert_eq!(length::decode(b"+7", 2, Encoding::Ascii).unwrap_err().to_string(), "a length byte is not 0-9 (6)");
/// # Ok::<(), obolchime::Refusal>(())
/// ```
pub fn decode(source: &[u8], digits: usize, encoding: Encoding) -> Result<usize, Refusal> {
    let answer = ffi::length_decode(source, digits, encoding.number());
    Refusal::unless_zero(answer.number, answer.field, answer.position, Within::Nothing)?;
    Ok(answer.value)
}
