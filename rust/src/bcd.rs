//! BCD: two digits to a byte, with a leading 0 where their count is odd.

use crate::refusal::written;
use crate::{ffi, Refusal, Within};

/// ASCII digits in BCD. Refuses a byte that is no digit (21).
///
/// ```
/// use obolchime::bcd;
///
/// assert_eq!(bcd::encode(b"123")?, [0x01, 0x23]);
/// assert_eq!(bcd::encode(b"12a").unwrap_err().to_string(), "not digits (21)");
/// # Ok::<(), obolchime::Refusal>(())
/// ```
pub fn encode(digits: &[u8]) -> Result<Vec<u8>, Refusal> {
    let mut out = vec![0; digits.len() / 2 + digits.len() % 2];
    let length = encode_into(digits, &mut out)?;
    out.truncate(length);
    Ok(out)
}

/// As [`encode`], into a buffer: answers the length, or refuses with 14 where it does not fit.
pub fn encode_into(digits: &[u8], out: &mut [u8]) -> Result<usize, Refusal> {
    written(ffi::bcd_encode(digits, out), Within::Nothing)
}

/// So many ASCII digits from BCD. Refuses a source that is not half as many bytes long, rounded up (23), and a half-byte over 9 or a
/// spare leading digit that is not 0 (22).
///
/// ```
/// use obolchime::bcd;
///
/// assert_eq!(bcd::decode(&[0x01, 0x23], 3)?, b"123");
/// assert_eq!(bcd::decode(&[0x01, 0x23], 5).unwrap_err().number(), 23);
/// # Ok::<(), obolchime::Refusal>(())
/// ```
pub fn decode(source: &[u8], digits: usize) -> Result<Vec<u8>, Refusal> {
    // More digits than the source has are refused, so they need no room.
    let mut out = vec![0; digits.min(2 * source.len())];
    let length = decode_into(source, digits, &mut out)?;
    out.truncate(length);
    Ok(out)
}

/// As [`decode`], into a buffer: answers the length, or refuses with 14 where it does not fit.
pub fn decode_into(source: &[u8], digits: usize, out: &mut [u8]) -> Result<usize, Refusal> {
    written(ffi::bcd_decode(source, digits, out), Within::Nothing)
}
