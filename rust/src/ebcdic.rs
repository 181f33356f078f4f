//! EBCDIC, byte by byte.

use crate::refusal::written;
use crate::{ffi, Refusal, Within};

/// ASCII text in EBCDIC. Refuses a byte over 0x7F (24).
///
/// ```
/// assert_eq!(obolchime::ebcdic::encode(b"A1")?, [0xC1, 0xF1]);
/// # Ok::<(), obolchime::Refusal>(())
/// ```
pub fn encode(text: &[u8]) -> Result<Vec<u8>, Refusal> {
    let mut out = vec![0; text.len()];
    let length = encode_into(text, &mut out)?;
    out.truncate(length);
    Ok(out)
}

/// As [`encode`], into a buffer: answers the length, or refuses with 14 where it does not fit.
pub fn encode_into(text: &[u8], out: &mut [u8]) -> Result<usize, Refusal> {
    written(ffi::ebcdic_encode(text, out), Within::Nothing)
}

/// EBCDIC text in ASCII. Refuses a byte that has no ASCII meaning (24).
///
/// ```
/// assert_eq!(obolchime::ebcdic::decode(&[0xC1, 0xF1])?, b"A1");
/// # Ok::<(), obolchime::Refusal>(())
/// ```
pub fn decode(source: &[u8]) -> Result<Vec<u8>, Refusal> {
    let mut out = vec![0; source.len()];
    let length = decode_into(source, &mut out)?;
    out.truncate(length);
    Ok(out)
}

/// As [`decode`], into a buffer: answers the length, or refuses with 14 where it does not fit.
pub fn decode_into(source: &[u8], out: &mut [u8]) -> Result<usize, Refusal> {
    written(ffi::ebcdic_decode(source, out), Within::Nothing)
}
