//! The packed link: messages for a bank that talks packed, and from it.

use crate::{ffi, number, Refusal, Within};

/// What [`pack`] and [`unpack`] answer: how far they read and how far they wrote.
#[derive(Clone, Copy, Debug, PartialEq, Eq, Hash)]
pub struct Translated {
    /// How many bytes of the input the message takes. What follows it was ignored.
    pub used: usize,
    /// How many bytes were written, to the front of the output.
    pub written: usize,
}

/// Writes the plain message at the front of the input in packed form: MTI in two BCD bytes, bitmaps as they are, LL in one BCD byte and
/// LLL in two, contents of class n in BCD with a leading zero half-byte where their digits are odd, all others as they are. In both
/// forms a length counts the digits of a content of class n, and the bytes of any other. As much room as the message takes is enough, since
/// no packed form is longer.
///
/// It refuses as [`read`](crate::read) does, but for a content of class n that is not digits (21, and not 8), and at last an output that is
/// too short (14). A refusal leaves the output as it was, and nothing behind what is written is touched.
///
/// ```
/// use obolchime::{pack, Translated};
///
/// let mut out = [0xEE; 14];
/// let done = pack(b"0800\x20\0\0\0\0\0\0\x00123456 and what comes after it", &mut out)?;
/// assert_eq!(done, Translated { used: 18, written: 13 });
/// assert_eq!(out, *b"\x08\x00\x20\0\0\0\0\0\0\0\x12\x34\x56\xEE");
///
/// let refusal = pack(b"0800\x20\0\0\0\0\0\0\x0012345x", &mut out).unwrap_err();
/// assert_eq!(refusal.to_string(), "field 3: not digits (21) at byte 12");
/// # Ok::<(), obolchime::Refusal>(())
/// ```
pub fn pack(plain: &[u8], out: &mut [u8]) -> Result<Translated, Refusal> {
    translated(ffi::pack(plain, out))
}

/// Writes the packed message at the front of the input in plain form. Twice as many bytes as it takes are room enough. What [`pack`] wrote
/// comes back as it was before, and what this writes is packed to the same bytes again.
///
/// It refuses, in this order: an input under 10 bytes (2), an MTI with a half-byte over 9 (22), an incomplete second or third bitmap (4);
/// then field by field what runs past the end (5), a length that is no BCD (22), a length over the table's (7), a content of class n that is
/// no BCD (22), text over 0x7F (8); at last an output that is too short (14). A spare half-byte that is not 0 is no BCD. Positions are in the
/// packed input. A refusal leaves the output as it was, and nothing behind what is written is touched.
///
/// ```
/// use obolchime::{unpack, Translated};
///
/// let mut out = [0; 18];
/// let done = unpack(b"\x08\x00\x20\0\0\0\0\0\0\0\x12\x34\x56", &mut out)?;
/// assert_eq!(done, Translated { used: 13, written: 18 });
/// assert_eq!(out, *b"0800\x20\0\0\0\0\0\0\x00123456");
///
/// let refusal = unpack(b"\x08\x00\x20\0\0\0\0\0\0\0\x12\x34\x5F", &mut out).unwrap_err();
/// assert_eq!(refusal.to_string(), "field 3: BCD half-byte over 9, or spare leading digit not 0 (22) at byte 10");
/// # Ok::<(), obolchime::Refusal>(())
/// ```
pub fn unpack(packed: &[u8], out: &mut [u8]) -> Result<Translated, Refusal> {
    translated(ffi::unpack(packed, out))
}

fn translated(answer: ffi::Translated) -> Result<Translated, Refusal> {
    // 2 and 14 are about a buffer as a whole: their position is 0 and no place.
    let within = match u8::try_from(answer.number) {
        Ok(number::MESSAGE_TOO_SHORT | number::OUTPUT_TOO_SHORT) => Within::Nothing,
        _ => Within::Message,
    };
    Refusal::unless_zero(answer.number, answer.field, answer.position, within)?;
    Ok(Translated { used: answer.used, written: answer.written })
}
