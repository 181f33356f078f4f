//! Checks of contents. A check that fails is a [`Refusal`].

use crate::{ffi, number, Refusal, Within};

fn judged(answer: ffi::Checked, within: Within) -> Result<(), Refusal> {
    Refusal::unless_zero(answer.number, answer.field, answer.position, within)
}

/// Whether a content may stand in a field: its number (10), its class (16), its length (12); then the PAN for field 2 (17), and no
/// amount of zeros for fields 4 and 5 (18).
///
/// ```
/// use obolchime::check;
///
/// assert!(check::field(4, b"000000012345").is_ok());
/// assert_eq!(check::field(4, b"000000000000").unwrap_err().to_string(), "field 4: amount all zeros (18)");
/// assert_eq!(check::field(4, b"12345").unwrap_err().to_string(), "field 4: length not allowed (12)");
/// assert_eq!(check::field(4, b"123.45").unwrap_err().to_string(), "field 4: class broken (16)");
/// ```
pub fn field(number: usize, content: &[u8]) -> Result<(), Refusal> {
    judged(ffi::check_field(number, content), Within::Nothing)
}

/// Whether the notes name every field that their MTI requires: 3, 11, 12, 13; then 2 and 4 where its second digit is 1 or 2 and its
/// third 0; then 39 where its third is 1. Else 19, with the first field that is missing. Wrong notes are refused as by
/// [`look_up`](crate::look_up).
///
/// ```
/// use obolchime::{check, Notes};
///
/// let notes = Notes::new(*b"0800", 1)?.field(3, 0, 6)?.field(12, 0, 6)?.end(24)?;
/// let refusal = check::required(b"000000", &notes).unwrap_err();
/// assert_eq!(refusal.to_string(), "field 11: required field missing (19)");
/// # Ok::<(), obolchime::TooLarge>(())
/// ```
pub fn required(values: &[u8], notes: &[u8]) -> Result<(), Refusal> {
    let answer = ffi::check_required(values, notes);
    // A field that is missing has no place; what is wrong with the notes has one.
    let missing = answer.number == u64::from(number::REQUIRED_MISSING);
    judged(answer, if missing { Within::Nothing } else { Within::Notes })
}

/// Whether a content is a PAN: of the digits in it, whatever stands between them, there are 12 to 19, and Luhn's sum is a multiple of
/// 10. Else 17.
///
/// ```
/// use obolchime::check;
///
/// assert!(check::pan(b"4111 1111 1111 1111").is_ok());
/// assert!(check::pan(b"501234567896").is_ok());
/// assert_eq!(check::pan(b"4111111111111112").unwrap_err().to_string(), "PAN check fails (17)");
/// ```
pub fn pan(content: &[u8]) -> Result<(), Refusal> {
    judged(ffi::check_pan(content), Within::Nothing)
}

/// Whether a content is a date, MMDD: four digits, month 1 to 12, day 1 to 31. Else 20.
///
/// ```
/// use obolchime::check;
///
/// assert!(check::date(b"1231").is_ok());
/// assert_eq!(check::date(b"1331").unwrap_err().number(), 20);
/// ```
pub fn date(content: &[u8]) -> Result<(), Refusal> {
    judged(ffi::check_date(content), Within::Nothing)
}

/// Whether a content is a time, hhmmss: six digits, 0 to 23, 0 to 59, 0 to 59. Else 20.
///
/// ```
/// use obolchime::check;
///
/// assert!(check::time(b"235959").is_ok());
/// assert_eq!(check::time(b"+10000").unwrap_err().number(), 20);
/// ```
pub fn time(content: &[u8]) -> Result<(), Refusal> {
    judged(ffi::check_time(content), Within::Nothing)
}
