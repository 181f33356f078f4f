//! Why a call was refused.

use crate::ffi;
use std::fmt;

/// Why a call was refused: a number, the field that it is about, and a position.
///
/// ```
/// let refusal = obolchime::read(b"0800\x40\0\0\0\0\0\0\x0020").unwrap_err();
/// assert_eq!(refusal.to_string(), "field 2: length over the table's (7) at byte 12");
/// assert_eq!((refusal.number(), refusal.field(), refusal.position()), (7, 2, 12));
/// ```
#[derive(Clone, Copy, PartialEq, Eq, Hash)]
pub struct Refusal {
    number: u8,
    field: usize,
    position: usize,
    within: Within,
}

/// What the position of a [`Refusal`] counts in.
#[derive(Clone, Copy, Debug, PartialEq, Eq, Hash)]
pub enum Within {
    /// The message: the position is a byte of it.
    Message,
    /// The notes: the position is where the note starts, or where it should start.
    Notes,
    /// Nothing: the position is 0.
    Nothing,
}

impl Refusal {
    /// `Ok` where the number is 0, else the refusal.
    pub(crate) fn unless_zero(number: u64, field: usize, position: usize, within: Within) -> Result<(), Refusal> {
        if number == 0 {
            return Ok(());
        }
        let number = u8::try_from(number).expect("the library's refusals are numbered 1 to 25");
        Err(Refusal { number, field, position, within })
    }

    /// The refusal's number, one of the constants in [`number`](crate::number).
    pub fn number(&self) -> u8 {
        self.number
    }

    /// The field that the refusal is about; 0 if none.
    pub fn field(&self) -> usize {
        self.field
    }

    /// Where it is; 0 where there is no place. [`within`](Refusal::within) says what it counts in.
    pub fn position(&self) -> usize {
        self.position
    }

    /// What the position counts in.
    pub fn within(&self) -> Within {
        self.within
    }

    /// The number in plain words, such as `length over the table's`.
    pub fn reason(&self) -> &'static str {
        number::reason(self.number)
    }
}

/// The length that a writer or a conversion wrote, or its refusal.
pub(crate) fn written(answer: ffi::Written, within: Within) -> Result<usize, Refusal> {
    Refusal::unless_zero(answer.number, answer.field, answer.position, within)?;
    Ok(answer.length)
}

impl fmt::Display for Refusal {
    fn fmt(&self, f: &mut fmt::Formatter<'_>) -> fmt::Result {
        // A number that is not allowed is told as it stands, 0 too.
        if self.field != 0 || self.number == number::NUMBER_NOT_ALLOWED {
            write!(f, "field {}: ", self.field)?;
        }
        write!(f, "{} ({})", self.reason(), self.number)?;
        match self.within {
            Within::Message => write!(f, " at byte {}", self.position),
            Within::Notes => write!(f, " at byte {} of the notes", self.position),
            Within::Nothing => Ok(()),
        }
    }
}

impl fmt::Debug for Refusal {
    fn fmt(&self, f: &mut fmt::Formatter<'_>) -> fmt::Result {
        write!(f, "Refusal({self})")
    }
}

impl std::error::Error for Refusal {}

macro_rules! numbers {
    ($($name:ident = $number:literal, $reason:literal;)*) => {
        /// The numbers of refusals, by name.
        pub mod number {
            $(#[doc = concat!("Refusal ", $number, ": ", $reason, ".")] pub const $name: u8 = $number;)*

            /// A number in plain words.
            pub fn reason(number: u8) -> &'static str {
                match number {
                    $($name => $reason,)*
                    _ => "no such refusal",
                }
            }
        }
    };
}

numbers! {
    NOTES_TOO_SHORT = 1, "notes buffer under 1,531 bytes";
    MESSAGE_TOO_SHORT = 2, "message too short";
    MTI_NOT_DIGITS = 3, "MTI has a non-digit";
    BITMAP_INCOMPLETE = 4, "second or third bitmap incomplete";
    PAST_THE_END = 5, "length digits or content run past the end";
    LENGTH_NOT_DIGITS = 6, "a length byte is not 0-9";
    LENGTH_OVER_TABLE = 7, "length over the table's";
    TEXT_NOT_ASCII = 8, "text byte over 0x7F";
    NOTE_MALFORMED = 9, "note missing, cut or of the wrong kind, or count of bitmaps not 1-3";
    NUMBER_NOT_ALLOWED = 10, "field number not allowed here";
    OUTSIDE_VALUES = 11, "content outside the values";
    LENGTH_NOT_ALLOWED = 12, "length not allowed";
    END_DIFFERS = 13, "end note differs from the length to be written";
    OUTPUT_TOO_SHORT = 14, "output too short";
    FIELD_ABSENT = 15, "field absent";
    CLASS_BROKEN = 16, "class broken";
    PAN_FAILS = 17, "PAN check fails";
    AMOUNT_ZERO = 18, "amount all zeros";
    REQUIRED_MISSING = 19, "required field missing";
    DATE_OR_TIME_WRONG = 20, "date or time wrong";
    NOT_DIGITS = 21, "not digits";
    NOT_BCD = 22, "BCD half-byte over 9, or spare leading digit not 0";
    BYTE_COUNT_WRONG = 23, "byte count wrong for the digits asked";
    NO_ASCII_MEANING = 24, "byte has no ASCII meaning";
    LENGTH_NEEDS_DIGITS = 25, "length needs more digits than given, or these are not 2 or 3";
}
