//! Notes, and what is done by them: writing and looking up.

use crate::refusal::written;
use crate::{ffi, Refusal, Within};
use std::fmt;

/// The notes of any message fit in this many bytes.
pub const NOTES_ROOM: usize = 1531;

pub(crate) const HEAD_SIZE: usize = 6;
pub(crate) const FIELD_SIZE: usize = 8;
pub(crate) const END_SIZE: usize = 5;

/// Notes made by hand, for a message whose contents lie somewhere in a buffer of values.
///
/// A note has one byte for a field's number, four for its offset and two for its length. A number that these cannot hold is refused
/// ([`TooLarge`]) and never cut to them. Nothing else is judged here: the writers and [`look_up`] refuse what is wrong.
///
/// ```
/// use obolchime::{write_clean, Notes};
///
/// // Processing code 0, and a terminal "T1" that is six bytes too short.
/// let values = b"0T1";
/// let notes = Notes::new(*b"0200", 1)?.field(3, 0, 1)?.field(41, 1, 2)?.end(12 + 6 + 8)?;
/// let mut out = [0; 26];
/// let cleaned = write_clean(values, &notes, &mut out)?;
/// assert_eq!(&out[12..], b"000000T1      ");
/// assert_eq!(cleaned.padded.iter().collect::<Vec<_>>(), [3, 41]);
/// # Ok::<(), Box<dyn std::error::Error>>(())
/// ```
#[derive(Clone, Debug, PartialEq, Eq)]
pub struct Notes(Vec<u8>);

impl Notes {
    /// The head: the MTI and the count of bitmaps, 1 to 3.
    pub fn new(mti: [u8; 4], bitmaps: usize) -> Result<Notes, TooLarge> {
        let bitmaps: u8 = NotePart::Bitmaps.fitted(bitmaps)?;
        let mut notes = vec![1];
        notes.extend(mti);
        notes.push(bitmaps);
        Ok(Notes(notes))
    }

    /// Notes a field: its number, and the place and length of its content in the values. Fields come in rising number. What does not fit
    /// is refused, and the notes stay as they were.
    ///
    /// ```
    /// use obolchime::Notes;
    ///
    /// let content = [b'1'; 65_542];
    /// let mut notes = Notes::new(*b"0200", 1)?;
    /// let refused = notes.field(48, 0, content.len()).unwrap_err();
    /// assert_eq!(refused.to_string(), "content length 65542 is too large for a note: at most 65535");
    /// # Ok::<(), obolchime::TooLarge>(())
    /// ```
    pub fn field(&mut self, number: usize, offset: usize, length: usize) -> Result<&mut Notes, TooLarge> {
        let number: u8 = NotePart::Number.fitted(number)?;
        let offset: u32 = NotePart::Offset.fitted(offset)?;
        let length: u16 = NotePart::Length.fitted(length)?;
        self.0.extend([2, number]);
        self.0.extend(offset.to_be_bytes());
        self.0.extend(length.to_be_bytes());
        Ok(self)
    }

    /// The notes so far, ended by the length of the message that is to be written, padding included.
    pub fn end(&self, length: usize) -> Result<Vec<u8>, TooLarge> {
        let length: u32 = NotePart::MessageLength.fitted(length)?;
        let mut notes = self.0.clone();
        notes.push(4);
        notes.extend(length.to_be_bytes());
        Ok(notes)
    }
}

/// A number that the bytes of a note cannot hold. It was not cut, and nothing was noted.
///
/// It is no [`Refusal`]: those are the library's answers, and this number did not reach it.
#[derive(Clone, Copy, Debug, PartialEq, Eq, Hash)]
pub struct TooLarge {
    part: NotePart,
    value: usize,
}

impl TooLarge {
    /// What the number was to be.
    pub fn part(&self) -> NotePart {
        self.part
    }

    /// The number that did not fit.
    pub fn value(&self) -> usize {
        self.value
    }
}

impl fmt::Display for TooLarge {
    fn fmt(&self, f: &mut fmt::Formatter<'_>) -> fmt::Result {
        write!(f, "{} {} is too large for a note: at most {}", self.part, self.value, self.part.most())
    }
}

impl std::error::Error for TooLarge {}

/// What a number in a note stands for.
#[derive(Clone, Copy, Debug, PartialEq, Eq, Hash)]
pub enum NotePart {
    /// The count of bitmaps, in the head: one byte.
    Bitmaps,
    /// A field's number: one byte.
    Number,
    /// Where a field's content starts in the values: four bytes.
    Offset,
    /// The length of a field's content: two bytes.
    Length,
    /// The length of the message, in the end note: four bytes.
    MessageLength,
}

impl NotePart {
    /// The largest number that a note holds there.
    pub fn most(self) -> usize {
        match self {
            NotePart::Bitmaps | NotePart::Number => 0xFF,
            NotePart::Length => 0xFFFF,
            NotePart::Offset | NotePart::MessageLength => 0xFFFF_FFFF,
        }
    }

    fn fitted<T: TryFrom<usize>>(self, value: usize) -> Result<T, TooLarge> {
        T::try_from(value).map_err(|_| TooLarge { part: self, value })
    }
}

impl fmt::Display for NotePart {
    fn fmt(&self, f: &mut fmt::Formatter<'_>) -> fmt::Result {
        f.write_str(match self {
            NotePart::Bitmaps => "bitmap count",
            NotePart::Number => "field number",
            NotePart::Offset => "content offset",
            NotePart::Length => "content length",
            NotePart::MessageLength => "message length",
        })
    }
}

/// Writes the message that notes and values stand for, to the byte, and answers its length. Bytes of `out` beyond it are left alone.
///
/// It refuses, in this order: the head (9, 3); field by field its note (9), its number (10), its place (11), its length (12), text over
/// 0x7F (8); then the end note (9, 13) and an output that is too short (14).
///
/// ```
/// use obolchime::{read, write_exact};
///
/// let message = read(b"0800\x20\0\0\0\0\0\0\x00000000")?;
/// let mut out = [0xFF; 20];
/// assert_eq!(write_exact(message.bytes(), message.notes(), &mut out)?, 18);
/// assert_eq!(&out, b"0800\x20\0\0\0\0\0\0\x00000000\xFF\xFF");
/// # Ok::<(), obolchime::Refusal>(())
/// ```
pub fn write_exact(values: &[u8], notes: &[u8], out: &mut [u8]) -> Result<usize, Refusal> {
    written(ffi::write_exact(values, notes, out), Within::Notes)
}

/// Writes the message with fixed contents that are too short padded: numeric ones with `0` on the left, binary ones with zero bytes on
/// the right, all others with spaces on the right. Nothing is cut. The answer names each field that was padded.
///
/// It refuses as [`write_exact`] does, a content that is too long with 12. See [`Notes`] for an example.
pub fn write_clean(values: &[u8], notes: &[u8], out: &mut [u8]) -> Result<Cleaned, Refusal> {
    let answer = ffi::write_clean(values, notes, out);
    Refusal::unless_zero(answer.number, answer.field, answer.position, Within::Notes)?;
    let padded = FieldSet([answer.padded1, answer.padded2, answer.padded3]);
    Ok(Cleaned { length: answer.length, padded })
}

/// Finds the content of a field, as a part of the values. The notes may come from anywhere: all of them are judged first.
///
/// It refuses, in this order: the head (9, 3); field by field its note (9), its number (10), its place (11); then the end note (9), and a
/// field that is absent (15).
///
/// ```
/// use obolchime::{look_up, Notes};
///
/// let notes = Notes::new(*b"0800", 1)?.field(3, 2, 6)?.end(18)?;
/// assert_eq!(look_up(b"::000000::", &notes, 3)?, b"000000");
///
/// let refusal = look_up(b"::000000::", &notes, 4).unwrap_err();
/// assert_eq!(refusal.to_string(), "field 4: field absent (15) at byte 14 of the notes");
/// # Ok::<(), Box<dyn std::error::Error>>(())
/// ```
pub fn look_up<'v>(values: &'v [u8], notes: &[u8], number: usize) -> Result<&'v [u8], Refusal> {
    let answer = ffi::look_up(values, notes, number);
    Refusal::unless_zero(answer.number, answer.field, answer.position, Within::Notes)?;
    Ok(&values[answer.offset..answer.offset + answer.length])
}

/// What [`write_clean`] answers.
#[derive(Clone, Copy, Debug, PartialEq, Eq)]
pub struct Cleaned {
    /// How many bytes were written.
    pub length: usize,
    /// The fields that were padded.
    pub padded: FieldSet,
}

/// A set of fields.
#[derive(Clone, Copy, PartialEq, Eq, Hash)]
pub struct FieldSet([u64; 3]);

impl FieldSet {
    /// Whether a field is in the set.
    pub fn contains(&self, number: usize) -> bool {
        (1..=192).contains(&number) && self.0[(number - 1) / 64] >> (63 - (number - 1) % 64) & 1 == 1
    }

    /// Whether no field is in the set.
    pub fn is_empty(&self) -> bool {
        self.0 == [0; 3]
    }

    /// The fields, in rising number.
    pub fn iter(&self) -> impl Iterator<Item = usize> + '_ {
        (1..=192).filter(|&number| self.contains(number))
    }

    /// The set as 24 bytes of bits that are placed as in the bitmaps.
    pub fn to_bytes(&self) -> [u8; 24] {
        let mut bytes = [0; 24];
        for (part, word) in bytes.chunks_exact_mut(8).zip(self.0) {
            part.copy_from_slice(&word.to_be_bytes());
        }
        bytes
    }
}

impl fmt::Debug for FieldSet {
    fn fmt(&self, f: &mut fmt::Formatter<'_>) -> fmt::Result {
        f.debug_set().entries(self.iter()).finish()
    }
}
