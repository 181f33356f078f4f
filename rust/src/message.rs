//! Reading.

use crate::notes::{look_up, write_exact, END_SIZE, FIELD_SIZE, HEAD_SIZE, NOTES_ROOM};
use crate::{check, ffi, Refusal, Within};
use std::fmt;

/// A message that was read. It keeps the bytes that it was read from, unchanged, and notes of where each content is.
///
/// `{:?}` prints its MTI, its size and its fields, each as a [`Field`] is: card data is masked.
#[derive(Clone)]
pub struct Message<'a> {
    input: &'a [u8],
    notes: [u8; NOTES_ROOM],
    fields: usize,
    used: usize,
    bitmaps: usize,
}

/// One field of a message.
///
/// `{:?}` prints its content as text, with what is no plain ASCII escaped; but of the fields that hold card data, a PIN or a MAC (2, 14, 34,
/// 35, 36, 45, 52, 55, 64, 128) only the length, so that a log does not keep them. What a house puts into other fields is printed.
///
/// ```
/// let message = obolchime::read(b"0200\x60\0\0\0\0\0\0\x00164111111111111111000000")?;
/// let shown: Vec<String> = message.fields().map(|field| format!("{field:?}")).collect();
/// assert_eq!(shown[0], "Field { number: 2, offset: 14, content: **** (16 bytes) }");
/// assert_eq!(shown[1], "Field { number: 3, offset: 30, content: \"000000\" }");
/// # Ok::<(), obolchime::Refusal>(())
/// ```
#[derive(Clone, Copy, PartialEq, Eq)]
pub struct Field<'a> {
    /// The field's number, 2 to 192.
    pub number: usize,
    /// Where its content starts in the message.
    pub offset: usize,
    /// Its content, without length digits.
    pub content: &'a [u8],
}

/// Reads the message at the front of the input. Bytes after it are ignored: [`Message::used`] says where it ends.
///
/// It refuses, in this order: a message under 12 bytes (2), an MTI with a non-digit (3), an incomplete second or third bitmap (4); then
/// field by field what runs past the end (5), a length byte that is no digit (6), a length over the table's (7), text over 0x7F (8).
///
/// ```
/// let message = obolchime::read(b"0800\x20\0\0\0\0\0\0\x00000000")?;
/// assert_eq!((message.mti(), message.bitmaps(), message.used()), ("0800", 1, 18));
/// let field = message.fields().next().unwrap();
/// assert_eq!((field.number, field.offset, field.content), (3, 12, &b"000000"[..]));
///
/// let refusal = obolchime::read(b"0800\x40\0\0\0\0\0\0\0+512345").unwrap_err();
/// assert_eq!(refusal.to_string(), "field 2: a length byte is not 0-9 (6) at byte 12");
/// # Ok::<(), obolchime::Refusal>(())
/// ```
pub fn read(input: &[u8]) -> Result<Message<'_>, Refusal> {
    let mut notes = [0; NOTES_ROOM];
    let answer = ffi::read(input, &mut notes);
    // 2 is about the message as a whole: its position is 0 and no place.
    let within = if answer.number <= 2 { Within::Nothing } else { Within::Message };
    Refusal::unless_zero(answer.number, answer.field, answer.position, within)?;
    let fields = notes[HEAD_SIZE..].chunks_exact(FIELD_SIZE).take_while(|note| note[0] == 2).count();
    Ok(Message { input, notes, fields, used: answer.used, bitmaps: answer.bitmaps })
}

impl<'a> Message<'a> {
    /// The message type indicator, four digits.
    pub fn mti(&self) -> &'a str {
        std::str::from_utf8(&self.input[..4]).expect("a message is read only if its MTI is digits")
    }

    /// How many bitmaps the message has: 1 to 3.
    pub fn bitmaps(&self) -> usize {
        self.bitmaps
    }

    /// How many bytes of the input the message takes.
    pub fn used(&self) -> usize {
        self.used
    }

    /// The bytes of the message.
    pub fn bytes(&self) -> &'a [u8] {
        &self.input[..self.used]
    }

    /// What comes after the message in the input.
    pub fn rest(&self) -> &'a [u8] {
        &self.input[self.used..]
    }

    /// The fields, in rising number.
    pub fn fields(&self) -> Fields<'_, 'a> {
        Fields { input: self.input, notes: &self.notes[HEAD_SIZE..HEAD_SIZE + FIELD_SIZE * self.fields] }
    }

    /// The content of a field, or `None` where the message does not have it.
    ///
    /// ```
    /// let message = obolchime::read(b"0800\x20\0\0\0\0\0\0\x00000000")?;
    /// assert_eq!(message.get(3), Some(&b"000000"[..]));
    /// assert_eq!(message.get(39), None);
    /// # Ok::<(), obolchime::Refusal>(())
    /// ```
    pub fn get(&self, number: usize) -> Option<&'a [u8]> {
        // The reader's own notes are refused for nothing but an absent field.
        look_up(self.input, &self.notes, number).ok()
    }

    /// The notes, up to their end note: what [`write_exact`], [`write_clean`](crate::write_clean) and [`look_up`] take
    /// beside the message.
    pub fn notes(&self) -> &[u8] {
        &self.notes[..HEAD_SIZE + FIELD_SIZE * self.fields + END_SIZE]
    }

    /// Checks that the message has the fields that its MTI requires ([`check::required`]), and then each field in rising number
    /// ([`check::field`]).
    ///
    /// ```
    /// let message = obolchime::read(b"0800\x20\0\0\0\0\0\0\x00000000")?;
    /// assert_eq!(message.check().unwrap_err().to_string(), "field 11: required field missing (19)");
    /// # Ok::<(), obolchime::Refusal>(())
    /// ```
    pub fn check(&self) -> Result<(), Refusal> {
        check::required(self.input, &self.notes)?;
        self.fields().try_for_each(|field| check::field(field.number, field.content))
    }

    /// The message written anew from its notes. That these are the bytes that were read is a theorem of the library.
    ///
    /// ```
    /// let message = obolchime::read(b"0800\x20\0\0\0\0\0\0\x00000000 and more")?;
    /// assert_eq!(message.to_vec()?, message.bytes());
    /// # Ok::<(), obolchime::Refusal>(())
    /// ```
    pub fn to_vec(&self) -> Result<Vec<u8>, Refusal> {
        let mut out = vec![0; self.used];
        let length = write_exact(self.input, &self.notes, &mut out)?;
        out.truncate(length);
        Ok(out)
    }
}

impl fmt::Debug for Message<'_> {
    fn fmt(&self, f: &mut fmt::Formatter<'_>) -> fmt::Result {
        f.debug_struct("Message")
            .field("mti", &self.mti())
            .field("bitmaps", &self.bitmaps)
            .field("used", &self.used)
            .field("fields", &self.fields())
            .finish()
    }
}

// The fields whose contents `{:?}` masks: PAN, its expiry, the extended PAN, the tracks, the PIN, chip data, the MACs.
const MASKED: [usize; 10] = [2, 14, 34, 35, 36, 45, 52, 55, 64, 128];

impl fmt::Debug for Field<'_> {
    fn fmt(&self, f: &mut fmt::Formatter<'_>) -> fmt::Result {
        let mut shown = f.debug_struct("Field");
        shown.field("number", &self.number).field("offset", &self.offset);
        if MASKED.contains(&self.number) {
            shown.field("content", &format_args!("**** ({} bytes)", self.content.len())).finish()
        } else {
            shown.field("content", &format_args!("\"{}\"", self.content.escape_ascii())).finish()
        }
    }
}

/// The fields of a message, in rising number. `{:?}` prints those that are left, each as a [`Field`] is.
#[derive(Clone)]
pub struct Fields<'m, 'a> {
    input: &'a [u8],
    notes: &'m [u8],
}

impl<'a> Iterator for Fields<'_, 'a> {
    type Item = Field<'a>;

    fn next(&mut self) -> Option<Field<'a>> {
        // A field's note: its kind, its number, four bytes of offset, two of length.
        let &[_, number, a, b, c, d, e, f, ref rest @ ..] = self.notes else {
            return None;
        };
        self.notes = rest;
        let offset = usize::from_be_bytes([0, 0, 0, 0, a, b, c, d]);
        let length = usize::from(u16::from_be_bytes([e, f]));
        Some(Field { number: usize::from(number), offset, content: &self.input[offset..offset + length] })
    }

    fn size_hint(&self) -> (usize, Option<usize>) {
        let left = self.notes.len() / FIELD_SIZE;
        (left, Some(left))
    }
}

impl ExactSizeIterator for Fields<'_, '_> {}

impl fmt::Debug for Fields<'_, '_> {
    fn fmt(&self, f: &mut fmt::Formatter<'_>) -> fmt::Result {
        f.debug_list().entries(self.clone()).finish()
    }
}
