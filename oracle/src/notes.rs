//! Notes as bytes: document 01, "Notes".
use crate::case::Contents;

/// What the reader asks for.
pub const ROOM: usize = 1531;

/// A number that was cut to a note's bytes would ask about another content than the one compared.
const FITS: &str = "an input whose numbers fit in notes";

/// Values and notes for the contents, with the least count of bitmaps that holds them and the given length in the end note.
pub fn of(contents: &Contents, length: usize) -> (Vec<u8>, Vec<u8>) {
    let count = contents.fields.iter().map(|(f, _)| (f - 1) / 64 + 1).max().unwrap_or(1);
    let mut values = Vec::new();
    let mut notes = vec![0x01];
    notes.extend(contents.mti);
    notes.push(count);
    for (f, content) in &contents.fields {
        notes.extend([0x02, *f]);
        notes.extend(u32::try_from(values.len()).expect(FITS).to_be_bytes());
        notes.extend(u16::try_from(content.len()).expect(FITS).to_be_bytes());
        values.extend(content);
    }
    notes.push(0x04);
    notes.extend(u32::try_from(length).expect(FITS).to_be_bytes());
    (values, notes)
}

/// What notes say.
pub struct Said {
    /// Number, offset and length.
    pub fields: Vec<(u8, usize, usize)>,
    /// The length in the end note.
    pub length: usize,
    /// How many bytes the notes take.
    pub size: usize,
}

/// Takes notes apart; nothing where they are none.
pub fn taken_apart(notes: &[u8]) -> Option<Said> {
    let number = |at: usize, n: usize| notes[at..at + n].iter().fold(0, |sum, b| 256 * sum + *b as usize);
    let mut fields = Vec::new();
    let mut at = 6;
    while *notes.get(at)? == 0x02 && at + 8 <= notes.len() {
        fields.push((notes[at + 1], number(at + 2, 4), number(at + 6, 2)));
        at += 8;
    }
    let whole = notes[0] == 0x01 && notes[at] == 0x04 && at + 5 <= notes.len();
    whole.then(|| Said { fields, length: number(at + 1, 4), size: at + 5 })
}
