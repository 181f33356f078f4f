//! A case is one input that both sides can be asked; an answer is what one side says of it.
use crate::table::{row, Class, Domain};
use std::fmt;

/// An MTI and contents by rising field number, as handed to a writer.
#[derive(Clone, PartialEq, Eq, Debug)]
pub struct Contents {
    pub mti: [u8; 4],
    pub fields: Vec<(u8, Vec<u8>)>,
}

#[derive(Clone, Copy, PartialEq, Eq, Debug)]
pub enum Encoding {
    Ascii,
    Bcd,
    Ebcdic,
}

pub const ENCODINGS: [Encoding; 3] = [Encoding::Ascii, Encoding::Bcd, Encoding::Ebcdic];

#[derive(Clone, PartialEq, Eq, Debug)]
pub enum Case {
    /// A message is read.
    Read(Vec<u8>),
    /// A message is read, and every field from 1 to 128 is asked for.
    LookUp(Vec<u8>),
    Clean(Contents),
    Exact(Contents),
    Pan(Vec<u8>),
    /// Whether the content is of the field's class; its length is not looked at.
    Class(u8, Vec<u8>),
    /// The whole check of a field: class, length, then the PAN or the zero rule.
    Field(u8, Vec<u8>),
    Date(Vec<u8>),
    Time(Vec<u8>),
    Required(Contents),
    LengthEncode(u64, u64, Encoding),
    LengthDecode(Vec<u8>, u64, Encoding),
    BcdEncode(Vec<u8>),
    BcdDecode(Vec<u8>, u64),
    EbcdicEncode(Vec<u8>),
    EbcdicDecode(Vec<u8>),
}

pub const KINDS: [&str; 16] = [
    "reading",
    "lookup",
    "cleaning",
    "exact writing",
    "PAN",
    "class",
    "date",
    "time",
    "required fields",
    "length encoding",
    "length decoding",
    "BCD encoding",
    "BCD decoding",
    "EBCDIC encoding",
    "EBCDIC decoding",
    "field check",
];

/// Why an input is refused, as far as both sides can say it.
#[derive(Clone, Copy, PartialEq, Eq, Debug)]
pub enum Why {
    /// 2, 4 or 5: bytes are missing.
    Short,
    /// 7 or 12: a length over the table's.
    Long,
    /// 16.
    Class,
    /// 17.
    Pan,
    /// 18.
    Zero,
    /// 19, with the field.
    Missing(u64),
    /// 20.
    DateOrTime,
    /// 21 or 22: no BCD.
    Digits,
    /// Any other.
    Other,
}

#[derive(Clone, PartialEq, Eq, Debug)]
pub enum Answer {
    Good,
    Bytes(Vec<u8>),
    Number(u64),
    /// Bytes used, bitmaps, contents.
    Message(usize, usize, Vec<(u8, Vec<u8>)>),
    /// Fields present and their contents.
    Fields(Vec<(u8, Vec<u8>)>),
    /// Bytes written, fields padded.
    Written(Vec<u8>, Vec<u8>),
    /// The second is the side's own words.
    Refused(Why, String),
    Panicked,
    /// A promise on lent buffers is broken.
    Broken(&'static str),
}

impl Answer {
    /// The same verdict and the same results; refusals are the same when both name the same reason.
    pub fn same(&self, other: &Answer) -> bool {
        match (self, other) {
            (Answer::Refused(a, _), Answer::Refused(b, _)) => a == b,
            _ => self == other && !matches!(self, Answer::Panicked | Answer::Broken(_)),
        }
    }

    pub fn accepted(&self) -> bool {
        !matches!(self, Answer::Refused(..) | Answer::Panicked | Answer::Broken(_))
    }
}

impl Case {
    /// Its place in `KINDS`.
    pub fn kind(&self) -> usize {
        match self {
            Case::Read(_) => 0,
            Case::LookUp(_) => 1,
            Case::Clean(_) => 2,
            Case::Exact(_) => 3,
            Case::Pan(_) => 4,
            Case::Class(..) => 5,
            Case::Date(_) => 6,
            Case::Time(_) => 7,
            Case::Required(_) => 8,
            Case::LengthEncode(..) => 9,
            Case::LengthDecode(..) => 10,
            Case::BcdEncode(_) => 11,
            Case::BcdDecode(..) => 12,
            Case::EbcdicEncode(_) => 13,
            Case::EbcdicDecode(_) => 14,
            Case::Field(..) => 15,
        }
    }

    /// Whether 01's domain of equality holds the case; docs/DECISIONS.md D1 to D6 say how its words are read.
    pub fn in_domain(&self, domain: &Domain) -> bool {
        match self {
            Case::Read(message) | Case::LookUp(message) => readable(message, &domain.reading),
            Case::Clean(c) => writable(c, &domain.cleaning, false),
            Case::Exact(c) => writable(c, &domain.cleaning, true),
            Case::Pan(content) => is_utf8(content) && !has_twelve_digits(content),
            Case::Class(number, content) => domain.class.contains(number) && is_utf8(content),
            Case::Field(number, content) => {
                let compared = domain.class.contains(number) && domain.cleaning.contains(number) && is_utf8(content);
                compared && (*number != 2 || !has_twelve_digits(content))
            }
            Case::Date(content) | Case::Time(content) => content.is_ascii() && !content.contains(&b'+'),
            Case::Required(c) => are_digits(&c.mti),
            Case::LengthEncode(length, digits, _) => matches!(digits, 2 | 3) && *length < 10u64.pow(*digits as u32),
            Case::LengthDecode(source, digits, Encoding::Bcd) => *digits == 2 && source.len() == 1 && is_bcd(source[0]),
            Case::LengthDecode(source, digits, Encoding::Ascii) => counted(source, *digits) && are_digits(source),
            Case::LengthDecode(source, digits, Encoding::Ebcdic) => {
                counted(source, *digits) && source.iter().all(|b| (0xF0..=0xF9).contains(b))
            }
            Case::BcdEncode(source) | Case::EbcdicEncode(source) => source.is_ascii(),
            Case::BcdDecode(source, digits) => digits % 2 == 0 && source.len() as u64 == digits / 2,
            Case::EbcdicDecode(source) => source.iter().all(|b| crate::there::has_ascii_meaning(*b)),
        }
    }
}

fn is_utf8(content: &[u8]) -> bool {
    std::str::from_utf8(content).is_ok()
}

/// 02, P1: a PAN of twelve digits is taken here and not there.
fn has_twelve_digits(content: &[u8]) -> bool {
    content.iter().filter(|b| b.is_ascii_digit()).count() == 12
}

fn are_digits(bytes: &[u8]) -> bool {
    bytes.iter().all(u8::is_ascii_digit)
}

fn is_bcd(b: u8) -> bool {
    b >> 4 <= 9 && b & 0x0F <= 9
}

fn counted(source: &[u8], digits: u64) -> bool {
    matches!(digits, 2 | 3) && source.len() as u64 == digits
}

/// "bit 1 clear, MTI of four digits …, length indicators all digits, text ASCII, and fields whose … agree", up to the first refusal that
/// the field table itself gives.
fn readable(message: &[u8], fields: &[u8]) -> bool {
    if message.len() < 12 {
        return true;
    }
    let present: Vec<u8> = (1..=64u8).filter(|f| message[4 + (*f as usize - 1) / 8] & (0x80 >> ((f - 1) % 8)) != 0).collect();
    if !are_digits(&message[..4]) || !present.iter().all(|f| fields.contains(f)) {
        return false;
    }
    let mut rest = &message[12..];
    for f in present {
        let r = row(f).unwrap();
        if rest.len() < r.width {
            return true;
        }
        let (digits, after) = rest.split_at(r.width);
        if !are_digits(digits) {
            return false;
        }
        let length = if r.width == 0 { r.most } else { digits.iter().fold(0, |n, d| 10 * n + (d - b'0') as usize) };
        if length > r.most || length > after.len() {
            return true;
        }
        if r.class != Class::B && !after[..length].is_ascii() {
            return false;
        }
        rest = &after[length..];
    }
    true
}

/// "MTI, fields and text as for reading, contents not too long"; `whole`: nor too short, so that nothing is padded.
fn writable(contents: &Contents, fields: &[u8], whole: bool) -> bool {
    are_digits(&contents.mti)
        && contents.fields.iter().all(|(f, content)| {
            let r = row(*f).unwrap();
            let fits = content.len() <= r.most && (!whole || r.width > 0 || content.len() == r.most);
            fields.contains(f) && fits && (r.class == Class::B || content.is_ascii())
        })
}

/// Bytes as text where they are plain, else in hexadecimal.
pub fn shown(bytes: &[u8]) -> String {
    let plain = |b: &u8| matches!(b, b' '..=b'~') && *b != b'`';
    if bytes.is_empty() {
        return "nothing".into();
    }
    let mut said = String::new();
    let mut rest = bytes;
    while !rest.is_empty() {
        let n = rest.iter().take_while(|b| plain(b)).count();
        let m = rest[n..].iter().take_while(|b| !plain(b)).count();
        if n > 0 {
            said += &format!(" `{}`", String::from_utf8_lossy(&rest[..n]));
        }
        for b in &rest[n..n + m] {
            said += &format!(" {b:02X}");
        }
        rest = &rest[n + m..];
    }
    said.trim_start().into()
}

fn shown_fields(f: &mut fmt::Formatter, fields: &[(u8, Vec<u8>)]) -> fmt::Result {
    for (number, content) in fields {
        write!(f, ", field {number} {}", shown(content))?;
    }
    Ok(())
}

impl fmt::Display for Contents {
    fn fmt(&self, f: &mut fmt::Formatter) -> fmt::Result {
        write!(f, "MTI {}", shown(&self.mti))?;
        shown_fields(f, &self.fields)
    }
}

impl fmt::Display for Case {
    fn fmt(&self, f: &mut fmt::Formatter) -> fmt::Result {
        write!(f, "{} of ", KINDS[self.kind()])?;
        match self {
            Case::Read(bytes) | Case::LookUp(bytes) => {
                let (front, rest) = bytes.split_at(bytes.len().min(4));
                let (bitmap, rest) = rest.split_at(rest.len().min(8));
                write!(f, "{}", shown(front))?;
                bitmap.iter().try_for_each(|b| write!(f, " {b:02X}"))?;
                if rest.is_empty() {
                    Ok(())
                } else {
                    write!(f, " {}", shown(rest))
                }
            }
            Case::Clean(c) | Case::Exact(c) | Case::Required(c) => write!(f, "{c}"),
            Case::Class(number, content) | Case::Field(number, content) => write!(f, "field {number} {}", shown(content)),
            Case::LengthEncode(length, digits, encoding) => write!(f, "{length} in {digits} digits, {encoding:?}"),
            Case::LengthDecode(source, digits, encoding) => write!(f, "{} as {digits} digits, {encoding:?}", shown(source)),
            Case::BcdDecode(source, digits) => write!(f, "{} for {digits} digits", shown(source)),
            Case::Pan(bytes)
            | Case::Date(bytes)
            | Case::Time(bytes)
            | Case::BcdEncode(bytes)
            | Case::EbcdicEncode(bytes)
            | Case::EbcdicDecode(bytes) => write!(f, "{}", shown(bytes)),
        }
    }
}

impl fmt::Display for Answer {
    fn fmt(&self, f: &mut fmt::Formatter) -> fmt::Result {
        match self {
            Answer::Good => write!(f, "good"),
            Answer::Bytes(bytes) => write!(f, "{}", shown(bytes)),
            Answer::Number(n) => write!(f, "{n}"),
            Answer::Message(used, bitmaps, fields) => {
                write!(f, "used {used}, bitmaps {bitmaps}")?;
                shown_fields(f, fields)
            }
            Answer::Fields(fields) => {
                write!(f, "{} fields", fields.len())?;
                shown_fields(f, fields)
            }
            Answer::Written(bytes, padded) => {
                write!(f, "{}", shown(bytes))?;
                if padded.is_empty() {
                    Ok(())
                } else {
                    write!(f, ", padded {}", crate::table::ranges(padded))
                }
            }
            Answer::Refused(_, words) => write!(f, "{words}"),
            Answer::Panicked => write!(f, "panics"),
            Answer::Broken(what) => write!(f, "{what}"),
        }
    }
}
