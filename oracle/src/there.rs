//! The crate's answers.
use crate::case::{Answer, Case, Contents, Encoding, Why};
use crate::table::{row, Class};
use iso8583_core::encoding::{self, decode_bcd, decode_ebcdic, decode_length, encode_bcd, encode_ebcdic, encode_length};
use iso8583_core::error::ISO8583Error as Error;
use iso8583_core::field::{Field, FieldLength, FieldValue};
use iso8583_core::message::ISO8583Message;
use iso8583_core::validation::Validator;
use std::cell::Cell;
use std::panic::{catch_unwind, set_hook, take_hook, UnwindSafe};

thread_local! {
    static ASKED: Cell<bool> = const { Cell::new(false) };
}

/// A panic of the crate is caught, and is an answer: it is not reported. Others are.
pub fn quiet_panics() {
    let usual = take_hook();
    set_hook(Box::new(move |info| {
        if !ASKED.get() {
            usual(info);
        }
    }));
}

/// What the crate answers, or nothing where it panics.
pub fn caught<T>(ask: impl FnOnce() -> T + UnwindSafe) -> Option<T> {
    ASKED.set(true);
    let answer = catch_unwind(ask).ok();
    ASKED.set(false);
    answer
}

pub fn answer(case: &Case) -> Answer {
    caught(|| match case {
        Case::Read(message) => read(message),
        Case::LookUp(message) => look_up(message),
        Case::Clean(c) | Case::Exact(c) => write(c),
        Case::Pan(content) => verdict(Validator::validate_pan(text(content)), Why::Pan),
        Case::Class(number, content) => class(*number, content),
        Case::Field(number, content) => field(*number, content),
        Case::Date(content) => verdict(Validator::validate_date_mmdd(text(content)), Why::DateOrTime),
        Case::Time(content) => verdict(Validator::validate_time_hhmmss(text(content)), Why::DateOrTime),
        Case::Required(c) => match Validator::validate_required_fields(&message_of(c)) {
            Ok(()) => Answer::Good,
            Err(e) => refused(e),
        },
        Case::LengthEncode(length, digits, e) => bytes(encode_length(*length as usize, *digits as usize, coded(*e))),
        Case::LengthDecode(source, digits, e) => match decode_length(source, *digits as usize, coded(*e)) {
            Ok(n) => Answer::Number(n as u64),
            Err(e) => refused(e),
        },
        Case::BcdEncode(source) => bytes(encode_bcd(text(source))),
        Case::BcdDecode(source, digits) => bytes(decode_bcd(source, *digits as usize).map(String::into_bytes)),
        Case::EbcdicEncode(source) => bytes(encode_ebcdic(text(source))),
        Case::EbcdicDecode(source) => bytes(decode_ebcdic(source).map(String::into_bytes)),
    })
    .unwrap_or(Answer::Panicked)
}

/// Whether the crate decodes the byte, alone, to ASCII.
pub fn has_ascii_meaning(b: u8) -> bool {
    static MEANINGS: std::sync::OnceLock<Vec<bool>> = std::sync::OnceLock::new();
    MEANINGS.get_or_init(|| (0..=255).map(|b| decode_ebcdic(&[b]).is_ok_and(|s| s.is_ascii())).collect())[b as usize]
}

/// A message with the contents, each handed over as text or as binary by 01's table.
pub fn message_of(contents: &Contents) -> ISO8583Message {
    let mut message = ISO8583Message::new(text(&contents.mti).parse().unwrap());
    for (f, content) in &contents.fields {
        let value = match row(*f).map(|r| r.class) {
            Some(Class::B) => FieldValue::from_binary(content.clone()),
            _ => FieldValue::from_string(text(content)),
        };
        message.set_field(Field::from_number(*f).unwrap(), value).unwrap();
    }
    message
}

/// The crate takes text only; what is no UTF-8 cannot be asked.
fn text(bytes: &[u8]) -> &str {
    std::str::from_utf8(bytes).expect("UTF-8")
}

fn read(bytes: &[u8]) -> Answer {
    match ISO8583Message::from_bytes(bytes) {
        Ok(message) => {
            let (_, bitmap_bytes) = message.bitmap().to_bytes();
            Answer::Message(shortest_accepted_prefix(bytes), bitmap_bytes / 8, contents(&message))
        }
        Err(e) => refused(e),
    }
}

fn look_up(bytes: &[u8]) -> Answer {
    match ISO8583Message::from_bytes(bytes) {
        Ok(message) => {
            let of = |f| message.get_field(Field::from_number(f).unwrap()).map(|v| (f, content(v)));
            Answer::Fields((1..=128).filter_map(of).collect())
        }
        Err(e) => refused(e),
    }
}

/// The crate does not say how many bytes it used. Short messages are tried prefix by prefix; in long ones the prefix is searched for by
/// halves, since a longer prefix of an accepted one is accepted.
fn shortest_accepted_prefix(bytes: &[u8]) -> usize {
    let accepted = |n: usize| ISO8583Message::from_bytes(&bytes[..n]).is_ok();
    if bytes.len() <= 48 {
        return (0..=bytes.len()).find(|n| accepted(*n)).unwrap();
    }
    let (mut refused, mut good) = (11, bytes.len());
    while refused + 1 < good {
        let middle = (refused + good) / 2;
        if accepted(middle) {
            good = middle;
        } else {
            refused = middle;
        }
    }
    good
}

/// The contents by rising number; the bitmap names the same fields.
fn contents(message: &ISO8583Message) -> Vec<(u8, Vec<u8>)> {
    let numbers = message.get_field_numbers();
    let (present, count) = message.bitmap().get_set_fields();
    let present: Vec<u8> = present[..count].iter().copied().filter(|f| *f != 1 && *f != 65).collect();
    assert_eq!(present, numbers);
    numbers.iter().map(|f| (*f, content(message.get_field(Field::from_number(*f).unwrap()).unwrap()))).collect()
}

fn content(value: &FieldValue) -> Vec<u8> {
    match value {
        FieldValue::String(s) => s.as_bytes().to_vec(),
        FieldValue::Binary(b) => b.clone(),
    }
}

/// The crate does not say what it padded; its own definitions do.
fn write(contents: &Contents) -> Answer {
    let short = |f: u8, content: &[u8]| match Field::from_number(f).unwrap().definition().length {
        FieldLength::Fixed(n) => content.len() < n,
        _ => false,
    };
    let padded = contents.fields.iter().filter(|(f, content)| short(*f, content)).map(|(f, _)| *f).collect();
    Answer::Written(message_of(contents).to_bytes(), padded)
}

/// Only the class: a content refused for its length is of its class, since that is tested first.
fn class(number: u8, content: &[u8]) -> Answer {
    let value = FieldValue::from_string(text(content));
    match Validator::validate_field_format(Field::from_number(number).unwrap(), &value) {
        Err(Error::InvalidFieldValue { reason, .. }) if reason.starts_with("Field must be") => Answer::Refused(Why::Class, reason),
        _ => Answer::Good,
    }
}

/// The crate's two calls, the format first; either may refuse for the length.
fn field(number: u8, content: &[u8]) -> Answer {
    let value = FieldValue::from_string(text(content));
    let field = Field::from_number(number).unwrap();
    let why = |e: &Error| match e {
        Error::FieldLengthMismatch { .. } => Why::Long,
        Error::LuhnCheckFailed => Why::Pan,
        Error::InvalidFieldValue { reason, .. } if reason.starts_with("Field exceeds") => Why::Long,
        Error::InvalidFieldValue { reason, .. } if reason.starts_with("Field must be") => Why::Class,
        Error::InvalidFieldValue { reason, .. } if reason.ends_with("cannot be zero") => Why::Zero,
        _ => Why::Other,
    };
    match Validator::validate_field_format(field, &value).and_then(|()| Validator::validate_field_value(field, &value)) {
        Ok(()) => Answer::Good,
        Err(e) => Answer::Refused(why(&e), e.to_string()),
    }
}

fn verdict(good: bool, why: Why) -> Answer {
    if good {
        Answer::Good
    } else {
        Answer::Refused(why, "no".into())
    }
}

fn bytes(result: Result<Vec<u8>, Error>) -> Answer {
    match result {
        Ok(bytes) => Answer::Bytes(bytes),
        Err(e) => refused(e),
    }
}

fn refused(e: Error) -> Answer {
    let why = match &e {
        Error::MessageTooShort { .. } | Error::FieldLengthMismatch { .. } => Why::Short,
        Error::InvalidFieldValue { .. } => Why::Long,
        Error::MissingRequiredField(f) => Why::Missing(*f as u64),
        Error::EncodingError(words) if words.contains("BCD") => Why::Digits,
        _ => Why::Other,
    };
    Answer::Refused(why, e.to_string())
}

fn coded(e: Encoding) -> encoding::Encoding {
    match e {
        Encoding::Ascii => encoding::Encoding::ASCII,
        Encoding::Bcd => encoding::Encoding::BCD,
        Encoding::Ebcdic => encoding::Encoding::EBCDIC,
    }
}
