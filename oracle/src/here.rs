//! This library's answers, through its C interface.
use crate::case::{Answer, Case, Contents, Encoding, Why};
use crate::notes;

/// What outputs are filled with beforehand, so that a byte left as it was shows.
const UNTOUCHED: u8 = 0xEE;

#[repr(C)]
#[derive(Clone, Copy)]
pub struct Verdict {
    pub number: u64,
    pub field: u64,
    pub position: u64,
}

#[repr(C)]
#[derive(Clone, Copy)]
pub struct Reading {
    pub verdict: Verdict,
    pub used: u64,
    pub bitmaps: u64,
}

/// `length` is the value where a length is decoded.
#[repr(C)]
#[derive(Clone, Copy)]
pub struct Output {
    pub verdict: Verdict,
    pub length: u64,
}

#[repr(C)]
#[derive(Clone, Copy)]
pub struct Cleaned {
    pub verdict: Verdict,
    pub length: u64,
    pub padded: [u64; 3],
}

#[repr(C)]
#[derive(Clone, Copy)]
pub struct Found {
    pub verdict: Verdict,
    pub offset: u64,
    pub length: u64,
}

/// What carrying a message over tells.
#[repr(C)]
#[derive(Clone, Copy)]
pub struct Translated {
    pub verdict: Verdict,
    pub used: u64,
    pub written: u64,
}

mod c {
    use super::*;
    extern "C" {
        pub fn obol_read(m: *const u8, n: u64, notes: *mut u8, room: u64) -> Reading;
        pub fn obol_write_exact(v: *const u8, n: u64, notes: *const u8, k: u64, out: *mut u8, room: u64) -> Output;
        pub fn obol_write_clean(v: *const u8, n: u64, notes: *const u8, k: u64, out: *mut u8, room: u64) -> Cleaned;
        pub fn obol_look_up(v: *const u8, n: u64, notes: *const u8, k: u64, number: u64) -> Found;
        pub fn obol_check_field(number: u64, c: *const u8, n: u64) -> Verdict;
        pub fn obol_check_required(v: *const u8, n: u64, notes: *const u8, k: u64) -> Verdict;
        pub fn obol_check_pan(c: *const u8, n: u64) -> Verdict;
        pub fn obol_check_date(c: *const u8, n: u64) -> Verdict;
        pub fn obol_check_time(c: *const u8, n: u64) -> Verdict;
        pub fn obol_bcd_encode(s: *const u8, n: u64, out: *mut u8, room: u64) -> Output;
        pub fn obol_bcd_decode(s: *const u8, n: u64, digits: u64, out: *mut u8, room: u64) -> Output;
        pub fn obol_ebcdic_encode(s: *const u8, n: u64, out: *mut u8, room: u64) -> Output;
        pub fn obol_ebcdic_decode(s: *const u8, n: u64, out: *mut u8, room: u64) -> Output;
        pub fn obol_length_encode(length: u64, digits: u64, e: u64, out: *mut u8, room: u64) -> Output;
        pub fn obol_length_decode(s: *const u8, n: u64, digits: u64, e: u64) -> Output;
        pub fn obol_pack(m: *const u8, n: u64, out: *mut u8, room: u64) -> Translated;
        pub fn obol_unpack(m: *const u8, n: u64, out: *mut u8, room: u64) -> Translated;
    }
}

// SAFETY, of every function below: each pointer and length are those of one slice, which lives for the call; the routines keep none.
fn size(bytes: &[u8]) -> u64 {
    bytes.len() as u64
}

pub fn read(message: &[u8], notes: &mut [u8]) -> Reading {
    unsafe { c::obol_read(message.as_ptr(), size(message), notes.as_mut_ptr(), size(notes)) }
}

pub fn pack(plain: &[u8], out: &mut [u8]) -> Translated {
    unsafe { c::obol_pack(plain.as_ptr(), size(plain), out.as_mut_ptr(), size(out)) }
}

pub fn unpack(packed: &[u8], out: &mut [u8]) -> Translated {
    unsafe { c::obol_unpack(packed.as_ptr(), size(packed), out.as_mut_ptr(), size(out)) }
}

pub fn write_exact(values: &[u8], notes: &[u8], out: &mut [u8]) -> Output {
    unsafe { c::obol_write_exact(values.as_ptr(), size(values), notes.as_ptr(), size(notes), out.as_mut_ptr(), size(out)) }
}

pub fn write_clean(values: &[u8], notes: &[u8], out: &mut [u8]) -> Cleaned {
    unsafe { c::obol_write_clean(values.as_ptr(), size(values), notes.as_ptr(), size(notes), out.as_mut_ptr(), size(out)) }
}

pub fn look_up(values: &[u8], notes: &[u8], number: u64) -> Found {
    unsafe { c::obol_look_up(values.as_ptr(), size(values), notes.as_ptr(), size(notes), number) }
}

pub fn check_field(number: u64, content: &[u8]) -> Verdict {
    unsafe { c::obol_check_field(number, content.as_ptr(), size(content)) }
}

pub fn check_required(values: &[u8], notes: &[u8]) -> Verdict {
    unsafe { c::obol_check_required(values.as_ptr(), size(values), notes.as_ptr(), size(notes)) }
}

pub fn check_pan(content: &[u8]) -> Verdict {
    unsafe { c::obol_check_pan(content.as_ptr(), size(content)) }
}

pub fn check_date(content: &[u8]) -> Verdict {
    unsafe { c::obol_check_date(content.as_ptr(), size(content)) }
}

pub fn check_time(content: &[u8]) -> Verdict {
    unsafe { c::obol_check_time(content.as_ptr(), size(content)) }
}

pub fn bcd_encode(source: &[u8], out: &mut [u8]) -> Output {
    unsafe { c::obol_bcd_encode(source.as_ptr(), size(source), out.as_mut_ptr(), size(out)) }
}

pub fn bcd_decode(source: &[u8], digits: u64, out: &mut [u8]) -> Output {
    unsafe { c::obol_bcd_decode(source.as_ptr(), size(source), digits, out.as_mut_ptr(), size(out)) }
}

pub fn ebcdic_encode(source: &[u8], out: &mut [u8]) -> Output {
    unsafe { c::obol_ebcdic_encode(source.as_ptr(), size(source), out.as_mut_ptr(), size(out)) }
}

pub fn ebcdic_decode(source: &[u8], out: &mut [u8]) -> Output {
    unsafe { c::obol_ebcdic_decode(source.as_ptr(), size(source), out.as_mut_ptr(), size(out)) }
}

pub fn length_encode(length: u64, digits: u64, e: Encoding, out: &mut [u8]) -> Output {
    unsafe { c::obol_length_encode(length, digits, e as u64, out.as_mut_ptr(), size(out)) }
}

pub fn length_decode(source: &[u8], digits: u64, e: Encoding) -> Output {
    unsafe { c::obol_length_decode(source.as_ptr(), size(source), digits, e as u64) }
}

pub fn answer(case: &Case) -> Answer {
    match case {
        Case::Read(message) => read_answer(message),
        Case::LookUp(message) => look_up_answer(message),
        Case::Clean(c) => written(c, |values, notes, out| {
            let cleaned = write_clean(values, notes, out);
            (Output { verdict: cleaned.verdict, length: cleaned.length }, cleaned.padded)
        }),
        Case::Exact(c) => written(c, |values, notes, out| (write_exact(values, notes, out), [0; 3])),
        Case::Pan(content) => verdict(check_pan(content)),
        Case::Class(number, content) => match check_field(*number as u64, content) {
            v if v.number == 16 => verdict(v),
            _ => Answer::Good,
        },
        Case::Field(number, content) => verdict(check_field(*number as u64, content)),
        Case::Date(content) => verdict(check_date(content)),
        Case::Time(content) => verdict(check_time(content)),
        Case::Required(c) => {
            let (values, notes) = notes::of(c, 0);
            verdict(check_required(&values, &notes))
        }
        Case::LengthEncode(length, digits, e) => output(8, |out| length_encode(*length, *digits, *e, out)),
        Case::LengthDecode(source, digits, e) => match length_decode(source, *digits, *e) {
            o if o.verdict.number == 0 => Answer::Number(o.length),
            o => verdict(o.verdict),
        },
        Case::BcdEncode(source) => output(source.len() + 4, |out| bcd_encode(source, out)),
        Case::BcdDecode(source, digits) => output(2 * source.len() + 4, |out| bcd_decode(source, *digits, out)),
        Case::EbcdicEncode(source) => output(source.len() + 4, |out| ebcdic_encode(source, out)),
        Case::EbcdicDecode(source) => output(source.len() + 4, |out| ebcdic_decode(source, out)),
    }
}

fn read_answer(message: &[u8]) -> Answer {
    let mut notes = [UNTOUCHED; notes::ROOM + 4];
    let reading = read(message, &mut notes);
    if reading.verdict.number != 0 {
        return if untouched(&notes) { verdict(reading.verdict) } else { Answer::Broken("a refusal changed the notes") };
    }
    let Some(said) = notes::taken_apart(&notes) else {
        return Answer::Broken("the notes are no notes");
    };
    let head = notes[1..5] == message[..4] && notes[5] as u64 == reading.bitmaps;
    if !head || said.length as u64 != reading.used || !untouched(&notes[said.size..]) {
        return Answer::Broken("the notes do not fit the answer");
    }
    let contents = said.fields.iter().map(|(f, at, n)| (*f, message[*at..at + n].to_vec())).collect();
    Answer::Message(reading.used as usize, reading.bitmaps as usize, contents)
}

fn look_up_answer(message: &[u8]) -> Answer {
    let mut notes = [UNTOUCHED; notes::ROOM];
    let reading = read(message, &mut notes);
    if reading.verdict.number != 0 {
        return verdict(reading.verdict);
    }
    let mut fields = Vec::new();
    for f in 1..=128u8 {
        let found = look_up(message, &notes, f as u64);
        let (at, n) = (found.offset as usize, found.length as usize);
        match found.verdict.number {
            0 => fields.push((f, message[at..at + n].to_vec())),
            15 if found.verdict.field == f as u64 && (at, n) == (0, 0) => {}
            _ => return verdict(found.verdict),
        }
    }
    Answer::Fields(fields)
}

/// The length to be written, which the end note must say: by the table, padding counted.
pub fn length_of(contents: &Contents) -> usize {
    let count = contents.fields.iter().map(|(f, _)| (*f as usize - 1) / 64 + 1).max().unwrap_or(1);
    let size_of = |(f, content): &(u8, Vec<u8>)| match crate::table::row(*f) {
        Some(r) if r.width == 0 => r.most,
        Some(r) => r.width + content.len(),
        None => 0,
    };
    4 + 8 * count + contents.fields.iter().map(size_of).sum::<usize>()
}

fn written(contents: &Contents, write: impl Fn(&[u8], &[u8], &mut [u8]) -> (Output, [u64; 3])) -> Answer {
    let length = length_of(contents);
    let (values, notes) = notes::of(contents, length);
    let mut padded = [0; 3];
    let answer = output(length + 4, |out| {
        let (answer, set) = write(&values, &notes, out);
        padded = set;
        answer
    });
    let member = |f: &u8| padded[(*f as usize - 1) / 64] >> (63 - (*f as usize - 1) % 64) & 1 == 1;
    match answer {
        Answer::Bytes(bytes) => Answer::Written(bytes, (1..=192).filter(member).collect()),
        _ if padded != [0; 3] => Answer::Broken("a refusal names fields padded"),
        other => other,
    }
}

fn output(room: usize, write: impl FnOnce(&mut [u8]) -> Output) -> Answer {
    let mut out = vec![UNTOUCHED; room];
    let answer = write(&mut out);
    let n = answer.length as usize;
    match answer.verdict.number {
        0 if n <= room && untouched(&out[n..]) => Answer::Bytes(out[..n].to_vec()),
        0 => Answer::Broken("bytes beyond the length are touched"),
        _ if n == 0 && untouched(&out) => verdict(answer.verdict),
        _ => Answer::Broken("a refusal changed the output"),
    }
}

fn untouched(bytes: &[u8]) -> bool {
    bytes.iter().all(|b| *b == UNTOUCHED)
}

fn verdict(v: Verdict) -> Answer {
    let why = match v.number {
        0 => return Answer::Good,
        2 | 4 | 5 => Why::Short,
        7 | 12 => Why::Long,
        16 => Why::Class,
        17 => Why::Pan,
        18 => Why::Zero,
        19 => Why::Missing(v.field),
        20 => Why::DateOrTime,
        21 | 22 => Why::Digits,
        _ => Why::Other,
    };
    Answer::Refused(why, format!("refused {} field {} at {}", v.number, v.field, v.position))
}
