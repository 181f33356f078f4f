//! The inputs of a run: short ones exhaustively, then random ones around every boundary, and damaged copies of good ones.
use crate::case::{Case, Contents, Encoding, ENCODINGS};
use crate::random::Random;
use crate::table::{row, Class, Row};

/// Where the cases go.
pub type Sink<'a> = &'a mut dyn FnMut(Case);

/// All strings of none, one and two bytes.
fn short_strings() -> impl Iterator<Item = Vec<u8>> {
    let one = (0..=255u8).map(|a| vec![a]);
    let two = (0..=65535u16).map(|n| n.to_be_bytes().to_vec());
    std::iter::once(Vec::new()).chain(one).chain(two)
}

/// All strings of `n` bytes over the alphabet.
fn strings(alphabet: &[u8], n: u32) -> impl Iterator<Item = Vec<u8>> + '_ {
    (0..alphabet.len().pow(n)).map(move |mut i| {
        let mut string = Vec::new();
        for _ in 0..n {
            string.push(alphabet[i % alphabet.len()]);
            i /= alphabet.len();
        }
        string
    })
}

const DIGITS: &[u8] = b"0123456789";

/// A copy with one thing wrong, more or less.
fn damaged(random: &mut Random, bytes: &[u8]) -> Vec<u8> {
    let mut copy = bytes.to_vec();
    let at = random.below(copy.len() + 1);
    match random.below(8) {
        0 => copy.truncate(at),
        1 => copy.truncate(copy.len().saturating_sub(1)),
        2 => copy.extend(random.bytes(1 + at % 3, |r| r.next() as u8)),
        3 if at < copy.len() => copy[at] = random.next() as u8,
        4 if at < copy.len() => copy[at] = random.digit(),
        5 if at < copy.len() => copy[at] ^= 1 << random.below(8),
        6 if at < copy.len() => drop(copy.remove(at)),
        _ => copy.insert(at, random.digit()),
    }
    copy
}

pub fn conversions(random: &mut Random, rounds: usize, to: Sink) {
    for s in short_strings() {
        to(Case::BcdDecode(s.clone(), 2 * s.len() as u64));
        to(Case::EbcdicDecode(s.clone()));
        to(Case::BcdEncode(s.clone()));
        to(Case::EbcdicEncode(s));
    }
    for _ in 0..rounds * 20_000 {
        let n = random.below(72);
        let digits = random.bytes(n, Random::digit);
        to(Case::BcdEncode(digits.clone()));
        to(Case::BcdEncode(damaged(random, &digits)));
        let text = random.bytes(n, |r| r.next() as u8 & 0x7F);
        to(Case::EbcdicEncode(text));
        let packed = random.bytes(n, |r| (r.below(10) << 4 | r.below(10)) as u8);
        to(Case::BcdDecode(packed.clone(), 2 * n as u64));
        let packed = damaged(random, &packed);
        to(Case::BcdDecode(packed.clone(), 2 * packed.len() as u64));
        let text = random.bytes(n, |r| loop {
            let b = r.next() as u8;
            if crate::there::has_ascii_meaning(b) {
                break b;
            }
        });
        to(Case::EbcdicDecode(text));
    }
}

/// Every length that fits, in every digit count and encoding, both ways.
pub fn length_indicators(to: Sink) {
    for (digits, end) in [(2, 100), (3, 1000)] {
        for length in 0..end {
            for e in ENCODINGS {
                to(Case::LengthEncode(length, digits, e));
            }
            let text = format!("{length:0width$}", width = digits as usize).into_bytes();
            let ebcdic = text.iter().map(|d| d | 0xF0).collect();
            to(Case::LengthDecode(text, digits, Encoding::Ascii));
            to(Case::LengthDecode(ebcdic, digits, Encoding::Ebcdic));
        }
    }
    for b in 0..=255 {
        to(Case::LengthDecode(vec![b], 2, Encoding::Bcd));
    }
}

pub fn dates_and_times(random: &mut Random, rounds: usize, to: Sink) {
    for s in short_strings() {
        to(Case::Date(s.clone()));
        to(Case::Time(s));
    }
    for s in strings(b"0123456789 -/:.,eA\x00\x7F", 4) {
        to(Case::Date(s));
    }
    for s in strings(DIGITS, 6) {
        to(Case::Time(s));
    }
    for _ in 0..rounds * 50_000 {
        let date = format!("{:02}{:02}", random.below(14), random.below(34)).into_bytes();
        to(Case::Date(damaged(random, &date)));
        let time = format!("{:02}{:02}{:02}", random.below(26), random.below(62), random.below(62)).into_bytes();
        to(Case::Time(damaged(random, &time)));
    }
}

/// The digit that makes the number pass, at its end.
fn with_check_digit(mut digits: Vec<u8>) -> Vec<u8> {
    let weigh = |(i, d): (usize, &u8)| match (i % 2, (d - b'0') as u32) {
        (0, d) if d > 4 => 2 * d - 9,
        (0, d) => 2 * d,
        (_, d) => d,
    };
    let sum: u32 = digits.iter().rev().enumerate().map(weigh).sum();
    digits.push(b'0' + ((10 - sum % 10) % 10) as u8);
    digits
}

/// Text of one to four bytes that a PAN may be strewn with.
const STREWN: [&str; 8] = [" ", "-", "\u{0}", "+", "é", "٣", "€", "𝟗"];

pub fn pans(random: &mut Random, rounds: usize, to: Sink) {
    for s in short_strings() {
        to(Case::Pan(s));
    }
    for n in 12..=20 {
        for _ in 0..rounds * 20 {
            let good = with_check_digit(random.bytes(n - 1, Random::digit));
            for at in 0..n {
                for d in DIGITS {
                    let mut one_changed = good.clone();
                    one_changed[at] = *d;
                    to(Case::Pan(one_changed));
                }
            }
        }
    }
    for _ in 0..rounds * 100_000 {
        let n = 1 + random.below(24);
        let good = with_check_digit(random.bytes(n - 1, Random::digit));
        let mut strewn = Vec::new();
        for d in &good {
            if random.once_in(4) {
                strewn.extend(random.pick(&STREWN).as_bytes());
            }
            strewn.push(*d);
        }
        to(Case::Pan(damaged(random, &strewn)));
        to(Case::Pan(strewn));
        to(Case::Pan(good));
    }
}

/// Every content of up to two bytes, and longer ones around the length, of each field.
pub fn classes(random: &mut Random, rounds: usize, fields: &[u8], to: Sink) {
    for f in fields {
        for s in short_strings() {
            to(Case::Class(*f, s));
        }
        for _ in 0..rounds * 500 {
            let most = row(*f).unwrap().most;
            let n = most.saturating_sub(2) + random.below(5);
            let digits = random.bytes(n, Random::digit);
            to(Case::Class(*f, damaged(random, &digits)));
            to(Case::Class(*f, digits));
            let mut text = random.bytes(n, |r| r.next() as u8 & 0x7F);
            text.extend(random.pick(&STREWN).as_bytes());
            to(Case::Class(*f, text));
        }
    }
}

/// Digits of every length up to two over the field's, zeros, numbers that pass the PAN check, and damaged copies.
pub fn field_checks(random: &mut Random, rounds: usize, fields: &[u8], to: Sink) {
    for f in fields {
        for n in 0..=row(*f).unwrap().most + 2 {
            let zeros = vec![b'0'; n];
            for at in 0..n {
                let mut one = zeros.clone();
                one[at] = random.digit();
                to(Case::Field(*f, one));
            }
            to(Case::Field(*f, zeros));
            for _ in 0..rounds * 50 {
                let digits = random.bytes(n.saturating_sub(1), Random::digit);
                let digits = if n == 0 { digits } else { with_check_digit(digits) };
                to(Case::Field(*f, damaged(random, &digits)));
                to(Case::Field(*f, digits));
            }
        }
    }
}

/// Every MTI with every set of the fields that may be required; then beside other fields.
pub fn required(random: &mut Random, rounds: usize, to: Sink) {
    let mut contents = |mti: usize, fields: Vec<u8>| {
        let mti = format!("{mti:04}").into_bytes().try_into().unwrap();
        to(Case::Required(Contents { mti, fields: fields.into_iter().map(|f| (f, b"0".to_vec())).collect() }))
    };
    for mti in 0..10_000 {
        for set in 0..128 {
            let member = |(i, f): (usize, u8)| (set >> i & 1 == 1).then_some(f);
            contents(mti, [2, 3, 4, 11, 12, 13, 39].into_iter().enumerate().filter_map(member).collect());
        }
    }
    for _ in 0..rounds * 20_000 {
        let rare = 2 + random.below(6);
        let fields = (2..=128).filter(|f| *f != 65 && !random.once_in(rare)).collect();
        contents(random.below(10_000), fields);
    }
}

/// A content of so many bytes: mostly of its class, else any that the reader takes.
pub fn content(random: &mut Random, r: Row, n: usize) -> Vec<u8> {
    match (r.class, random.below(4)) {
        (Class::B, _) => random.bytes(n, |r| r.next() as u8),
        (_, 0) => random.bytes(n, |r| r.next() as u8 & 0x7F),
        (Class::N, _) => random.bytes(n, Random::digit),
        (Class::Z, _) => random.bytes(n, |r| 0x30 + r.below(16) as u8),
        _ => random.bytes(n, |r| *r.pick(b"ABCXYZabcxyz0123456789 ")),
    }
}

/// A length of the field's content, mostly next to a boundary; `short`: fixed contents may be too short, for cleaning.
fn length(random: &mut Random, r: Row, short: bool) -> usize {
    if r.width == 0 && !(short && random.once_in(2)) {
        return r.most;
    }
    let boundaries = [0, 1, 2, 9, 10, 11, 99, 100, 101, r.most - 1, r.most];
    match random.below(3) {
        0 => random.below(r.most + 1),
        _ => r.most.min(*random.pick(&boundaries)),
    }
}

/// Some of the fields, mostly few.
fn some(random: &mut Random, fields: &[u8]) -> Vec<u8> {
    let share = *random.pick(&[1, 2, 4, 12, 24, 48]);
    fields.iter().copied().filter(|_| random.once_in(share)).collect()
}

fn contents(random: &mut Random, fields: &[u8], short: bool) -> Contents {
    let mti = random.bytes(4, Random::digit).try_into().unwrap();
    let fields = some(random, fields);
    let long = random.once_in(8);
    let mut one = |f: u8| {
        let r = row(f).unwrap();
        let n = length(random, r, short);
        let n = if long || r.width == 0 { n } else { n.min(40) };
        (f, content(random, r, n))
    };
    Contents { mti, fields: fields.into_iter().map(&mut one).collect() }
}

/// The message of contents that are whole, by 01's table.
pub fn message(contents: &Contents) -> Vec<u8> {
    let mut bytes = contents.mti.to_vec();
    bytes.extend([0; 8]);
    for (f, content) in &contents.fields {
        bytes[4 + (*f as usize - 1) / 8] |= 0x80 >> ((f - 1) % 8);
        let width = row(*f).unwrap().width;
        if width > 0 {
            bytes.extend(format!("{:0width$}", content.len()).into_bytes());
        }
        bytes.extend(content);
    }
    bytes
}

pub fn messages(random: &mut Random, rounds: usize, fields: &[u8], to: Sink) {
    for mti in 0..10_000 {
        let mti = format!("{mti:04}").into_bytes().try_into().unwrap();
        to(Case::Read(message(&Contents { mti, fields: Vec::new() })));
    }
    for f in fields {
        one_field(random, *f, to);
    }
    for (i, first) in fields.iter().enumerate() {
        for second in &fields[i + 1..] {
            let whole = |f: u8| (f, vec![b'1'; row(f).unwrap().most.min(3)]);
            let whole = |f: u8| if row(f).unwrap().width == 0 { (f, vec![b'1'; row(f).unwrap().most]) } else { whole(f) };
            let bytes = message(&Contents { mti: *b"0200", fields: vec![whole(*first), whole(*second)] });
            for n in [bytes.len(), bytes.len() - 1, 12, 13, 14] {
                to(Case::Read(bytes[..n.min(bytes.len())].to_vec()));
            }
            to(Case::LookUp(bytes));
        }
    }
    for i in 0..rounds * 60_000 {
        let bytes = message(&contents(random, fields, false));
        let copy = damaged(random, &bytes);
        if i % 4 == 0 {
            to(Case::LookUp(bytes.clone()));
            to(Case::LookUp(copy.clone()));
        }
        to(Case::Read(bytes));
        to(Case::Read(copy));
    }
}

/// A message with one field: every length that its digits can say, with one byte too few, with all, and with one more; a fixed content cut
/// at every place.
fn one_field(random: &mut Random, f: u8, to: Sink) {
    let r = row(f).unwrap();
    let mut bytes = b"0200".to_vec();
    bytes.extend([0; 8]);
    bytes[4 + (f as usize - 1) / 8] |= 0x80 >> ((f - 1) % 8);
    let lengths = if r.width == 0 { r.most..r.most + 1 } else { 0..10usize.pow(r.width as u32) };
    for length in lengths {
        let mut whole = bytes.clone();
        if r.width > 0 {
            whole.extend(format!("{length:0width$}", width = r.width).into_bytes());
        }
        whole.extend(content(random, r, length));
        to(Case::Read(whole[..whole.len() - 1].to_vec()));
        to(Case::Read(whole.clone()));
        to(Case::LookUp(whole.clone()));
        if r.width == 0 {
            for n in 0..whole.len() {
                to(Case::Read(whole[..n].to_vec()));
            }
        }
        whole.push(random.next() as u8);
        to(Case::Read(whole));
    }
}

pub fn writings(random: &mut Random, rounds: usize, fields: &[u8], to: Sink) {
    for f in fields {
        let r = row(*f).unwrap();
        for n in 0..=r.most {
            let one = Contents { mti: *b"0200", fields: vec![(*f, content(random, r, n))] };
            to(Case::Exact(one.clone()));
            to(Case::Clean(one));
        }
    }
    for f in fields.iter().filter(|f| row(**f).unwrap().most <= 3 || **f == 52) {
        for s in short_strings() {
            to(Case::Clean(Contents { mti: *b"0200", fields: vec![(*f, s)] }));
        }
    }
    for _ in 0..rounds * 50_000 {
        to(Case::Clean(contents(random, fields, true)));
        let whole = contents(random, fields, false);
        to(Case::Exact(whole.clone()));
        to(Case::Clean(whole));
    }
}
