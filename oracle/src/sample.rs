//! A sample of cases and of the crate's answers, as the files `stdin` and `stdout` of the program crates/oracle_cases: a line for each case,
//! and the line that the program must print for it. Only the crate is asked here.
use crate::case::{Answer, Case, Contents, Why};
use crate::inputs::{self, Sink};
use crate::random::Random;
use crate::table::Domain;
use crate::{notes, there};
use std::collections::HashMap;
use std::fs;
use std::path::Path;

/// Inputs over this many bytes are left out, but for the first few of a kind.
const LARGE: usize = 90;
const FEW: usize = 2;

pub fn write(folder: &Path, seed: u64, domain: &Domain) -> std::io::Result<()> {
    let mut sample = Sample { domain, kept: HashMap::new(), cases: String::new(), answers: String::new() };
    let random = &mut Random::new(seed);
    let to: Sink = &mut |case| sample.offer(case);
    inputs::length_indicators(to);
    inputs::conversions(random, 1, to);
    inputs::dates_and_times(random, 1, to);
    inputs::pans(random, 1, to);
    inputs::classes(random, 1, &domain.class, to);
    inputs::field_checks(random, 1, &domain.class, to);
    inputs::required(random, 1, to);
    inputs::messages(random, 1, &domain.reading, to);
    inputs::writings(random, 1, &domain.cleaning, to);
    println!("{} cases, {} bytes, and {} bytes of answers", sample.cases.lines().count(), sample.cases.len(), sample.answers.len());
    fs::write(folder.join("stdin"), sample.cases)?;
    fs::write(folder.join("stdout"), sample.answers)
}

struct Sample<'a> {
    domain: &'a Domain,
    /// How many cases of a sort were kept.
    kept: HashMap<String, usize>,
    cases: String,
    answers: String,
}

impl Sample<'_> {
    /// Keeps the case if few of its sort are kept.
    fn offer(&mut self, case: Case) {
        let Some((letter, argument, input)) = spelt(&case) else { return };
        if input.len() > 1200 || !case.in_domain(self.domain) {
            return;
        }
        let answer = there::answer(&case);
        let (sort, quota) = if input.len() > LARGE { (letter.to_string(), FEW) } else { sort(&case, letter, &answer) };
        let kept = self.kept.entry(sort).or_default();
        if *kept < quota {
            *kept += 1;
            self.cases += &format!("{letter} {:04x}{argument:02x} {}\n", input.len(), hex(&input));
            self.answers += &format!("{}\n", said(&case, &answer));
        }
    }
}

/// The case as a letter, an argument and the input's bytes; crates/oracle_cases reads the same.
fn spelt(case: &Case) -> Option<(char, u64, Vec<u8>)> {
    let with_notes = |letter, c: &Contents| {
        let Answer::Written(bytes, _) = there::answer(case) else { return None };
        let (values, mut notes) = notes::of(c, bytes.len());
        notes.extend(values);
        Some((letter, c.fields.len() as u64, notes))
    };
    Some(match case {
        Case::Read(message) => ('r', 0, message.clone()),
        Case::Clean(c) => return with_notes('c', c),
        Case::Exact(c) => return with_notes('e', c),
        Case::Required(c) => {
            let (values, mut notes) = notes::of(c, 0);
            notes.extend(values);
            ('q', c.fields.len() as u64, notes)
        }
        Case::Pan(content) => ('p', 0, content.clone()),
        Case::Class(f, content) => ('k', *f as u64, content.clone()),
        Case::Field(f, content) => ('f', *f as u64, content.clone()),
        Case::Date(content) => ('d', 0, content.clone()),
        Case::Time(content) => ('t', 0, content.clone()),
        Case::LengthEncode(n, digits, e) => ('l', *digits, vec![*e as u8, (n >> 8) as u8, *n as u8]),
        Case::LengthDecode(source, digits, e) => ('m', *digits, [&[*e as u8], source.as_slice()].concat()),
        Case::BcdEncode(source) => ('b', 0, source.clone()),
        Case::BcdDecode(source, digits) if *digits < 256 => ('u', *digits, source.clone()),
        Case::EbcdicEncode(source) => ('x', 0, source.clone()),
        Case::EbcdicDecode(source) => ('a', 0, source.clone()),
        _ => return None,
    })
}

/// What sort of case it is, and how many of that sort are kept.
fn sort(case: &Case, letter: char, answer: &Answer) -> (String, usize) {
    let verdict = match answer {
        Answer::Refused(why, _) => format!("{why:?}"),
        _ => "accepted".into(),
    };
    let (detail, quota) = match case {
        Case::Read(message) => {
            let bitmap: Vec<u8> = message.iter().skip(4).take(8).copied().collect();
            let many = bitmap.iter().map(|b| b.count_ones()).sum::<u32>() > 1;
            (if many { format!("many {}", message.len()) } else { format!("{bitmap:?} {}", message.len() / 12) }, 2)
        }
        Case::Clean(c) | Case::Exact(c) if c.fields.len() == 1 => (format!("{} {}", c.fields[0].0, c.fields[0].1.len() / 6), 1),
        Case::Clean(c) | Case::Exact(c) => (format!("many {}", c.fields.len()), 20),
        Case::Required(c) => (format!("{:?}", &c.mti[1..3]), 1),
        Case::Class(f, content) => (format!("{f} {}", content.len().min(3)), 1),
        Case::Field(f, content) => (format!("{f} {}", content.len()), 1),
        Case::Date(s) | Case::Time(s) => {
            let date: &[&[u8]] = &[b"00", b"01", b"12", b"13", b"31", b"32"];
            let time: &[&[u8]] = &[b"00", b"23", b"24", b"59", b"60"];
            let edges = if letter == 'd' { date } else { time };
            let pairs: Vec<&[u8]> = s.chunks(2).map(|pair| if edges.contains(&pair) { pair } else { b"" }).collect();
            (format!("{pairs:?}"), 1)
        }
        Case::Pan(s) => (format!("{} {}", s.iter().filter(|b| b.is_ascii_digit()).count(), s.is_ascii()), 4),
        Case::LengthEncode(n, digits, e) if edge(*n) => (format!("{n} {digits} {e:?}"), 1),
        Case::LengthDecode(s, digits, e) => (format!("{s:?} {digits} {e:?}"), usize::from(edge(spelt_length(s)))),
        Case::BcdEncode(s) | Case::BcdDecode(s, _) | Case::EbcdicEncode(s) | Case::EbcdicDecode(s) if s.len() < 2 => (format!("{s:?}"), 1),
        Case::BcdEncode(s) | Case::BcdDecode(s, _) | Case::EbcdicEncode(s) | Case::EbcdicDecode(s) => (s.len().to_string(), 2),
        _ => (String::new(), 0),
    };
    (format!("{letter} {verdict} {detail}"), quota)
}

/// Lengths next to a change of digits.
fn edge(n: u64) -> bool {
    matches!(n, 0..=11 | 98..=101 | 255..=257 | 998..=999)
}

/// The length that digits in any encoding spell.
fn spelt_length(source: &[u8]) -> u64 {
    match source {
        [packed] => (10 * (packed >> 4) + (packed & 0x0F)) as u64,
        _ => source.iter().fold(0, |n, d| 10 * n + (d & 0x0F) as u64),
    }
}

/// The line that the program prints.
fn said(case: &Case, answer: &Answer) -> String {
    match answer {
        Answer::Good => "good".into(),
        Answer::Refused(why, _) if matches!(case, Case::Field(..)) => format!("refused {}", number(why)),
        Answer::Bytes(bytes) => hex(bytes),
        Answer::Number(n) => n.to_string(),
        Answer::Message(used, bitmaps, fields) => {
            let fields: String = fields.iter().map(|(f, content)| format!(" {f}={}", hex(content))).collect();
            format!("used {used} bitmaps {bitmaps}{fields}")
        }
        Answer::Written(bytes, padded) if matches!(case, Case::Clean(_)) => {
            let mut set = [0u8; 24];
            padded.iter().for_each(|f| set[(*f as usize - 1) / 8] |= 0x80 >> ((f - 1) % 8));
            format!("{} padded {}", hex(bytes), hex(&set))
        }
        Answer::Written(bytes, _) => hex(bytes),
        Answer::Refused(Why::Missing(f), _) => format!("refused {f}"),
        Answer::Refused(..) => "refused".into(),
        _ => panic!("no answer of the domain"),
    }
}

/// The refusal number of a field check.
fn number(why: &Why) -> u8 {
    match why {
        Why::Class => 16,
        Why::Long => 12,
        Why::Pan => 17,
        Why::Zero => 18,
        _ => panic!("no refusal of a field check"),
    }
}

fn hex(bytes: &[u8]) -> String {
    bytes.iter().map(|b| format!("{b:02x}")).collect()
}
