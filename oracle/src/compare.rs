//! Asks both sides, counts by kind, and shrinks what differs to its smallest input.
use crate::case::{Case, Contents, KINDS};
use crate::table::Domain;
use crate::{here, there};

#[derive(Clone, Copy, Default)]
struct Tally {
    accepted: usize,
    refused: usize,
    differing: usize,
    outside: usize,
}

pub struct Comparison {
    pub domain: Domain,
    tallies: [Tally; KINDS.len()],
    printed: Vec<Case>,
}

/// How many differences of a kind are shrunk; those whose smallest input is the same are printed once.
const SHRUNK: usize = 20;

impl Comparison {
    pub fn new(domain: Domain) -> Comparison {
        Comparison { domain, tallies: [Tally::default(); KINDS.len()], printed: Vec::new() }
    }

    /// Compares the case if it lies in the domain.
    pub fn case(&mut self, case: Case) {
        let tally = &mut self.tallies[case.kind()];
        if !case.in_domain(&self.domain) {
            tally.outside += 1;
            return;
        }
        let (ours, theirs) = (here::answer(&case), there::answer(&case));
        if !ours.same(&theirs) {
            tally.differing += 1;
            if tally.differing <= SHRUNK {
                self.print_smallest(case);
            }
        } else if ours.accepted() {
            tally.accepted += 1;
        } else {
            tally.refused += 1;
        }
    }

    fn print_smallest(&mut self, case: Case) {
        let smallest = shrink(case, &|c| c.in_domain(&self.domain) && !here::answer(c).same(&there::answer(c)));
        if !self.printed.contains(&smallest) {
            println!("DIFFERS: {smallest}");
            println!("  here:  {}", here::answer(&smallest));
            println!("  there: {}", there::answer(&smallest));
            self.printed.push(smallest);
        }
    }

    pub fn compared(&self) -> usize {
        self.tallies.iter().map(|t| t.accepted + t.refused + t.differing).sum()
    }

    pub fn differing(&self) -> usize {
        self.tallies.iter().map(|t| t.differing).sum()
    }

    /// A line for each kind. "outside" are inputs that were made and left out, since the domain does not hold them.
    pub fn print_counts(&self) {
        println!("{:<16} {:>9} {:>9} {:>9} {:>7} {:>9}", "kind", "compared", "accepted", "refused", "differ", "(outside)");
        for (kind, t) in KINDS.iter().zip(&self.tallies) {
            let compared = t.accepted + t.refused + t.differing;
            println!("{kind:<16} {compared:>9} {:>9} {:>9} {:>7} {:>9}", t.accepted, t.refused, t.differing, t.outside);
        }
    }
}

/// The smallest case, by taking away and simplifying as long as the trait stays.
pub fn shrink(mut case: Case, stays: &dyn Fn(&Case) -> bool) -> Case {
    while let Some(smaller) = smaller(&case).into_iter().find(|c| stays(c)) {
        case = smaller;
    }
    case
}

fn smaller(case: &Case) -> Vec<Case> {
    let of = |bytes: &[u8], build: &dyn Fn(Vec<u8>) -> Case| smaller_bytes(bytes).into_iter().map(build).collect::<Vec<_>>();
    match case {
        Case::Read(b) => smaller_message(b).into_iter().map(Case::Read).collect(),
        Case::LookUp(b) => smaller_message(b).into_iter().map(Case::LookUp).collect(),
        Case::Clean(c) => smaller_contents(c).into_iter().map(Case::Clean).collect(),
        Case::Exact(c) => smaller_contents(c).into_iter().map(Case::Exact).collect(),
        Case::Required(c) => smaller_contents(c).into_iter().map(Case::Required).collect(),
        Case::Pan(b) => of(b, &Case::Pan),
        Case::Class(f, b) => of(b, &|b| Case::Class(*f, b)),
        Case::Field(f, b) => of(b, &|b| Case::Field(*f, b)),
        Case::Date(b) => of(b, &Case::Date),
        Case::Time(b) => of(b, &Case::Time),
        Case::LengthEncode(n, d, e) => (0..*n).map(|n| Case::LengthEncode(n, *d, *e)).collect(),
        Case::LengthDecode(b, d, e) => of(b, &|b| Case::LengthDecode(b, *d, *e)),
        Case::BcdEncode(b) => of(b, &Case::BcdEncode),
        Case::BcdDecode(b, _) => of(b, &|b| Case::BcdDecode(b.clone(), 2 * b.len() as u64)),
        Case::EbcdicEncode(b) => of(b, &Case::EbcdicEncode),
        Case::EbcdicDecode(b) => of(b, &Case::EbcdicDecode),
    }
}

/// Without a part, long parts first; then with one byte made `0`.
fn smaller_bytes(bytes: &[u8]) -> Vec<Vec<u8>> {
    let mut all = Vec::new();
    let mut n = bytes.len();
    while n > 0 {
        for at in (0..=bytes.len() - n).rev() {
            all.push([&bytes[..at], &bytes[at + n..]].concat());
        }
        n = if n > 16 { n / 2 } else { n - 1 };
    }
    for (at, b) in bytes.iter().enumerate() {
        if *b != b'0' {
            all.push(with(bytes, at, b'0'));
        }
    }
    all
}

/// The same, but bits of the bitmap are cleared one by one.
fn smaller_message(bytes: &[u8]) -> Vec<Vec<u8>> {
    let bitmap = 4..bytes.len().min(12);
    let bits = bitmap.flat_map(|at| (0..8).map(move |i| (at, 1u8 << i))).filter(|(at, bit)| bytes[*at] & bit != 0);
    let cleared: Vec<Vec<u8>> = bits.map(|(at, bit)| with(bytes, at, bytes[at] & !bit)).collect();
    let front = bytes.get(4..12).map(<[u8]>::to_vec);
    let kept = smaller_bytes(bytes).into_iter().filter(|b| b.len() < 12 || b.get(4..12).map(<[u8]>::to_vec) == front);
    cleared.into_iter().chain(kept).collect()
}

fn with(bytes: &[u8], at: usize, b: u8) -> Vec<u8> {
    let mut copy = bytes.to_vec();
    copy[at] = b;
    copy
}

fn smaller_contents(contents: &Contents) -> Vec<Contents> {
    let mut all = Vec::new();
    for i in 0..contents.fields.len() {
        let mut without = contents.clone();
        without.fields.remove(i);
        all.push(without);
    }
    if contents.mti != *b"0800" {
        all.push(Contents { mti: *b"0800", ..contents.clone() });
    }
    for (i, (_, content)) in contents.fields.iter().enumerate() {
        for content in smaller_bytes(content) {
            let mut with = contents.clone();
            with.fields[i].1 = content;
            all.push(with);
        }
    }
    all
}
