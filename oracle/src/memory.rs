//! Calls every exported routine on good and damaged inputs, with buffers that end where their allocation ends: for a program that watches
//! memory, such as valgrind. Outputs are offered with no room, one byte too little, just enough and more; notes are damaged as well.
use crate::case::{Case, Contents};
use crate::inputs::{self, Sink};
use crate::random::Random;
use crate::{here, notes};

/// One of so many cases of a comparison is taken.
const STRIDE: usize = 211;

pub fn run(seed: u64) {
    let fields: Vec<u8> = (2..=192).filter(|f| *f != 65).collect();
    let random = &mut Random::new(seed);
    let (mut met, mut watch) = (0, Watch { random: Random::new(!seed), calls: 0, refused: 0, sum: 0 });
    let to: Sink = &mut |case| {
        met += 1;
        if met % STRIDE == 0 {
            watch.case(&case);
        }
    };
    inputs::length_indicators(to);
    inputs::conversions(random, 1, to);
    inputs::pans(random, 1, to);
    inputs::dates_and_times(random, 1, to);
    inputs::classes(random, 1, &[2, 28, 35, 192], to);
    inputs::messages(random, 1, &fields[..63], to);
    inputs::writings(random, 1, &fields, to);
    println!("seed {seed}: {} calls, {} refused, sum {}", watch.calls, watch.refused, watch.sum);
}

struct Watch {
    random: Random,
    calls: usize,
    refused: usize,
    /// Of every answer and every byte written, so that each is looked at.
    sum: u64,
}

impl Watch {
    fn case(&mut self, case: &Case) {
        match case {
            Case::Read(message) | Case::LookUp(message) => self.message(message),
            Case::Clean(c) | Case::Exact(c) | Case::Required(c) => self.contents(c),
            Case::Pan(s) | Case::Date(s) | Case::Time(s) | Case::Class(_, s) | Case::Field(_, s) => self.content(s),
            Case::BcdEncode(s) | Case::BcdDecode(s, _) | Case::EbcdicEncode(s) | Case::EbcdicDecode(s) => self.source(s),
            Case::LengthEncode(n, digits, e) => self.offered(3, |out| here::length_encode(*n, *digits, *e, out)),
            Case::LengthDecode(s, digits, e) => {
                let answer = here::length_decode(&exactly(s), *digits, *e);
                self.told(answer.verdict, answer.length);
            }
        }
    }

    fn message(&mut self, message: &[u8]) {
        let message = exactly(message);
        self.link(&message);
        for room in [notes::ROOM, notes::ROOM - 1, 0] {
            let mut notes = exactly(&vec![0xEE; room]);
            let answer = here::read(&message, &mut notes);
            self.told(answer.verdict, answer.used);
            if answer.verdict.number == 0 {
                let size = notes::taken_apart(&notes).unwrap().size;
                self.notes(&message, &notes[..size]);
            }
        }
    }

    /// Packed, and taken for a packed one; what was packed is unpacked, whole and with a byte changed.
    fn link(&mut self, message: &[u8]) {
        let written = |t: here::Translated| here::Output { verdict: t.verdict, length: t.written };
        self.offered(message.len(), |out| written(here::pack(message, out)));
        self.offered(2 * message.len(), |out| written(here::unpack(message, out)));
        let mut packed = vec![0xEE; message.len()];
        let n = here::pack(message, &mut packed).written as usize;
        for damaged in [false, true] {
            let mut packed = exactly(&packed[..n]);
            if damaged && n > 0 {
                packed[self.random.below(n)] = self.random.next() as u8;
            }
            self.offered(message.len(), |out| written(here::unpack(&packed, out)));
        }
    }

    /// Written, and what was written is read.
    fn contents(&mut self, contents: &Contents) {
        let length = here::length_of(contents);
        let (values, notes) = notes::of(contents, length);
        self.notes(&values, &notes);
        let mut out = vec![0xEE; length];
        if here::write_clean(&values, &notes, &mut out).verdict.number == 0 {
            self.message(&out);
        }
    }

    /// Everything that walks notes: as they are, cut, and with a byte changed; and with fewer values.
    fn notes(&mut self, values: &[u8], notes: &[u8]) {
        let at = self.random.below(notes.len());
        let mut changed = notes.to_vec();
        changed[at] = self.random.next() as u8;
        for notes in [notes, &notes[..at], &changed] {
            let notes = exactly(notes);
            for n in [values.len(), self.random.below(values.len() + 1)] {
                let values = exactly(&values[..n]);
                let room = values.len() + 7 * notes.len() + 64;
                self.offered(room, |out| here::write_exact(&values, &notes, out));
                self.offered(room, |out| {
                    let answer = here::write_clean(&values, &notes, out);
                    here::Output { verdict: answer.verdict, length: answer.length }
                });
                for f in [0, 2, 3, 65, 128, 192, 1 << 40] {
                    let found = here::look_up(&values, &notes, f);
                    self.told(found.verdict, found.length);
                }
                let verdict = here::check_required(&values, &notes);
                self.told(verdict, 0);
            }
        }
    }

    fn content(&mut self, content: &[u8]) {
        let content = exactly(content);
        for f in [0, 2, 4, 28, 34, 35, 37, 41, 52, 65, 192, 193, 1 << 40] {
            let verdict = here::check_field(f, &content);
            self.told(verdict, 0);
        }
        for verdict in [here::check_pan(&content), here::check_date(&content), here::check_time(&content)] {
            self.told(verdict, 0);
        }
    }

    fn source(&mut self, source: &[u8]) {
        let source = exactly(source);
        self.offered(source.len(), |out| here::bcd_encode(&source, out));
        self.offered(source.len(), |out| here::ebcdic_encode(&source, out));
        self.offered(source.len(), |out| here::ebcdic_decode(&source, out));
        let n = source.len() as u64;
        for digits in [2 * n, (2 * n).saturating_sub(1), 2 * n + 1, 0, u64::MAX] {
            self.offered(2 * source.len(), |out| here::bcd_decode(&source, digits, out));
        }
    }

    /// With more room than is needed, then just enough, one byte too little, and none.
    fn offered(&mut self, most: usize, write: impl Fn(&mut [u8]) -> here::Output) {
        let length = self.offer(most, &write);
        for room in [length, length.saturating_sub(1), 0] {
            self.offer(room, &write);
        }
    }

    fn offer(&mut self, room: usize, write: &impl Fn(&mut [u8]) -> here::Output) -> usize {
        let mut out = exactly(&vec![0xEE; room]);
        let answer = write(&mut out);
        self.told(answer.verdict, answer.length);
        self.sum += out.iter().map(|b| *b as u64).sum::<u64>();
        answer.length as usize
    }

    fn told(&mut self, v: here::Verdict, value: u64) {
        self.calls += 1;
        self.refused += usize::from(v.number != 0);
        self.sum = self.sum.wrapping_add(v.number + v.field + v.position + value);
    }
}

/// A copy in an allocation of just its size.
fn exactly(bytes: &[u8]) -> Box<[u8]> {
    bytes.into()
}
