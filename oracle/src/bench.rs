//! The time of the same work on either side: three messages read and written, and the conversions and checks.
use crate::case::{Case, Contents};
use crate::table::{row, Class, Domain};
use crate::{here, inputs, notes, there};
use iso8583_core::encoding::{decode_bcd, decode_ebcdic, encode_bcd, encode_ebcdic};
use iso8583_core::message::ISO8583Message;
use iso8583_core::validation::Validator;
use std::hint::black_box;
use std::time::Instant;

type Call = Box<dyn FnMut()>;

/// Work that both sides can do: here, there, and perhaps in a second way here.
struct Work {
    name: String,
    sides: Vec<(&'static str, Call)>,
}

/// Times are taken in so many turns, here and there by turns, and the least is printed: other work on the machine only adds to it.
const TURNS: usize = 500;
const TURN_NANOSECONDS: f64 = 0.5e6;

pub fn run() {
    println!("{:<36} {:<12} {:>10} {:>10}", "nanoseconds", "", "one call", "there/here");
    for mut work in all() {
        let calls: Vec<usize> = work.sides.iter_mut().map(|(_, call)| calls_in_a_turn(call)).collect();
        let mut times = vec![Vec::new(); work.sides.len()];
        for _ in 0..TURNS {
            for (i, (_, call)) in work.sides.iter_mut().enumerate() {
                times[i].push(time_of(call, calls[i]) / calls[i] as f64);
            }
        }
        let least: Vec<f64> = times.into_iter().map(|turns| turns.into_iter().fold(f64::INFINITY, f64::min)).collect();
        let there = least[1];
        for ((side, _), time) in work.sides.iter().zip(&least) {
            println!("{:<36} {side:<12} {time:>10.0} {:>10.2}", work.name, there / time);
        }
    }
}

/// Does one side's work so many times, for a program that counts instructions.
pub fn repeat(name: &str, side: &str, times: usize) {
    let mut work = all().into_iter().find(|w| w.name == name).expect("the name of some work");
    let (_, call) = work.sides.iter_mut().find(|(s, _)| *s == side).expect("a side of that work");
    calls_to_be_counted(call, times);
}

/// A function of its own, so that only what happens in it is counted.
#[inline(never)]
fn calls_to_be_counted(call: &mut Call, times: usize) {
    (0..times).for_each(|_| call());
}

/// The names of all work, and its sides.
pub fn names() -> Vec<(String, &'static str)> {
    all().iter().flat_map(|w| w.sides.iter().map(|(side, _)| (w.name.clone(), *side)).collect::<Vec<_>>()).collect()
}

/// What a call answers is thrown away, but not before it is made.
fn done<T>(answer: T) {
    drop(answer);
}

fn time_of(call: &mut Call, times: usize) -> f64 {
    let start = Instant::now();
    (0..times).for_each(|_| call());
    start.elapsed().as_nanos() as f64
}

fn calls_in_a_turn(call: &mut Call) -> usize {
    let once = time_of(call, 100) / 100.0;
    (TURN_NANOSECONDS / once.max(1.0)) as usize + 1
}

fn all() -> Vec<Work> {
    let mut all = Vec::new();
    for (name, contents) in messages() {
        let message = inputs::message(&contents);
        let same = |case: Case| assert!(here::answer(&case).same(&there::answer(&case)), "{case}");
        same(Case::Read(message.clone()));
        same(Case::Exact(contents.clone()));
        same(Case::Clean(contents.clone()));
        let name = format!("{name}, {} fields, {} bytes", contents.fields.len(), message.len());
        all.push(reading(format!("read {name}"), message.clone()));
        all.push(writing(format!("write {name}"), message));
    }
    all.extend(conversions());
    all
}

/// A short message, a purchase with twelve fields, and one with every field on which reading is compared and with field 55, each as long as it
/// can be. Field 55 is binary here and text there, so it holds text.
fn messages() -> Vec<(&'static str, Contents)> {
    let of = |mti: &[u8; 4], fields: &[u8]| {
        let whole = |f: &u8| {
            let r = row(*f).unwrap();
            let n = if *f == 2 && fields.len() < 20 { 16 } else { r.most };
            (*f, vec![if r.class == Class::B && *f != 55 { 0xA5 } else { b'1' }; n])
        };
        Contents { mti: *mti, fields: fields.iter().map(whole).collect() }
    };
    vec![
        ("short", of(b"0800", &[7, 11])),
        ("typical", of(b"0200", &[2, 3, 4, 7, 11, 12, 13, 22, 25, 37, 41, 42])),
        ("long", of(b"0200", &[&Domain::of_the_crate().reading[..], &[55]].concat())),
    ]
}

/// Here into one buffer of notes that is used again and not cleared; there into a new message.
fn reading(name: String, message: Vec<u8>) -> Work {
    let (ours, theirs) = (message.clone(), message);
    let mut notes = [0; notes::ROOM];
    Work {
        name,
        sides: vec![
            ("here", Box::new(move || done(black_box(here::read(black_box(&ours), &mut notes))))),
            ("there", Box::new(move || done(black_box(ISO8583Message::from_bytes(black_box(&theirs)))))),
        ],
    }
}

/// Here by the reader's notes into one buffer that is used again and not cleared; there from a message that was read, into a new `Vec`.
fn writing(name: String, message: Vec<u8>) -> Work {
    let mut room = [0; notes::ROOM];
    here::read(&message, &mut room);
    let size = notes::taken_apart(&room).unwrap().size;
    let notes = room[..size].to_vec();
    let read = ISO8583Message::from_bytes(&message).unwrap();
    let (values, values2, notes2) = (message.clone(), message.clone(), notes.clone());
    let (mut out, mut out2) = (message.clone(), message);
    Work {
        name,
        sides: vec![
            ("here, exact", Box::new(move || done(black_box(here::write_exact(black_box(&values), black_box(&notes), &mut out))))),
            ("there", Box::new(move || done(black_box(black_box(&read).to_bytes())))),
            ("here, clean", Box::new(move || done(black_box(here::write_clean(black_box(&values2), black_box(&notes2), &mut out2))))),
        ],
    }
}

fn conversions() -> Vec<Work> {
    let pan = "4111111111111111";
    let text = "CARD ACCEPTOR NAME, STREET 12, CITY   DE";
    let packed = encode_bcd(pan).unwrap();
    let ebcdic = encode_ebcdic(text).unwrap();
    let (packed2, ebcdic2) = (packed.clone(), ebcdic.clone());
    let mut out = [[0; 64]; 4];
    let [a, b, c, d] = &mut out;
    let (mut a, mut b, mut c, mut d) = (*a, *b, *c, *d);
    let work = |name: &str, ours: Call, theirs: Call| Work { name: name.into(), sides: vec![("here", ours), ("there", theirs)] };
    vec![
        work(
            "BCD encoding, 16 digits",
            Box::new(move || done(black_box(here::bcd_encode(black_box(pan.as_bytes()), &mut a)))),
            Box::new(move || done(black_box(encode_bcd(black_box(pan))))),
        ),
        work(
            "BCD decoding, 16 digits",
            Box::new(move || done(black_box(here::bcd_decode(black_box(&packed), 16, &mut b)))),
            Box::new(move || done(black_box(decode_bcd(black_box(&packed2), 16)))),
        ),
        work(
            "EBCDIC encoding, 40 bytes",
            Box::new(move || done(black_box(here::ebcdic_encode(black_box(text.as_bytes()), &mut c)))),
            Box::new(move || done(black_box(encode_ebcdic(black_box(text))))),
        ),
        work(
            "EBCDIC decoding, 40 bytes",
            Box::new(move || done(black_box(here::ebcdic_decode(black_box(&ebcdic), &mut d)))),
            Box::new(move || done(black_box(decode_ebcdic(black_box(&ebcdic2))))),
        ),
        work(
            "PAN check, 16 digits",
            Box::new(move || done(black_box(here::check_pan(black_box(pan.as_bytes()))))),
            Box::new(move || done(black_box(Validator::validate_pan(black_box(pan))))),
        ),
    ]
}
