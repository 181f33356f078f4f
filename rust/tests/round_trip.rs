//! Made messages, and messages with a byte changed: what is read is written back to the byte, and every way to a field agrees.

use obolchime::length::{self, Encoding};
use obolchime::{bcd, ebcdic, look_up, pack, read, unpack, write_clean, write_exact, Notes, Translated};

/// Numbers that look random and are the same on each run (xorshift).
struct Dice(u64);

impl Dice {
    fn below(&mut self, n: usize) -> usize {
        self.0 ^= self.0 << 13;
        self.0 ^= self.0 >> 7;
        self.0 ^= self.0 << 17;
        (self.0 % n as u64) as usize
    }
}

/// Some fields of the table: number, length digits (0: fixed) and length.
const SOME: [(usize, usize, usize); 14] = [
    (2, 2, 19),
    (3, 0, 6),
    (4, 0, 12),
    (7, 0, 10),
    (11, 0, 6),
    (35, 2, 37),
    (41, 0, 8),
    (48, 3, 999),
    (52, 0, 8),
    (64, 0, 8),
    (70, 0, 3),
    (128, 0, 8),
    (129, 3, 999),
    (192, 0, 8),
];

fn some_message(dice: &mut Dice) -> Vec<u8> {
    let chosen: Vec<_> = SOME.iter().filter(|_| dice.below(2) == 0).collect();
    let last = chosen.last().map_or(0, |field| field.0);
    let count = (last.max(1) - 1) / 64 + 1 + dice.below(2);
    let count = count.min(3);
    let mut maps = vec![0u8; 8 * count];
    let mut body = Vec::new();
    let chain = [1, 65].into_iter().take(count - 1);
    for number in chain.chain(chosen.iter().map(|field| field.0)) {
        maps[(number - 1) / 8] |= 0x80 >> ((number - 1) % 8);
    }
    for &&(_, digits, most) in &chosen {
        let size = if digits == 0 { most } else { dice.below(most + 1) };
        if digits != 0 {
            body.extend(format!("{size:0digits$}").bytes());
        }
        body.extend((0..size).map(|_| b'0' + dice.below(10) as u8));
    }
    [&b"0200"[..], &maps, &body].concat()
}

#[test]
fn what_is_read_is_written_back() {
    let mut dice = Dice(0x0B01C41E);
    for _ in 0..2000 {
        let bytes = some_message(&mut dice);
        let spare: Vec<u8> = (0..dice.below(4)).map(|_| dice.below(256) as u8).collect();
        let input = [bytes.as_slice(), &spare].concat();
        let message = read(&input).expect("it was made to be a message");
        assert_eq!((message.bytes(), message.rest()), (bytes.as_slice(), spare.as_slice()));
        assert_eq!(message.to_vec().unwrap(), bytes);
        let mut out = vec![0; bytes.len()];
        let cleaned = write_clean(&input, message.notes(), &mut out).unwrap();
        assert_eq!((cleaned.length, cleaned.padded.is_empty()), (bytes.len(), true));
        assert_eq!(out, bytes);
        for number in 0..300 {
            let walked = message.fields().find(|field| field.number == number).map(|field| field.content);
            assert_eq!(message.get(number), walked);
            assert_eq!(look_up(&input, message.notes(), number).ok(), walked);
        }
    }
}

#[test]
fn what_is_packed_comes_back() {
    let mut dice = Dice(0x9AC4ED);
    for _ in 0..2000 {
        let bytes = some_message(&mut dice);
        let spare: Vec<u8> = (0..dice.below(4)).map(|_| dice.below(256) as u8).collect();
        let mut packed = vec![0xEE; bytes.len()];
        let there = pack(&[bytes.as_slice(), &spare].concat(), &mut packed).expect("all its contents of class n are digits");
        assert_eq!(there.used, bytes.len());
        assert!(packed[there.written..].iter().all(|&byte| byte == 0xEE));
        packed.truncate(there.written);
        let mut plain = vec![0xEE; 2 * packed.len()];
        let back = unpack(&[packed.as_slice(), &spare].concat(), &mut plain).expect("it was packed");
        assert_eq!(back, Translated { used: there.written, written: there.used });
        assert_eq!(plain[..back.written], bytes);
        assert!(plain[back.written..].iter().all(|&byte| byte == 0xEE));
    }
}

#[test]
fn a_changed_byte_is_unpacked_or_refused() {
    let mut dice = Dice(0x8583);
    let (mut accepted, mut refused) = (0, 0);
    for _ in 0..20000 {
        let bytes = some_message(&mut dice);
        let mut input = vec![0; bytes.len()];
        let size = pack(&bytes, &mut input).unwrap().written;
        input.truncate(size);
        let at = dice.below(input.len().min(40));
        input[at] = dice.below(256) as u8;
        let mut plain = vec![0; 2 * input.len()];
        match unpack(&input, &mut plain) {
            Ok(done) => {
                accepted += 1;
                let mut again = vec![0; done.used];
                let back = pack(&plain[..done.written], &mut again);
                assert_eq!(back, Ok(Translated { used: done.written, written: done.used }));
                assert_eq!(again, input[..done.used]);
                assert_eq!(read(&plain).unwrap().used(), done.written);
            }
            Err(refusal) => {
                refused += 1;
                assert!([4, 5, 7, 8, 22].contains(&refusal.number()), "{refusal}");
                assert!(refusal.position() <= input.len());
            }
        }
    }
    assert!(accepted > 1000 && refused > 1000, "{accepted} accepted, {refused} refused");
}

#[test]
fn a_changed_byte_is_read_or_refused() {
    let mut dice = Dice(8583);
    let (mut accepted, mut refused) = (0, 0);
    for _ in 0..20000 {
        let mut input = some_message(&mut dice);
        let at = dice.below(input.len().min(40));
        input[at] = dice.below(256) as u8;
        match read(&input) {
            Ok(message) => {
                accepted += 1;
                assert_eq!(message.to_vec().unwrap(), message.bytes());
            }
            Err(refusal) => {
                refused += 1;
                assert!((3..=8).contains(&refusal.number()), "{refusal}");
                assert!(refusal.position() <= input.len());
            }
        }
    }
    assert!(accepted > 1000 && refused > 1000, "{accepted} accepted, {refused} refused");
}

#[test]
fn padding_is_named() {
    let mut notes = Notes::new(*b"0200", 3).unwrap();
    for (number, offset, length) in [(3, 0, 2), (28, 0, 1), (41, 2, 2), (52, 0, 4), (64, 0, 8), (70, 0, 0), (192, 4, 1)] {
        notes.field(number, offset, length).unwrap();
    }
    let notes = notes.end(28 + 6 + 9 + 8 + 8 + 8 + 3 + 8).unwrap();
    let values = b"C1T1\xFF678";
    let mut out = vec![0; 78];
    let cleaned = write_clean(values, &notes, &mut out).unwrap();
    assert_eq!(cleaned.length, 78);
    assert_eq!(cleaned.padded.iter().collect::<Vec<_>>(), [3, 28, 41, 52, 70, 192]);
    assert_eq!(format!("{:?}", cleaned.padded), "{3, 28, 41, 52, 70, 192}");
    assert!(cleaned.padded.contains(3) && !cleaned.padded.contains(64) && !cleaned.padded.contains(0));
    assert_eq!(out[28..], *b"0000C1C        T1      C1T1\0\0\0\0C1T1\xFF678000\xFF\0\0\0\0\0\0\0");
    // the set is placed as the bitmaps are, without the bits that chain them and without field 64
    let mut maps: [u8; 24] = out[4..28].try_into().unwrap();
    maps[0] &= 0x7F;
    maps[8] &= 0x7F;
    maps[7] &= 0xFE;
    assert_eq!(cleaned.padded.to_bytes(), maps);
    assert_eq!(write_exact(values, &notes, &mut out).unwrap_err().to_string(), "field 3: length not allowed (12) at byte 6 of the notes");
}

#[test]
fn conversions_go_back() {
    let mut dice = Dice(1987);
    for size in 0..60 {
        let digits: Vec<u8> = (0..size).map(|_| b'0' + dice.below(10) as u8).collect();
        assert_eq!(bcd::decode(&bcd::encode(&digits).unwrap(), size).unwrap(), digits);
    }
    let text: Vec<u8> = (0..128).collect();
    assert_eq!(ebcdic::decode(&ebcdic::encode(&text).unwrap()).unwrap(), text);
    let meaning = (0..=255u8).filter(|&byte| ebcdic::decode(&[byte]).is_ok()).count();
    assert_eq!(meaning, 128);
    for encoding in [Encoding::Ascii, Encoding::Bcd, Encoding::Ebcdic] {
        for (digits, most) in [(2, 99), (3, 999)] {
            for n in 0..=most {
                assert_eq!(length::decode(&length::encode(n, digits, encoding).unwrap(), digits, encoding), Ok(n));
            }
            assert!(length::encode(most + 1, digits, encoding).is_err());
        }
    }
}
