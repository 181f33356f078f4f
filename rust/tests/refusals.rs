//! What refusals say, and that they leave the buffers alone.

use obolchime::length::{self, Encoding};
use obolchime::{
    bcd, check, ebcdic, look_up, number, pack, read, unpack, write_clean, write_exact, NotePart, Notes, Refusal, TooLarge, Within,
};

fn words(answer: Result<impl std::fmt::Debug, Refusal>) -> String {
    answer.expect_err("this is refused").to_string()
}

#[test]
fn reading() {
    let one = |body: &[u8]| [b"0800\x40\0\0\0\0\0\0\0", body].concat();
    assert_eq!(words(read(b"")), "message too short (2)");
    assert_eq!(words(read(b"08x0\0\0\0\0\0\0\0\0")), "MTI has a non-digit (3) at byte 2");
    assert_eq!(words(read(b"x800\0\0\0\0\0\0\0\0")), "MTI has a non-digit (3) at byte 0");
    assert_eq!(words(read(b"0800\x80\0\0\0\0\0\0\0")), "second or third bitmap incomplete (4) at byte 12");
    assert_eq!(words(read(&one(b"1"))), "field 2: length digits or content run past the end (5) at byte 12");
    assert_eq!(words(read(&one(b"1x"))), "field 2: a length byte is not 0-9 (6) at byte 12");
    assert_eq!(words(read(&one(b"20"))), "field 2: length over the table's (7) at byte 12");
    assert_eq!(words(read(&one(b"01\x80"))), "field 2: text byte over 0x7F (8) at byte 12");
    assert_eq!(read(b"").unwrap_err().within(), Within::Nothing);
    assert_eq!(read(&one(b"1")).unwrap_err().within(), Within::Message);
}

#[test]
fn packing() {
    let mut out = [0xA5; 64];
    let mut packed = |input: &[u8]| {
        let answer = pack(input, &mut out);
        assert_eq!(out, [0xA5; 64]);
        words(answer)
    };
    let one = |body: &[u8]| [b"0800\x40\0\0\0\0\0\0\0", body].concat();
    assert_eq!(packed(b"0800\0\0\0\0\0\0\0"), "message too short (2)");
    assert_eq!(packed(b"08x0\0\0\0\0\0\0\0\0"), "MTI has a non-digit (3) at byte 2");
    assert_eq!(packed(b"0800\x80\0\0\0\0\0\0\0"), "second or third bitmap incomplete (4) at byte 12");
    assert_eq!(packed(&one(b"1")), "field 2: length digits or content run past the end (5) at byte 12");
    assert_eq!(packed(&one(b"1x")), "field 2: a length byte is not 0-9 (6) at byte 12");
    assert_eq!(packed(&one(b"20")), "field 2: length over the table's (7) at byte 12");
    assert_eq!(packed(&one(b"021")), "field 2: length digits or content run past the end (5) at byte 12");
    assert_eq!(packed(&one(b"01x")), "field 2: not digits (21) at byte 12");
    assert_eq!(packed(&one(b"01\x80")), "field 2: not digits (21) at byte 12");
    assert_eq!(packed(b"0800\0\0\0\0\0\x10\0\x0001\x80"), "field 44: text byte over 0x7F (8) at byte 12");
    let mut short = [0xA5; 11];
    let refusal = pack(&one(b"017"), &mut short).unwrap_err();
    assert_eq!((refusal.to_string().as_str(), refusal.field(), refusal.position()), ("output too short (14)", 0, 0));
    assert_eq!((refusal.within(), short), (Within::Nothing, [0xA5; 11]));
    assert_eq!(words(pack(&one(b"01x"), &mut [])), "field 2: not digits (21) at byte 12");
}

#[test]
fn unpacking() {
    let mut out = [0xA5; 64];
    let mut unpacked = |input: &[u8]| {
        let answer = unpack(input, &mut out);
        assert_eq!(out, [0xA5; 64]);
        words(answer)
    };
    let one = |body: &[u8]| [b"\x08\0\x40\0\0\0\0\0\0\0", body].concat();
    let spoilt = "BCD half-byte over 9, or spare leading digit not 0 (22)";
    assert_eq!(unpacked(b"\x08\0\0\0\0\0\0\0\0"), "message too short (2)");
    assert_eq!(unpacked(b"\x0A\0\0\0\0\0\0\0\0\0"), format!("{spoilt} at byte 0"));
    assert_eq!(unpacked(b"\x08\xA0\0\0\0\0\0\0\0\0"), format!("{spoilt} at byte 1"));
    assert_eq!(unpacked(b"\x08\0\x80\0\0\0\0\0\0\0"), "second or third bitmap incomplete (4) at byte 10");
    assert_eq!(unpacked(&one(b"")), "field 2: length digits or content run past the end (5) at byte 10");
    assert_eq!(unpacked(&one(b"\x1A")), format!("field 2: {spoilt} at byte 10"));
    assert_eq!(unpacked(&one(b"\x20")), "field 2: length over the table's (7) at byte 10");
    assert_eq!(unpacked(&one(b"\x03\x01")), "field 2: length digits or content run past the end (5) at byte 10");
    assert_eq!(unpacked(&one(b"\x03\x11\x23")), format!("field 2: {spoilt} at byte 10"));
    assert_eq!(unpacked(&one(b"\x03\x01\x2A")), format!("field 2: {spoilt} at byte 10"));
    assert_eq!(unpacked(b"\x08\0\0\0\0\0\x10\0\0\0\x10\0"), format!("field 36: {spoilt} at byte 10"));
    assert_eq!(unpacked(b"\x08\0\0\0\0\0\0\x10\0\0\x01\x80"), "field 44: text byte over 0x7F (8) at byte 10");
    let mut short = [0xA5; 14];
    let refusal = unpack(&one(b"\x01\x07"), &mut short).unwrap_err();
    assert_eq!((refusal.to_string().as_str(), refusal.field(), refusal.position()), ("output too short (14)", 0, 0));
    assert_eq!((refusal.within(), short), (Within::Nothing, [0xA5; 14]));
    assert_eq!(words(unpack(&one(b"\x01\x0A"), &mut [])), format!("field 2: {spoilt} at byte 10"));
}

#[test]
fn writing() -> Result<(), TooLarge> {
    let head = || Notes::new(*b"0200", 1);
    let mut out = [0xA5; 64];
    let mut exact = |values: &[u8], notes: &[u8]| {
        let answer = write_exact(values, notes, &mut out);
        assert_eq!(out, [0xA5; 64]);
        words(answer)
    };
    assert_eq!(exact(b"", b""), "note missing, cut or of the wrong kind, or count of bitmaps not 1-3 (9) at byte 0 of the notes");
    assert_eq!(exact(b"", &Notes::new(*b"020x", 1)?.end(12)?), "MTI has a non-digit (3) at byte 0 of the notes");
    assert_eq!(exact(b"", &head()?.field(0, 0, 0)?.end(12)?), "field 0: field number not allowed here (10) at byte 6 of the notes");
    assert_eq!(exact(b"", &head()?.field(65, 0, 0)?.end(12)?), "field 65: field number not allowed here (10) at byte 6 of the notes");
    assert_eq!(exact(b"12345", &head()?.field(3, 0, 6)?.end(18)?), "field 3: content outside the values (11) at byte 6 of the notes");
    assert_eq!(exact(b"12345", &head()?.field(3, 0, 5)?.end(18)?), "field 3: length not allowed (12) at byte 6 of the notes");
    assert_eq!(exact(b"\x80", &head()?.field(2, 0, 1)?.end(15)?), "field 2: text byte over 0x7F (8) at byte 6 of the notes");
    assert_eq!(
        exact(b"1", &head()?.field(2, 0, 1)?.end(16)?),
        "end note differs from the length to be written (13) at byte 14 of the notes"
    );
    let notes = head()?.field(2, 0, 1)?.end(15)?;
    assert_eq!(words(write_exact(b"1", &notes, &mut [0; 14])), "output too short (14) at byte 14 of the notes");
    assert_eq!(words(write_clean(b"1", &notes, &mut [0; 14])), "output too short (14) at byte 14 of the notes");
    let long = head()?.field(3, 0, 7)?.end(19)?;
    assert_eq!(words(write_clean(b"1234567", &long, &mut [0; 19])), "field 3: length not allowed (12) at byte 6 of the notes");
    assert_eq!(words(look_up(b"1", &notes, 3)), "field 3: field absent (15) at byte 14 of the notes");
    assert_eq!(words(look_up(b"1", &notes, usize::MAX)), format!("field {}: field absent (15) at byte 14 of the notes", usize::MAX));
    Ok(())
}

#[test]
fn what_a_note_cannot_hold() {
    let words = |answer: Result<&mut Notes, TooLarge>| answer.expect_err("this is too large").to_string();
    let mut notes = Notes::new(*b"0200", 1).unwrap();
    notes.field(3, 0, 6).unwrap();
    let before = notes.clone();

    // cut to two bytes it would be 6, which field 3 takes
    let values = [b'0'; 65_542];
    let refused = notes.field(3, 0, values.len()).unwrap_err();
    assert_eq!((refused.part(), refused.value()), (NotePart::Length, 65_542));
    assert_eq!(refused.to_string(), "content length 65542 is too large for a note: at most 65535");
    assert_eq!(notes, before);

    assert_eq!(words(notes.field(4, 0, 65_536)), "content length 65536 is too large for a note: at most 65535");
    assert_eq!(words(notes.field(260, 0, 12)), "field number 260 is too large for a note: at most 255");
    assert_eq!(words(notes.field(4, 1 << 32, 12)), "content offset 4294967296 is too large for a note: at most 4294967295");
    assert_eq!(
        words(notes.field(usize::MAX, usize::MAX, usize::MAX)),
        format!("field number {} is too large for a note: at most 255", usize::MAX)
    );
    assert_eq!(notes, before);
    let refused = notes.end((1 << 32) + 18).unwrap_err();
    assert_eq!(refused.to_string(), "message length 4294967314 is too large for a note: at most 4294967295");
    let refused = Notes::new(*b"0200", 257).unwrap_err();
    assert_eq!(refused.to_string(), "bitmap count 257 is too large for a note: at most 255");

    // what is held is held to the byte, and what comes of it is the writers' to judge
    let largest = notes.field(255, (1 << 32) - 1, 65_535).unwrap().end((1 << 32) - 1).unwrap();
    assert_eq!(largest[14..], [2, 255, 255, 255, 255, 255, 255, 255, 4, 255, 255, 255, 255]);
    assert_eq!(
        write_exact(&values, &largest, &mut [0; 64]).unwrap_err().to_string(),
        "field 255: field number not allowed here (10) at byte 14 of the notes"
    );
    for part in [NotePart::Bitmaps, NotePart::Number, NotePart::Offset, NotePart::Length, NotePart::MessageLength] {
        let noted = |value: usize| match part {
            NotePart::Bitmaps => Notes::new(*b"0200", value).map(drop),
            NotePart::Number => before.clone().field(value, 0, 0).map(drop),
            NotePart::Offset => before.clone().field(4, value, 0).map(drop),
            NotePart::Length => before.clone().field(4, 0, value).map(drop),
            NotePart::MessageLength => before.end(value).map(drop),
        };
        assert!(noted(part.most()).is_ok());
        assert_eq!(noted(part.most() + 1).map_err(|refused| (refused.part(), refused.value())), Err((part, part.most() + 1)));
    }
}

#[test]
fn checking() {
    assert_eq!(words(check::field(0, b"")), "field 0: field number not allowed here (10)");
    assert_eq!(words(check::field(321, b"")), "field 321: field number not allowed here (10)");
    assert_eq!(words(check::field(3, b"00000x")), "field 3: class broken (16)");
    assert_eq!(words(check::field(3, b"0000000")), "field 3: length not allowed (12)");
    assert_eq!(words(check::field(2, b"4111111111111112")), "field 2: PAN check fails (17)");
    assert_eq!(words(check::field(5, b"000000000000")), "field 5: amount all zeros (18)");
    assert_eq!(words(check::date(b"0100")), "date or time wrong (20)");
    assert_eq!(words(check::time(b"236000")), "date or time wrong (20)");
    assert_eq!(
        words(check::required(b"", b"")),
        "note missing, cut or of the wrong kind, or count of bitmaps not 1-3 (9) at byte 0 of the notes"
    );

    // the fields that a request needs, taken away one after the other; a response needs 39 as well
    let whole = [(2, 16), (3, 6), (4, 12), (11, 6), (12, 6), (13, 4)];
    let missing = |mti: &[u8; 4], without: usize| {
        let mut notes = Notes::new(*mti, 1).unwrap();
        for &(number, size) in whole.iter().filter(|field| field.0 != without) {
            notes.field(number, 0, size).unwrap();
        }
        check::required(b"4111111111111111", &notes.end(0).unwrap())
            .map_err(|refusal| (refusal.number(), refusal.field(), refusal.position()))
    };
    assert_eq!(missing(b"0200", 0), Ok(()));
    for (number, _) in whole {
        assert_eq!(missing(b"0200", number), Err((19, number, 0)));
    }
    assert_eq!(missing(b"0220", 2), Ok(()));
    assert_eq!(missing(b"0210", 0), Err((19, 39, 0)));
    assert_eq!(missing(b"0230", 0), Ok(()));
}

#[test]
fn a_whole_message() {
    let body = b"164111111111111111000000000000012345000001235959+231";
    let bytes = [&b"0200\x70\x38\0\0\0\0\0\0"[..], body].concat();
    let message = read(&bytes).expect("reading takes any text");
    assert_eq!(words(message.check()), "field 13: class broken (16)");
    let mut better = bytes.clone();
    better[60] = b'1';
    assert!(read(&better).unwrap().check().is_ok());
}

#[test]
fn converting() {
    assert_eq!(words(bcd::encode(b"1x")), "not digits (21)");
    assert_eq!(words(bcd::decode(&[0x1A], 2)), "BCD half-byte over 9, or spare leading digit not 0 (22)");
    assert_eq!(words(bcd::decode(&[0x11], 1)), "BCD half-byte over 9, or spare leading digit not 0 (22)");
    assert_eq!(words(bcd::decode(&[0x12], usize::MAX)), "byte count wrong for the digits asked (23)");
    assert_eq!(words(ebcdic::encode(&[0x80])), "byte has no ASCII meaning (24)");
    assert_eq!(words(length::encode(100, 2, Encoding::Bcd)), "length needs more digits than given, or these are not 2 or 3 (25)");
    assert_eq!(words(length::encode(1, 4, Encoding::Ascii)), "length needs more digits than given, or these are not 2 or 3 (25)");
    assert_eq!(words(length::decode(b"12", 3, Encoding::Ebcdic)), "byte count wrong for the digits asked (23)");
    let mut out = [0xA5; 2];
    assert_eq!(bcd::encode_into(b"12345", &mut out).unwrap_err().number(), number::OUTPUT_TOO_SHORT);
    assert_eq!(bcd::decode_into(&[0x01, 0x23], 3, &mut out).unwrap_err().number(), number::OUTPUT_TOO_SHORT);
    assert_eq!(ebcdic::encode_into(b"ABC", &mut out).unwrap_err().number(), number::OUTPUT_TOO_SHORT);
    assert_eq!(ebcdic::decode_into(&[0xC1; 3], &mut out).unwrap_err().number(), number::OUTPUT_TOO_SHORT);
    assert_eq!(length::encode_into(1, 3, Encoding::Ascii, &mut out).unwrap_err().number(), number::OUTPUT_TOO_SHORT);
    assert_eq!(out, [0xA5; 2]);
}
