//! The worked messages of the desk's rules, through the library that is linked.

use obolchime::{bcd, check, ebcdic, number, read, Message, Refusal};

fn message(maps: &[u8], body: &[u8]) -> Vec<u8> {
    [b"0800", maps, body].concat()
}

fn map(first: u8) -> [u8; 8] {
    [first, 0, 0, 0, 0, 0, 0, 0]
}

fn fields(message: &Message<'_>) -> Vec<(usize, usize, usize)> {
    message.fields().map(|field| (field.number, field.offset, field.content.len())).collect()
}

fn refused(answer: Result<Message<'_>, Refusal>) -> (u8, usize, usize) {
    let refusal = answer.expect_err("this is no message");
    (refusal.number(), refusal.field(), refusal.position())
}

#[test]
fn case_1_no_fields() {
    let bytes = message(&map(0), b"");
    let message = read(&bytes).unwrap();
    assert_eq!((message.mti(), message.used(), message.bitmaps()), ("0800", 12, 1));
    assert_eq!(message.notes(), [0x01, 0x30, 0x38, 0x30, 0x30, 0x01, 0x04, 0, 0, 0, 0x0C]);
    assert_eq!(message.fields().len(), 0);
}

#[test]
fn case_2_one_field_and_what_follows() {
    let bytes = message(&map(0x20), b"000000X");
    let exact = read(&bytes[..18]).unwrap();
    assert_eq!((exact.used(), exact.rest()), (18, &b""[..]));
    assert_eq!(exact.notes()[6..14], [0x02, 0x03, 0, 0, 0, 0x0C, 0, 0x06]);
    let more = read(&bytes).unwrap();
    assert_eq!((more.used(), more.rest(), more.bytes()), (18, &b"X"[..], &bytes[..18]));
    assert_eq!(more.notes(), exact.notes());
}

#[test]
fn cases_3_to_5_a_length() {
    let empty = message(&map(0x40), b"00");
    assert_eq!(fields(&read(&empty).unwrap()), [(2, 14, 0)]);
    assert_eq!(read(&empty).unwrap().used(), 14);
    assert_eq!(refused(read(&message(&map(0x40), b"2012345678901234567890"))), (7, 2, 12));
    assert_eq!(fields(&read(&message(&map(0x40), b"191234567890123456789")).unwrap()), [(2, 14, 19)]);
    assert_eq!(refused(read(&message(&map(0x40), b"+512345"))), (6, 2, 12));
}

#[test]
fn cases_6_to_9_bitmaps() {
    assert_eq!(refused(read(&message(&map(0x80), b""))), (4, 0, 12));
    let two = message(&map(0x80), &map(0));
    assert_eq!((read(&two).unwrap().used(), read(&two).unwrap().bitmaps()), (20, 2));
    let field_70 = message(&[map(0x80), map(0x04)].concat(), b"301");
    assert_eq!((fields(&read(&field_70).unwrap()), read(&field_70).unwrap().used()), (vec![(70, 20, 3)], 23));
    let three = message(&[map(0x80), map(0x80)].concat(), &map(0));
    assert_eq!((read(&three).unwrap().used(), read(&three).unwrap().bitmaps()), (28, 3));
    assert_eq!(refused(read(&[b'0'; 11])), (2, 0, 0));
}

#[test]
fn cases_10_to_12_conversions_and_a_pan() {
    assert_eq!(bcd::encode(b"123").unwrap(), [0x01, 0x23]);
    assert_eq!(bcd::decode(&[0x01, 0x23], 3).unwrap(), b"123");
    assert!(check::pan(b"4111111111111111").is_ok());
    assert_eq!(check::pan(b"4111111111111112").unwrap_err().number(), number::PAN_FAILS);
    assert_eq!(ebcdic::encode(b"A1").unwrap(), [0xC1, 0xF1]);
}
