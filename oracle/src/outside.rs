//! Where the two part: the entries of docs/DIFFERENCES.md that can be run, each with its input, and what either side answers. A run fails
//! where an answer is not the one listed.
use crate::case::{shown, Answer, Case, Contents, Encoding::*};
use crate::table::{ranges, row, Class, Domain};
use crate::{here, notes, there};
use iso8583_core::bitmap::Bitmap;
use iso8583_core::field::{Field, FieldDefinition, FieldValue};
use iso8583_core::message::ISO8583Message;
use iso8583_core::mti::{MessageClass, MessageFunction, MessageOrigin, MessageType};
use iso8583_core::validation::Validator;

/// Prints every entry, and answers how many are not as listed.
pub fn run(domain: &Domain) -> usize {
    let mut list = List { domain, wrong: 0, count: 0 };
    println!("outside the domain:");
    everywhere(&mut list);
    bitmaps(&mut list);
    encodings(&mut list);
    fields(&mut list);
    reading(&mut list);
    cleaning(&mut list);
    writing(&mut list);
    validation(&mut list);
    binary_values(&mut list);
    amended(&mut list);
    println!("{} run outside the domain, {} not as listed", list.count, list.wrong);
    list.wrong
}

struct List<'a> {
    domain: &'a Domain,
    wrong: usize,
    count: usize,
}

impl List<'_> {
    fn case(&mut self, entry: &str, case: Case, here_listed: &str, there_listed: &str) {
        let (ours, theirs) = (here::answer(&case), there::answer(&case));
        let parted = !ours.same(&theirs) && !case.in_domain(self.domain);
        self.other(entry, &case.to_string(), ours.to_string(), theirs.to_string(), here_listed, there_listed);
        if !parted {
            println!("    NOT A DIFFERENCE OUTSIDE THE DOMAIN");
            self.wrong += 1;
        }
    }

    /// What can be asked of one side only.
    fn alone(&mut self, entry: &str, input: &str, side: &str, said: String, listed: &str) {
        self.count += 1;
        println!("  {entry}: {input}\n    {:<6} {said}", format!("{side}:"));
        if said != listed {
            println!("    NOT AS LISTED: {listed}");
            self.wrong += 1;
        }
    }

    fn other(&mut self, entry: &str, input: &str, ours: String, theirs: String, here_listed: &str, there_listed: &str) {
        self.count += 1;
        println!("  {entry}: {input}\n    here:  {ours}\n    there: {theirs}");
        if ours != here_listed || theirs != there_listed || ours == theirs {
            println!("    NOT AS LISTED: here {here_listed}; there {there_listed}");
            self.wrong += 1;
        }
    }
}

/// `0800`, a bitmap with the bits set, and what follows.
fn with_bits(bits: &[u8], rest: &[u8]) -> Vec<u8> {
    let mut bytes = b"0800\0\0\0\0\0\0\0\0".to_vec();
    for f in bits {
        bytes[4 + (*f as usize - 1) / 8] |= 0x80 >> ((f - 1) % 8);
    }
    [&bytes, rest].concat()
}

fn one(f: u8, content: &[u8]) -> Contents {
    Contents { mti: *b"0800", fields: vec![(f, content.to_vec())] }
}

fn hex(bytes: &[u8]) -> String {
    let said: Vec<String> = bytes.iter().map(|b| format!("{b:02X}")).collect();
    said.join(" ")
}

fn everywhere(list: &mut List) {
    let eleven = b"0800\0\0\0\0\0\0\0".to_vec();
    let (ours, theirs) = (here::answer(&Case::Read(eleven.clone())).to_string(), there::answer(&Case::Read(eleven)).to_string());
    let short = "Message too short: expected at least 12 bytes, got 11";
    list.other("Everywhere 1", "a message of eleven bytes", ours, theirs, "refused 2 field 0 at 0", short);
    let ours = said(here::bcd_encode(b"1", &mut []).verdict);
    let theirs = there::answer(&Case::BcdEncode(b"1".to_vec())).to_string();
    list.other("Everywhere 2", "BCD encoding of `1`; here without room", ours, theirs, "refused 14 field 0 at 0", "01");
    let ours = said(here::bcd_encode(b"\xFF", &mut [0; 4]).verdict);
    list.alone("Everywhere 3", "BCD encoding of FF", "here", ours, "refused 21 field 0 at 0");
    let ours = said(here::ebcdic_encode(b"\xFF", &mut [0; 4]).verdict);
    list.alone("Everywhere 3", "EBCDIC encoding of FF", "here", ours, "refused 24 field 0 at 0");
}

fn bitmaps(list: &mut List) {
    let zeros = "00 00 00 00 00 00 00 00";
    let first = "80 00 00 00 00 00 00 00";
    let two = b"\x010800\x02\x04\x00\x00\x00\x14";
    let three = b"\x010800\x03\x04\x00\x00\x00\x1C";
    bitmap(list, 1, two, &format!("{first} {zeros}"), &format!("{zeros} {zeros}"), "[1]");
    bitmap(list, 65, three, &format!("{first} {first} {zeros}"), &format!("{first} {zeros} {zeros}"), "[1, 65]");

    let alone = Bitmap::from_bytes(b"\x80\0\0\0\0\0\0\0").unwrap();
    let (bytes, n) = alone.to_bytes();
    let message = here::answer(&Case::Read(with_bits(&[1], b""))).to_string();
    list.other(
        "Bitmap 2",
        "80 and seven zero bytes, nothing after it; here in a message",
        message,
        hex(&bytes[..n]),
        "refused 4 field 0 at 12",
        "80 00 00 00 00 00 00 00",
    );
}

/// The bit that asks for one more bitmap; here in a message with so many bitmaps and no field, by those notes.
fn bitmap(list: &mut List, bit: u8, notes: &[u8], ours_listed: &str, cleared_listed: &str, fields_listed: &str) {
    let mut bitmap = Bitmap::new();
    bitmap.set(bit).unwrap();
    let (fields, n) = bitmap.get_set_fields();
    let message = exact(b"", notes);
    let found = said(here::look_up(&message, notes, bit as u64).verdict);
    let absent = format!("refused 15 field {bit} at 6");
    list.other(
        "Bitmap 3",
        &format!("set({bit}), get_set_fields; here lookup"),
        found,
        format!("{:?}", &fields[..n]),
        &absent,
        fields_listed,
    );

    bitmap.clear(bit).unwrap();
    let (bytes, n) = bitmap.to_bytes();
    let input = format!("set({bit}), clear({bit}), to_bytes; here a message without fields");
    list.other("Bitmap 1", &input, hex(&message[4..]), hex(&bytes[..n]), ours_listed, cleared_listed);
}

fn encodings(list: &mut List) {
    let bytes = |b: &[u8]| b.to_vec();
    list.case("Encoding 1", Case::BcdDecode(bytes(b"\x01"), 1), "`1`", "`0`");
    list.case("Encoding 1", Case::BcdDecode(bytes(b"\x01\x23"), 3), "`123`", "`012`");
    list.case("Encoding 2", Case::BcdDecode(bytes(b"\x12"), 1), "refused 22 field 0 at 0", "`1`");
    list.case("Encoding 3", Case::BcdDecode(bytes(b""), 1), "refused 23 field 0 at 0", "nothing");
    list.case("Encoding 3", Case::BcdDecode(bytes(b"\x12"), 0), "refused 23 field 0 at 0", "nothing");
    list.case("Encoding 3", Case::BcdDecode(bytes(b"\x12\xFF"), 2), "refused 23 field 0 at 0", "`12`");
    list.case("Encoding 4", Case::EbcdicEncode(bytes("é".as_bytes())), "refused 24 field 0 at 0", "`f` B4");
    list.case("Encoding 5", Case::EbcdicDecode(bytes(b"\x66\xB4")), "refused 24 field 0 at 0", "C3 A9");
    list.case("Encoding 6", Case::LengthEncode(100, 2, Ascii), "refused 25 field 0 at 0", "`100`");
    list.case("Encoding 6", Case::LengthEncode(100, 2, Ebcdic), "refused 25 field 0 at 0", "F1 F0 F0");
    list.case("Encoding 6", Case::LengthEncode(100, 2, Bcd), "refused 25 field 0 at 0", "01 00");
    list.case("Encoding 7", Case::LengthEncode(5, 1, Ascii), "refused 25 field 0 at 0", "`5`");
    list.case("Encoding 7", Case::LengthDecode(bytes(b"5"), 1, Ascii), "refused 25 field 0 at 0", "5");
    list.case("Encoding 8", Case::LengthDecode(bytes(b"5"), 2, Ascii), "refused 23 field 0 at 0", "5");
    list.case("Encoding 8", Case::LengthDecode(bytes(b"\xF5"), 2, Ebcdic), "refused 23 field 0 at 0", "5");
    list.case("Encoding 9", Case::LengthDecode(bytes(b"+5"), 2, Ascii), "refused 6 field 0 at 0", "5");
    list.case("Encoding 9", Case::LengthDecode(bytes(b"\x4E\xF5"), 2, Ebcdic), "refused 6 field 0 at 0", "5");
    list.case("Encoding 10", Case::LengthDecode(bytes(b"\x01\x23"), 3, Bcd), "123", "12");
    list.case("Encoding 10", Case::LengthDecode(bytes(b"\x12\x34"), 3, Bcd), "refused 22 field 0 at 0", "123");
    list.case("Encoding 10", Case::LengthDecode(bytes(b"\x12\x34"), 2, Bcd), "refused 23 field 0 at 0", "12");
}

fn fields(list: &mut List) {
    let entry = |n: u8| match there::caught(|| FieldDefinition::get(n)) {
        Some(Some(d)) => format!("the entry of {}: {:?} {:?}", d.number, d.field_type, d.length),
        Some(None) => "none".into(),
        None => "panics".into(),
    };
    let check = |n: u64, content: &[u8]| said(here::check_field(n, content));
    list.other(
        "Field 1",
        "FieldDefinition::get(64); here eight bytes in field 64",
        check(64, &[0; 8]),
        entry(64),
        "good",
        "the entry of 72: Numeric Fixed(4)",
    );
    list.other(
        "Field 1",
        "FieldDefinition::get(56); here nothing in field 56",
        check(56, b""),
        entry(56),
        "good",
        "the entry of 64: Binary Fixed(8)",
    );
    let others = ranges(&Domain::disagreeing());
    let shifted = "28-31, 55-64, 66-88, 90-104, 116-118, 120, 128";
    list.alone("Field 1", "fields not of 01's length kind, length and nature", "there", others, shifted);
    list.case(
        "Field 1",
        Case::Read(with_bits(&[56], b"000")),
        "used 15, bitmaps 1, field 56 nothing",
        "Field 64 length mismatch: expected 8, got 3",
    );
    list.case(
        "Field 2",
        Case::Clean(one(128, b"ABCDEFGH")),
        "`0800` 80 00 00 00 00 00 00 00 00 00 00 00 00 00 00 01 `ABCDEFGH`",
        "`0800` 80 00 00 00 00 00 00 00 00 00 00 00 00 00 00 01 `008ABCDEFGH`",
    );
    list.other("Field 3", "FieldDefinition::get(121); here nothing in field 121", check(121, b""), entry(121), "good", "panics");
    list.case(
        "Field 4",
        Case::Clean(one(97, b"C0000000000000001")),
        "`0800` 80 00 00 00 00 00 00 00 00 00 00 00 80 00 00 00 `C0000000000000001`",
        "`0800` 80 00 00 00 00 00 00 00 00 00 00 00 80 00 00 00 `017C0000000000000001`",
    );
    let types =
        [34, 36, 44, 45, 46, 47, 48, 49, 50, 51, 54].map(|n| format!("{n} {:?}", Field::from_number(n).unwrap().definition().field_type));
    let listed = "34 Numeric, 36 Track3, 44 AlphaNumericSpecial, 45 AlphaNumericSpecial, 46 AlphaNumericSpecial, 47 AlphaNumericSpecial, \
                  48 AlphaNumericSpecial, 49 AlphaNumeric, 50 AlphaNumeric, 51 AlphaNumeric, 54 AlphaNumericSpecial";
    list.alone("Field 5", "the types of 34, 36, 44-51 and 54", "there", types.join(", "), listed);
    let number = |n: u8| {
        Field::from_number(n).map_or_else(|e| e.to_string(), |f| format!("{:?} {:?}", f.definition().field_type, f.definition().length))
    };
    list.other("Field 6", "field 129; here nothing in it", check(129, b""), number(129), "good", "Invalid field number: 129");
    list.other("Field 6", "field 192; here eight bytes in it", check(192, &[0; 8]), number(192), "good", "Invalid field number: 192");
    list.other("Field 7", "field 1; here nothing in it", check(1, b""), number(1), "refused 10 field 1 at 0", "Binary Fixed(8)");
    list.other("Field 7", "field 65; here nothing in it", check(65, b""), number(65), "refused 10 field 65 at 0", "Numeric Fixed(6)");
}

fn reading(list: &mut List) {
    let second = |bit: u8, rest: &[u8]| [&[bit, 0, 0, 0, 0, 0, 0, 0], rest].concat();
    let mut read = |entry: &str, message: Vec<u8>, ours: &str, theirs: &str| list.case(entry, Case::Read(message), ours, theirs);
    read("Message 1", with_bits(&[1], &second(0x40, b"")), "refused 5 field 66 at 20", "used 20, bitmaps 1");
    read("Message 1", with_bits(&[1], &second(0x04, b"301")), "used 23, bitmaps 2, field 70 `301`", "used 20, bitmaps 1");
    read("Message 2", with_bits(&[1], &second(0x80, b"")), "refused 4 field 0 at 20", "used 20, bitmaps 1");
    read("Message 2", with_bits(&[1], &second(0x80, &[0; 8])), "used 28, bitmaps 3", "used 20, bitmaps 1");
    read("Message 3", with_bits(&[2], b"+0"), "refused 6 field 2 at 12", "used 14, bitmaps 1, field 2 nothing");
    read("Message 3", with_bits(&[2], b"+512345"), "refused 6 field 2 at 12", "used 19, bitmaps 1, field 2 `12345`");
    read("Message 4", with_bits(&[25], "é".as_bytes()), "refused 8 field 25 at 12", "used 14, bitmaps 1, field 25 C3 A9");
    read("Message 5", with_bits(&[64], b"ABCD"), "refused 5 field 64 at 12", "used 16, bitmaps 1, field 64 `ABCD`");
    read("Message 5", with_bits(&[64], b"ABCDEFGH"), "used 20, bitmaps 1, field 64 `ABCDEFGH`", "used 16, bitmaps 1, field 64 `ABCD`");
    read("Message 6", with_bits(&[28], b"D0000000"), "refused 5 field 28 at 12", "used 20, bitmaps 1, field 28 `D0000000`");

    let message = with_bits(&[1], &[0; 8]);
    let mut notes = [0; notes::ROOM];
    here::read(&message, &mut notes);
    let ours = shown(&exact(&message, &notes));
    let theirs = shown(&ISO8583Message::from_bytes(&message).unwrap().to_bytes());
    let twelve = "`0800` 80 00 00 00 00 00 00 00";
    let twenty = format!("{twelve} 00 00 00 00 00 00 00 00");
    list.other("Message 7", "`0800` 80 and 15 zero bytes, read and written", ours, theirs, &twenty, twelve);
    let again = there::answer(&Case::Read(with_bits(&[1], b""))).to_string();
    list.alone("Message 7", "what was written, read again", "there", again, "Message too short: expected at least 20 bytes, got 12");
}

fn cleaning(list: &mut List) {
    let mut clean =
        |entry: &str, f: u8, content: &[u8], ours: &str, theirs: &str| list.case(entry, Case::Clean(one(f, content)), ours, theirs);
    clean("Message 8", 27, b"12", "refused 12 field 27 at 6", "`0800` 00 00 00 ` ` 00 00 00 00 `1`");
    clean("Message 8", 52, b"ABCDEFGHI", "refused 12 field 52 at 6", "`0800` 00 00 00 00 00 00 10 00 `ABCDEFGH`");
    clean("Message 9", 32, b"123456789012", "refused 12 field 32 at 6", "`0800` 00 00 00 01 00 00 00 00 `12123456789012`");
    let hundred = [b'1'; 100];
    let theirs = format!("`0800@` 00 00 00 00 00 00 00 `100{}`", "1".repeat(100));
    clean("Message 9", 2, &hundred, "refused 12 field 2 at 6", &theirs);
    clean("Message 10", 27, "é".as_bytes(), "refused 12 field 27 at 6", "panics");
    clean("Message 11", 25, "é".as_bytes(), "refused 8 field 25 at 6", "`0800` 00 00 00 80 00 00 00 00 C3 A9");
    clean("Message 11", 40, "é".as_bytes(), "refused 8 field 40 at 6", "`0800` 00 00 00 00 01 00 00 00 C3 A9 `  `, padded 40");
    clean("Message 13", 49, b"", "`0800` 00 00 00 00 00 00 80 00 `000`, padded 49", "`0800` 00 00 00 00 00 00 80 00 `   `, padded 49");
    clean("Message 13", 49, b"5", "`0800` 00 00 00 00 00 00 80 00 `005`, padded 49", "`0800` 00 00 00 00 00 00 80 00 `5  `, padded 49");
    clean(
        "Message 14",
        28,
        b"",
        "`0800` 00 00 00 10 00 00 00 00 `         `, padded 28",
        "`0800` 00 00 00 10 00 00 00 00 `00000000`, padded 28",
    );
    clean(
        "Message 14",
        28,
        b"D",
        "`0800` 00 00 00 10 00 00 00 00 `D        `, padded 28",
        "`0800` 00 00 00 10 00 00 00 00 `0000000D`, padded 28",
    );

    let mut kind = |input: &str, f: u8, content: &[u8], value: FieldValue, ours: &str, theirs: &str| {
        let Answer::Written(bytes, _) = here::answer(&Case::Clean(one(f, content))) else { panic!("written") };
        let mut message = there::message_of(&Contents { mti: *b"0800", fields: Vec::new() });
        message.set_field(Field::from_number(f).unwrap(), value).unwrap();
        list.other("Message 12", input, shown(&bytes[12..]), shown(&message.to_bytes()[12..]), ours, theirs)
    };
    let text = FieldValue::from_string("A");
    kind("field 52 `A`, there as text", 52, b"A", text, "`A` 00 00 00 00 00 00 00", "`A       `");
    let binary = FieldValue::from_binary(b"1".to_vec());
    kind("field 3 `1`, there as binary", 3, b"1", binary, "`000001`", "`1` 00 00 00 00 00");

    let ours = here::answer(&Case::Clean(one(3, b"1"))).to_string();
    list.alone("Message 15", "field 3 `1`", "here", ours, "`0800 ` 00 00 00 00 00 00 00 `000001`, padded 3");
}

/// What the crate writes by the shifted table, by a version that is no digit, and of a value handed over as binary.
fn writing(list: &mut List) {
    let mut clean =
        |entry: &str, f: u8, content: &[u8], ours: &str, theirs: &str| list.case(entry, Case::Clean(one(f, content)), ours, theirs);
    clean("Message 16", 56, b"", "`0800` 00 00 00 00 00 00 01 00 `000`", "`0800` 00 00 00 00 00 00 01 00 `        `, padded 56");
    clean("Message 16", 60, b"ABCDE", "`0800` 00 00 00 00 00 00 00 10 `005ABCDE`", "`0800` 00 00 00 00 00 00 00 10 `ABC`");
    clean("Message 16", 64, b"ABCDEFGH", "`0800` 00 00 00 00 00 00 00 01 `ABCDEFGH`", "`0800` 00 00 00 00 00 00 00 01 `ABCD`");
    let kept = (56..=64).map(|f| match there::answer(&Case::Clean(one(f, b"ABCDEFGHIJKL"))) {
        Answer::Written(bytes, _) => format!("{f} {}", shown(&bytes[12..])),
        other => format!("{f} {other}"),
    });
    let kept = kept.collect::<Vec<_>>().join(", ");
    let listed = "56 `ABCDEFGH`, 57 `ABCDEFGH`, 58 `A`, 59 `AB`, 60 `ABC`, 61 `ABC`, 62 `ABC`, 63 `ABCD`, 64 `ABCD`";
    list.alone("Message 16", "fields 56 to 64, each with `ABCDEFGHIJKL`", "there", kept, listed);

    let ten = MessageType::new(10, MessageClass::NetworkManagement, MessageFunction::Request, MessageOrigin::Acquirer);
    let five = ISO8583Message::new(ten).to_bytes();
    let ours = said(here::write_exact(b"", b"\x01:800\x01\x04\0\0\0\x0C", &mut [0; 64]).verdict);
    list.other(
        "Message 17",
        "MessageType::new(10, ..), no field; here the MTI `:800`",
        ours,
        shown(&five),
        "refused 3 field 0 at 0",
        "`10800` 00 00 00 00 00 00 00 00",
    );
    let again = there::answer(&Case::Read(five)).to_string();
    list.alone("Message 17", "what was written, read again", "there", again, "Field 3 length mismatch: expected 6, got 1");

    let mut message = there::message_of(&Contents { mti: *b"0800", fields: Vec::new() });
    message.set_field(Field::from_number(3).unwrap(), FieldValue::from_binary(vec![0xFF; 6])).unwrap();
    let written = message.to_bytes();
    let ours = here::answer(&Case::Clean(one(3, &[0xFF; 6]))).to_string();
    let theirs = shown(&written);
    let listed = "`0800 ` 00 00 00 00 00 00 00 FF FF FF FF FF FF";
    list.other("Message 18", "field 3 with six bytes FF, there as binary", ours, theirs, "refused 8 field 3 at 6", listed);
    let again = there::answer(&Case::Read(written)).to_string();
    let listed = "Encoding error: Invalid UTF-8 in field 3: invalid utf-8 sequence of 1 bytes from index 0";
    list.alone("Message 18", "what was written, read again", "there", again, listed);
}

fn validation(list: &mut List) {
    list.case("Validation 1", Case::Date(b"+1+1".to_vec()), "refused 20 field 0 at 0", "good");
    list.case("Validation 1", Case::Time(b"+0+0+0".to_vec()), "refused 20 field 0 at 0", "good");
    list.case("Validation 2", Case::Date("1é1".into()), "refused 20 field 0 at 0", "panics");
    list.case("Validation 2", Case::Time("1é123".into()), "refused 20 field 0 at 0", "panics");
    list.case("Validation 3", Case::Class(39, b"!!".to_vec()), "refused 16 field 39 at 0", "good");
    let not_n = |f: &u8| !matches!(row(*f).map(|r| r.class), None | Some(Class::N | Class::B));
    let checked = |f: &u8| !there::answer(&Case::Class(*f, b"!".to_vec())).accepted();
    let (checked, unchecked): (Vec<u8>, Vec<u8>) = (2..=128).filter(not_n).partition(checked);
    let text = "fields that are an, ans, ns, z or x+n here";
    let listed = "35, 37-48, 54, 56-57, 93-95, 97-98, 101-127";
    list.alone("Validation 3", &format!("{text}, with `!`: no class is checked"), "there", ranges(&unchecked), listed);
    list.alone("Validation 3", &format!("{text}, with `!`: digits are asked for"), "there", ranges(&checked), "28-31, 34, 58-63, 91-92");
    list.case("Validation 4", Case::Class(34, b"=".to_vec()), "good", "Field must be numeric");
    list.case("Validation 4", Case::Class(28, b"D".to_vec()), "good", "Field must be numeric");
    list.case("Validation 4", Case::Class(58, b"A".to_vec()), "good", "Field must be numeric");
    list.case("Validation 4", Case::Class(49, b"EUR".to_vec()), "refused 16 field 49 at 0", "good");
    for f in [36, 50, 51, 83, 84, 85, 86, 87, 88, 90, 99, 100] {
        list.case("Validation 4", Case::Class(f, b"A".to_vec()), &format!("refused 16 field {f} at 0"), "good");
    }

    let format = |f: u8, value: &FieldValue| result(Validator::validate_field_format(Field::from_number(f).unwrap(), value));
    let value = |f: u8, value: &FieldValue| result(Validator::validate_field_value(Field::from_number(f).unwrap(), value));
    let check = |f: u64, content: &[u8]| said(here::check_field(f, content));
    let text = |s: &str| FieldValue::from_string(s);
    let nothing = FieldValue::from_binary(Vec::new());
    let mut other = |entry: &str, input: &str, ours: String, theirs: String, a: &str, b: &str| list.other(entry, input, ours, theirs, a, b);
    other("Validation 5", "field 52 nothing", check(52, b""), format(52, &nothing), "refused 12 field 52 at 0", "good");
    other("Validation 6", "field 4 `1`", check(4, b"1"), value(4, &text("1")), "refused 12 field 4 at 0", "good");
    let spaced = "4111 1111 1111 1111";
    other("Validation 6", "field 2 with spaces", check(2, spaced.as_bytes()), value(2, &text(spaced)), "refused 16 field 2 at 0", "good");
    let theirs = format(66, &text("1"));
    other("Validation 7", "field 66 `1`", check(66, b"1"), theirs, "good", "Field 66 length mismatch: expected 10, got 1");
    let theirs = format(28, &text("C00000000"));
    other(
        "Validation 7",
        "field 28 `C00000000`",
        check(28, b"C00000000"),
        theirs,
        "good",
        "Invalid value for field 28: Field must be numeric",
    );
    other("Validation 8", "field 1 nothing", check(1, b""), format(1, &nothing), "refused 10 field 1 at 0", "good");
    other("Validation 8", "field 65 nothing", check(65, b""), format(65, &nothing), "refused 10 field 65 at 0", "good");
}

/// What is handed over as binary: neither of the crate's two calls looks at it.
fn binary_values(list: &mut List) {
    let both = |f: u8, content: &[u8]| {
        let (field, value) = (Field::from_number(f).unwrap(), FieldValue::from_binary(content.to_vec()));
        Validator::validate_field_format(field, &value).and_then(|()| Validator::validate_field_value(field, &value))
    };
    let mut binary = |input: &str, f: u8, content: &[u8], ours: &str| {
        let check = said(here::check_field(f as u64, content));
        list.other("Validation 9", &format!("{input}, there as binary"), check, result(both(f, content)), ours, "good");
    };
    binary("field 3 `A`", 3, b"A", "refused 16 field 3 at 0");
    binary("field 3 `1`", 3, b"1", "refused 12 field 3 at 0");
    binary("field 2 `4111111111111112`", 2, b"4111111111111112", "refused 17 field 2 at 0");
    binary("field 4 `000000000000`", 4, b"000000000000", "refused 18 field 4 at 0");
    let refused = (1..=128).filter(|f| both(*f, &[0xFF; 1000]).is_err()).count();
    list.alone("Validation 9", "fields 1 to 128, each with 1,000 bytes FF as binary", "there", format!("{refused} refused"), "0 refused");
}

/// What document 02 has amended.
fn amended(list: &mut List) {
    list.case("Validation 10", Case::Pan(b"000000000000".to_vec()), "good", "no");
    list.case("Validation 10", Case::Field(2, b"000000000000".to_vec()), "good", "Luhn check failed for PAN");

    let definition = Field::from_number(55).unwrap().definition();
    let theirs = format!("{:?} {:?}", definition.field_type, definition.length);
    let ours = said(here::check_field(55, b"\x80"));
    list.other("Field 8", "the definition of field 55; here the byte 80 in it", ours, theirs, "good", "AlphaNumericSpecial LLLVar(999)");
    list.case(
        "Message 19",
        Case::Read(with_bits(&[55], b"001\x80")),
        "used 16, bitmaps 1, field 55 80",
        "Encoding error: Invalid UTF-8 in field 55: invalid utf-8 sequence of 1 bytes from index 0",
    );
}

fn exact(values: &[u8], notes: &[u8]) -> Vec<u8> {
    let mut out = [0; 64];
    let n = here::write_exact(values, notes, &mut out).length as usize;
    out[..n].to_vec()
}

fn said(v: here::Verdict) -> String {
    if v.number == 0 {
        "good".into()
    } else {
        format!("refused {} field {} at {}", v.number, v.field, v.position)
    }
}

fn result(r: iso8583_core::error::Result<()>) -> String {
    r.map_or_else(|e| e.to_string(), |()| "good".into())
}
