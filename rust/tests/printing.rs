//! What `{:?}` prints of a message: text as text, and no card data.

use obolchime::{read, Message};

/// A field's number, the digits of its length indicator in front, and its content.
type Content<'a> = (usize, &'a [u8], &'a [u8]);

fn with(fields: &[Content<'_>]) -> Vec<u8> {
    let mut maps = [0u8; 16];
    maps[0] = 0x80;
    let mut bytes = Vec::new();
    for &(number, length, content) in fields {
        maps[(number - 1) / 8] |= 0x80 >> ((number - 1) % 8);
        bytes.extend(length);
        bytes.extend(content);
    }
    [b"0200", &maps[..], &bytes].concat()
}

/// All that can be printed of a message and its fields, on one line and on many.
fn printed(message: &Message<'_>) -> String {
    let mut all = format!("{message:?}{message:#?}{:?}{:#?}", message.fields(), message.fields());
    for field in message.fields() {
        all += &format!("{field:?}{field:#?}{:?}", Some(field));
    }
    all
}

#[test]
fn a_message() {
    let bytes = with(&[(2, b"16", b"4111111111111111"), (3, b"", b"000000"), (14, b"", b"2912"), (41, b"", b"T\"\\1    ")]);
    let message = read(&bytes).unwrap();
    assert_eq!(
        format!("{message:?}"),
        "Message { mti: \"0200\", bitmaps: 2, used: 56, fields: [\
         Field { number: 2, offset: 22, content: **** (16 bytes) }, \
         Field { number: 3, offset: 38, content: \"000000\" }, \
         Field { number: 14, offset: 44, content: **** (4 bytes) }, \
         Field { number: 41, offset: 48, content: \"T\\\"\\\\1    \" }] }"
    );
    let mut left = message.fields();
    left.next();
    left.next();
    left.next();
    assert_eq!(format!("{left:?}"), "[Field { number: 41, offset: 48, content: \"T\\\"\\\\1    \" }]");
}

#[test]
fn what_is_no_text() {
    let bytes = with(&[(48, b"004", b"a\r\n\x7F"), (96, b"", b"\0\x01\xFF\x80key!")]);
    let shown = format!("{:?}", read(&bytes).unwrap());
    assert!(shown.contains("content: \"a\\r\\n\\x7f\""), "{shown}");
    assert!(shown.contains("content: \"\\x00\\x01\\xff\\x80key!\""), "{shown}");
}

#[test]
fn card_data_is_masked() {
    let masked: [Content<'_>; 10] = [
        (2, b"13", b"qqqqqqqqqqqqq"),
        (14, b"", b"qqqq"),
        (34, b"05", b"qqqqq"),
        (35, b"06", b"qqqqqq"),
        (36, b"007", b"qqqqqqq"),
        (45, b"09", b"qqqqqqqqq"),
        (52, b"", b"qqqqqqqq"),
        (55, b"010", b"qqqqqqqqqq"),
        (64, b"", b"qqqqqqqq"),
        (128, b"", b"qqqqqqqq"),
    ];
    let bytes = with(&masked);
    let message = read(&bytes).unwrap();
    let shown = printed(&message);
    assert_eq!(shown.matches('q').count(), 0, "{shown}");
    // nor as a list of numbers: q is 113
    assert_eq!(shown.matches("113").count(), 0, "{shown}");
    for (field, (number, _, content)) in message.fields().zip(masked) {
        let words = format!("Field {{ number: {number}, offset: {}, content: **** ({} bytes) }}", field.offset, content.len());
        assert_eq!(format!("{field:?}"), words);
        assert_eq!(field.content, content);
    }
}

#[test]
fn other_fields_are_shown() {
    let bytes = with(&[(37, b"", b"qqqqqqqqqqqq"), (63, b"001", b"q"), (127, b"001", b"q")]);
    let message = read(&bytes).unwrap();
    assert_eq!(format!("{:?}", message.fields()).matches('q').count(), 14);
}
