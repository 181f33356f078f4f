//! Document 01's field table, as 02 amends it, and the fields of its domain of equality, computed from the table and from what the crate's
//! own `definition()` answers.
use iso8583_core::field::{Field, FieldLength, FieldType};

#[derive(Clone, Copy, PartialEq, Eq, Debug)]
pub enum Class {
    N,
    An,
    Ans,
    Ns,
    Z,
    Xn,
    B,
}

/// A row of the table: the count of length digits (0 is fixed), the length or greatest length, the class.
#[derive(Clone, Copy, PartialEq, Eq, Debug)]
pub struct Row {
    pub width: usize,
    pub most: usize,
    pub class: Class,
}

use Class::*;

/// First and last number, count of length digits, length, class.
#[rustfmt::skip]
const TABLE: &[(u8, u8, usize, usize, Class)] = &[
    // n fixed
    (3, 3, 0, 6, N), (4, 6, 0, 12, N), (7, 7, 0, 10, N), (8, 10, 0, 8, N), (11, 12, 0, 6, N), (13, 18, 0, 4, N), (19, 24, 0, 3, N),
    (25, 26, 0, 2, N), (27, 27, 0, 1, N), (49, 51, 0, 3, N), (53, 53, 0, 16, N), (66, 66, 0, 1, N), (67, 67, 0, 2, N), (68, 70, 0, 3, N),
    (71, 72, 0, 4, N), (73, 73, 0, 6, N), (74, 81, 0, 10, N), (82, 85, 0, 12, N), (86, 89, 0, 16, N), (90, 90, 0, 42, N),
    // x+n fixed
    (28, 31, 0, 9, Xn), (97, 97, 0, 17, Xn),
    // n, ns and z variable
    (2, 2, 2, 19, N), (32, 33, 2, 11, N), (36, 36, 3, 104, N), (99, 100, 2, 11, N), (34, 34, 2, 28, Ns), (35, 35, 2, 37, Z),
    // an fixed, an variable
    (37, 37, 0, 12, An), (38, 38, 0, 6, An), (39, 39, 0, 2, An), (40, 40, 0, 3, An), (91, 91, 0, 1, An), (92, 92, 0, 2, An),
    (93, 93, 0, 5, An), (94, 94, 0, 7, An), (95, 95, 0, 42, An), (44, 44, 2, 25, An), (45, 45, 2, 76, An), (46, 48, 3, 999, An),
    (54, 54, 3, 120, An),
    // ans fixed, ans variable
    (41, 41, 0, 8, Ans), (42, 42, 0, 15, Ans), (43, 43, 0, 40, Ans), (98, 98, 0, 25, Ans), (56, 63, 3, 999, Ans), (101, 101, 2, 17, Ans),
    (102, 103, 2, 28, Ans), (104, 104, 3, 100, Ans), (105, 127, 3, 999, Ans),
    // b
    (52, 52, 0, 8, B), (64, 64, 0, 8, B), (96, 96, 0, 8, B), (128, 128, 0, 8, B), (192, 192, 0, 8, B),
    // b by 02, P2
    (55, 55, 3, 999, B),
    // house fields
    (129, 191, 3, 999, Ans),
];

pub fn row(number: u8) -> Option<Row> {
    TABLE.iter().find(|r| r.0 <= number && number <= r.1).map(|r| Row { width: r.2, most: r.3, class: r.4 })
}

/// The fields on which reading, cleaning and the class check are compared.
pub struct Domain {
    pub reading: Vec<u8>,
    pub cleaning: Vec<u8>,
    pub class: Vec<u8>,
}

impl Domain {
    /// 01: "fields whose length kind, length and binary or text nature in `field.rs` agree with our table"; for reading those that one
    /// bitmap holds ("bit 1 clear"), for cleaning "exactly the `n` fields typed Numeric there".
    pub fn of_the_crate() -> Domain {
        let alike = |f: &u8| numeric(*f) == (row(*f).map(|r| r.class) == Some(N));
        let fields = || (2..=128u8).filter(|f| *f != 65);
        Domain {
            reading: fields().filter(|f| *f <= 64 && agreeing(f)).collect(),
            cleaning: fields().filter(|f| agreeing(f) && alike(f)).collect(),
            class: fields().filter(|f| numeric(*f) && alike(f)).collect(),
        }
    }

    /// The fields that the crate has in another shape.
    pub fn disagreeing() -> Vec<u8> {
        (2..=128).filter(|f| *f != 65 && !agreeing(f)).collect()
    }

    /// What docs/DECISIONS.md D1, D3, D4 and D6 say these fields are.
    pub fn of_the_decisions() -> Domain {
        Domain {
            reading: numbers(&[(2, 27), (32, 54)]),
            cleaning: numbers(&[(2, 27), (32, 33), (35, 35), (37, 48), (52, 54), (89, 89), (105, 115), (119, 119), (121, 127)]),
            class: numbers(&[(2, 27), (32, 33), (53, 53), (66, 82), (89, 89)]),
        }
    }
}

fn agreeing(number: &u8) -> bool {
    shape(*number) == row(*number).map(|r| (r.width, r.most, r.class == B))
}

/// What the crate answers of a field: the count of length digits, the length, whether it is binary.
fn shape(number: u8) -> Option<(usize, usize, bool)> {
    let definition = Field::from_number(number).ok()?.definition();
    let (width, most) = match definition.length {
        FieldLength::Fixed(n) => (0, n),
        FieldLength::LLVar(n) => (2, n),
        FieldLength::LLLVar(n) => (3, n),
    };
    Some((width, most, definition.field_type == FieldType::Binary))
}

fn numeric(number: u8) -> bool {
    Field::from_number(number).is_ok_and(|f| f.definition().field_type == FieldType::Numeric)
}

fn numbers(ranges: &[(u8, u8)]) -> Vec<u8> {
    ranges.iter().flat_map(|(first, last)| *first..=*last).collect()
}

/// `2-27, 32` for 2 to 27 and 32.
pub fn ranges(numbers: &[u8]) -> String {
    let mut parts: Vec<(u8, u8)> = Vec::new();
    for n in numbers {
        match parts.last_mut() {
            Some(last) if last.1 + 1 == *n => last.1 = *n,
            _ => parts.push((*n, *n)),
        }
    }
    let said: Vec<String> = parts.iter().map(|(a, b)| if a == b { a.to_string() } else { format!("{a}-{b}") }).collect();
    said.join(", ")
}
