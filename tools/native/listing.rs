//! What `dump` prints of a field: docs/SHEET.md.

use crate::sheet::{Field, Sheet, Tag, is_name_byte};
use std::fmt::Write;

/// The field's line; `sheet` is what was read before it.
pub fn line(field: &Field, sheet: &Sheet) -> String {
    format!("{:<6}{:<54}{}\n", field.place, hexadecimal(field), in_words(field, sheet))
}

/// The field's bytes, grouped as they are meant; name and exponents are the last group.
fn hexadecimal(field: &Field) -> String {
    let groups: &[usize] = match field.tag {
        Tag::Variable => &[1, 2, 4, 4, 4],
        Tag::Tolerance | Tag::Term => &[1, 2, 4],
        Tag::Row => &[1, 2, 1, 4, 4],
        Tag::End => &[1, 2],
    };
    let mut text = String::new();
    let mut left = field.bytes;
    for &size in groups.iter().chain([&left.len()]) {
        let (group, behind) = left.split_at(size.min(left.len()));
        if !group.is_empty() && !text.is_empty() {
            text.push(' ');
        }
        for byte in group {
            write!(text, "{byte:02X}").expect("a string takes all");
        }
        left = behind;
    }
    text
}

fn in_words(field: &Field, sheet: &Sheet) -> String {
    match field.tag {
        Tag::Variable => variable(field),
        Tag::Tolerance => format!("tolerance {}", field.number(0) as u32),
        Tag::Row => row(field),
        Tag::Term => term(field, sheet),
        Tag::End => "end".to_string(),
    }
}

fn variable(field: &Field) -> String {
    let shown = |byte: &u8| if is_name_byte(byte) { char::from(*byte) } else { '?' };
    let name: String = field.content()[12..].iter().map(shown).collect();
    let (lo, hi, nominal) = (field.number(0), field.number(4), field.number(8));
    format!("variable {name} from {lo} to {hi}, nominal {nominal}")
}

fn row(field: &Field) -> String {
    match (field.content()[0], field.content().len()) {
        (1, 5) => format!("row at least {}", field.number(1)),
        (2, 5) => format!("row at most {}", field.number(1)),
        (3, 9) => format!("row between {} and {}", field.number(1), field.number(5)),
        _ => "row of no kind".to_string(),
    }
}

fn term(field: &Field, sheet: &Sheet) -> String {
    let exponents = field.content()[4..].iter();
    let powers = exponents.zip(&sheet.variables).map(|(exponent, variable)| match exponent {
        0 => String::new(),
        1 => format!(" {}", variable.name),
        _ => format!(" {}^{exponent}", variable.name),
    });
    format!("term {}{}", field.number(0), powers.collect::<String>())
}
