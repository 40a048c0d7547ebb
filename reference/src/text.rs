//! Texts, and the classes of their characters.
use std::rc::Rc;

pub type Text = Rc<[char]>;

/// The classes of a character, joined by `|`.
pub const DIGIT: u8 = 1;
pub const UPPER: u8 = 2;
pub const LOWER: u8 = 4;
pub const ALPHA: u8 = 8;
pub const SPACE: u8 = 16;

pub fn text(s: &str) -> Text {
    s.chars().collect::<Vec<_>>().into()
}

fn find_class(c: char) -> u8 {
    let x = c as u32;
    let r = &crate::classes::RANGES;
    let i = r.partition_point(|e| e.1 < x);
    if i < r.len() && r[i].0 <= x {
        r[i].2
    } else {
        0
    }
}

/// The classes of a character; those of the first 1,280 are kept in a list.
pub fn class_of(c: char) -> u8 {
    thread_local! {
        static FIRST: Vec<u8> = (0u32..0x500).map(|x| find_class(char::from_u32(x).unwrap())).collect();
    }
    match c as usize {
        at if at < 0x500 => FIRST.with(|first| first[at]),
        _ => find_class(c),
    }
}

/// Whether a character is neither a letter nor a digit.
pub fn is_separator(c: char) -> bool {
    class_of(c) & (ALPHA | DIGIT) == 0
}

pub fn push_utf8(out: &mut Vec<u8>, t: &[char]) {
    let mut b = [0u8; 4];
    for &c in t {
        out.extend_from_slice(c.encode_utf8(&mut b).as_bytes());
    }
}
