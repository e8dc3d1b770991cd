// The README's worked book with one byte changed, each byte to each other value, and its message: most are books that break a rule.
use crate::book::decode;
use crate::gen::Case;
use crate::rules::Mode;

const BOOK: &str = "00000071 01 0005
    000E 06 00 00 00 00000000 FFFF 0000
    000E 0C 00 00 00 00000000 FFFF 0000
    000E 10 00 00 00 00000000 FFFF 0000
    000E 19 00 00 00 00000000 0000 0000
    0032 16 01 00 00 00000000 FFFF 0004
      00000001 0000 00 01 00
      00000002 0002 00 01 00
      00000003 0003 00 01 00
      00000004 0001 00 01 00";

const MESSAGE: &str = "00090000 15000000 740E 0000 03000000 423700 00 02000000 100E 6A0E FB";

fn bytes(hex: &str) -> Vec<u8> {
    let digits: Vec<u8> = hex.chars().filter_map(|c| c.to_digit(16)).map(|d| d as u8).collect();
    digits.chunks(2).map(|d| d[0] << 4 | d[1]).collect()
}

pub fn cases(mode: Mode) -> Vec<Case> {
    let whole = bytes(BOOK);
    let mut all = Vec::new();
    for at in 0..whole.len() {
        for by in 1..=255u8 {
            let mut book = whole.clone();
            book[at] = book[at].wrapping_add(by);
            let types = decode(&book).unwrap_or_default();
            all.push(Case { types, book, root: 4, message: bytes(MESSAGE), mode, way: "one byte of the book changed", expected: None });
        }
    }
    all
}
