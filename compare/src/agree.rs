// The crate's answer beside the port's, and a row beside the bytes at its place.
use crate::book::width;
use crate::oracle::{Answer, Row};

/// The words of a row: kind, id, a, b, and by order 7 the place of its value in the data.
pub const WIDTH: usize = 5;
pub type Words = [u64; WIDTH];

/// Where the port's answer differs from what the crate says of a message, in words.
pub fn differs(expected: &Answer, number: u8, got: &[Words], message: &[u8]) -> Option<String> {
    match expected {
        Answer::Broken(why) => Some(format!("the crate ended with: {why}")),
        Answer::Refused(n) if *n == number => None,
        Answer::Refused(n) => Some(format!("the crate gives {n}, the port {number} with {} rows", got.len())),
        Answer::Read(_) if number != 0 => Some(format!("the crate reads, the port gives {number}")),
        Answer::Read(rows) if rows.len() != got.len() => Some(format!("the crate stores {} rows, the port {}", rows.len(), got.len())),
        Answer::Read(rows) => {
            let data = &message[4..];
            let at = rows.iter().zip(got).position(|(r, g)| !same(r, g, data, message[1] % 2 == 0))?;
            Some(format!("row {at}: the crate {:?}, the port {:?}", rows[at], got[at]))
        }
    }
}

/// The crate knows no place of a value.
fn same(expected: &Row, got: &Words, data: &[u8], big: bool) -> bool {
    match expected {
        Row::Words(w) => w[..] == got[..4],
        Row::Text { kind, id, text } => *kind == got[0] && *id == got[1] && text_at(got, data, big).as_ref() == Some(text),
    }
}

/// The characters of a text row, by its place in the data.
fn text_at(row: &Words, data: &[u8], big: bool) -> Option<String> {
    let n = if row[0] == 17 { row[3].checked_mul(2)? } else { row[3] };
    let part = data.get(row[2] as usize..row[2].checked_add(n)? as usize)?;
    if row[0] == 16 {
        return String::from_utf8(part.to_vec()).ok();
    }
    let units: Vec<u16> = part.chunks(2).map(|u| if big { u16::from_be_bytes([u[0], u[1]]) } else { u16::from_le_bytes([u[0], u[1]]) }).collect();
    String::from_utf16(&units).ok()
}

/// The number of n bytes at a place.
fn number_at(data: &[u8], place: u64, n: usize, big: bool) -> Option<u128> {
    let part = data.get(place as usize..place.checked_add(n as u64)? as usize)?;
    let join = |x: u128, b: &u8| x << 8 | *b as u128;
    Some(if big { part.iter().fold(0, join) } else { part.iter().rev().fold(0, join) })
}

/// Whether a row's value stands where it says: the bytes at a number's place spell its value, and a text's length stands at its place, with the text behind it.
/// Of a list and of what is opened there are no such bytes.
pub fn stands(row: &Words, data: &[u8], big: bool) -> bool {
    let [kind, _, a, b, place] = *row;
    let at = |n: usize| number_at(data, place, n, big);
    match kind {
        21..=23 | 25 => true,
        16 => a == place + 4 && at(4).is_some_and(|n| b as u128 == n.saturating_sub(1)),
        17 => a == place + 4 && at(4) == Some(2 * b as u128),
        11 => at(16) == Some((b as u128) << 64 | a as u128),
        k => {
            let n = width(k as u8);
            b == 0 && at(n) == Some(a as u128 & ((1 << (8 * n)) - 1))
        }
    }
}
