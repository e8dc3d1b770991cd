// The messages that are measured: a value of each of the types in books/.
use crate::book::{decode, Type};
use crate::write::{message, Value};
use Value::{Of, Text, N};

pub struct Case {
    pub name: &'static str,
    pub types: Vec<Type>,
    pub book: Vec<u8>,
    pub root: u16,
    pub message: Vec<u8>,
    /// The message as the crate reads it: in the standard's mode the same values, written in the crate's way.
    pub its_own: Vec<u8>,
    /// The mode's number.
    pub standard: u8,
}

// Representation identifiers.
const CDR_BE: u8 = 0;
const CDR_LE: u8 = 1;
const PL_CDR_LE: u8 = 3;
const D_CDR2_BE: u8 = 8;
const D_CDR2_LE: u8 = 9;
const PL_CDR2_BE: u8 = 10;
const PL_CDR2_LE: u8 = 11;

// The modes, as the calls take them.
const CRATE: u8 = 0;
const STANDARD: u8 = 1;

/// The bytes of a book that is kept as text in books/: bench/run writes a line for each, its name and its hex digits.
pub fn book(name: &str) -> Vec<u8> {
    let hex = include_str!("books.txt").lines().find_map(|l| l.strip_prefix(name)?.strip_prefix(' ')).unwrap_or_else(|| panic!("books/{name}.txt is not there"));
    bytes(hex)
}

pub fn bytes(hex: &str) -> Vec<u8> {
    hex.as_bytes().chunks(2).map(|two| u8::from_str_radix(std::str::from_utf8(two).unwrap(), 16).expect("hex")).collect()
}

/// The root is the book's last type.
fn case(name: &'static str, of: &str, identifier: u8, value: Value, standard: u8) -> Case {
    let book = book(of);
    let types = decode(&book).expect("a good book");
    let root = types.len() as u16 - 1;
    let written = |standard| message(&types, root, &value, identifier, standard == STANDARD);
    let (message, its_own) = (written(standard), written(CRATE));
    Case { name, book, message, its_own, standard, types, root }
}

fn float(x: f32) -> Value {
    N(x.to_bits() as u64)
}

fn double(x: f64) -> Value {
    N(x.to_bits())
}

fn text(s: &str) -> Value {
    Text(s.to_string())
}

fn heartbeat() -> Case {
    let value = Of(vec![
        text("truck-0417"),
        N(90_210),
        N(1_700_000_000_123),
        N(3600),
        double(48.137),
        double(11.575),
        float(17.5),
        float(270.0),
        N(0x0104),
        N(88),
        N(1),
    ]);
    case("heartbeat", "heartbeat", CDR_LE, value, CRATE)
}

/// A battery pack: nested structures, texts, an enum, a bitmask, and lists of numbers and of structures.
fn pack(name: &'static str, of: &str, identifier: u8, standard: u8) -> Case {
    let a_cell = |i: u64| Of(vec![N(i), float(3.6 + i as f32 / 100.0), float(21.5 + i as f32)]);
    let value = Of(vec![
        text("PACK-2207-0042"),
        N(1_700_000_000_123),
        N(2),
        N(0x0208),
        Of(vec![N(1), N(0), N(4711)]),
        float(403.2),
        float(-17.25),
        Of((0..8).map(|i| float(20.0 + i as f32)).collect()),
        Of((0..10).map(a_cell).collect()),
        Of((0..16).map(|i| N(0xa0 + i)).collect()),
        text("balanced, next service in 40 h at depot 7, bay 3"),
    ]);
    case(name, of, identifier, value, standard)
}

/// Texts of about 60 bytes, one in eight with letters beyond ASCII.
fn log() -> Case {
    let line = |i: usize| {
        let end = if i % 8 == 7 { "Überlast an Zelle 7, 61 °C" } else { "contactor closed after precharge" };
        Text(format!("2026-03-{:02}T07:41:{:02}Z bms[{}]: {end}", i % 28 + 1, i % 60, 1000 + i))
    };
    let value = Of(vec![N(1_700_000_000_123), N(3), text("bms/controller"), Of((0..32).map(line).collect())]);
    case("log", "log", CDR_LE, value, CRATE)
}

fn waveform() -> Case {
    let value = Of(vec![
        N(1_700_000_000_123),
        float(8000.0),
        text("inverter phase u"),
        Of((0..4000).map(|i| float((i as f32 / 50.0).sin())).collect()),
    ]);
    case("waveform", "waveform", CDR_LE, value, CRATE)
}

/// Sixteen structures, each inside the other, with a number before and after.
fn nested(name: &'static str, of: &str, identifier: u8, standard: u8) -> Case {
    let value = (1..16).rev().fold(Of(vec![N(16)]), |inner, depth| Of(vec![N(depth), inner, N(depth)]));
    case(name, of, identifier, value, standard)
}

/// A list of structures as long as fits in `bytes`.
fn sized(name: &'static str, bytes: usize) -> Case {
    let made = |n: u64| {
        let one = |i| Of(vec![N(i), float(i as f32 / 8.0), float(i as f32 / 3.0), text("cell ok")]);
        case(name, "records", CDR_LE, Of(vec![N(7), Of((0..n).map(one).collect())]), CRATE)
    };
    made((bytes - made(0).message.len()) as u64 / 24)
}

pub fn all() -> Vec<Case> {
    vec![
        heartbeat(),
        pack("pack F1 LE", "pack-final", CDR_LE, CRATE),
        pack("pack F1 BE", "pack-final", CDR_BE, CRATE),
        pack("pack A2 LE", "pack-appendable", D_CDR2_LE, CRATE),
        pack("pack A2 BE", "pack-appendable", D_CDR2_BE, CRATE),
        pack("pack M2 LE", "pack-mutable", PL_CDR2_LE, CRATE),
        pack("pack M2 BE", "pack-mutable", PL_CDR2_BE, CRATE),
        pack("pack M1 LE", "pack-mutable", PL_CDR_LE, CRATE),
        log(),
        waveform(),
        nested("nest F1 LE", "nest-final", CDR_LE, CRATE),
        nested("nest M2 LE", "nest-mutable", PL_CDR2_LE, CRATE),
        pack("pack A2 LE S", "pack-appendable", D_CDR2_LE, STANDARD),
        pack("pack A2 BE S", "pack-appendable", D_CDR2_BE, STANDARD),
        pack("pack M2 LE S", "pack-mutable", PL_CDR2_LE, STANDARD),
        pack("pack M2 BE S", "pack-mutable", PL_CDR2_BE, STANDARD),
        nested("nest A2 LE S", "nest-appendable", D_CDR2_LE, STANDARD),
        nested("nest M2 LE S", "nest-mutable", PL_CDR2_LE, STANDARD),
        sized("1 KB", 1 << 10),
        sized("4 KB", 1 << 12),
        sized("16 KB", 1 << 14),
        sized("64 KB", 1 << 16),
    ]
}
