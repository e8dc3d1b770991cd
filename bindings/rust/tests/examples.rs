//! Bench examples of document 01, through the safe calls.
use sinotayam::{check, fault, read, text, Encodings, Fault, Kind, Mode, Prepared, Reason, Refusal, Value};

const BOOK: &[u8] = b"\x00\x00\x00\x2c\x01\x00\x02\x00\x0e\x04\x00\x00\x00\x00\x00\x00\x00\xff\xff\x00\x00\
    \x00\x17\x16\x00\x00\x00\x00\x00\x00\x00\xff\xff\x00\x01\x00\x00\x00\x07\x00\x00\x00\x01\x00";
const MESSAGE: &[u8] = b"\x00\x01\x00\x00\xfe\xff\xff\xff";

// Mutable, 1: STRING8.
const TEXT_BOOK: &[u8] = b"\x00\x00\x00\x2c\x01\x00\x02\x00\x0e\x10\x00\x00\x00\x00\x00\x00\x00\xff\xff\x00\x00\
    \x00\x17\x16\x02\x00\x00\x00\x00\x00\x00\xff\xff\x00\x01\x00\x00\x00\x01\x00\x00\x00\x01\x00";
const TEXT: &[u8] = b"\x00\x0b\x00\x00\x0a\x00\x00\x00\x01\x00\x00\x50\x02\x00\x00\x00\x41\x00";

// Final, 1: STRING16.
const WIDE_BOOK: &[u8] = b"\x00\x00\x00\x2c\x01\x00\x02\x00\x0e\x11\x00\x00\x00\x00\x00\x00\x00\xff\xff\x00\x00\
    \x00\x17\x16\x00\x00\x00\x00\x00\x00\x00\xff\xff\x00\x01\x00\x00\x00\x01\x00\x00\x00\x01\x00";

// Mutable, 1: list of UINT16 (example 10).
const LIST_BOOK: &[u8] = b"\x00\x00\x00\x3a\x01\x00\x03\x00\x0e\x06\x00\x00\x00\x00\x00\x00\x00\xff\xff\x00\x00\
    \x00\x0e\x19\x00\x00\x00\x00\x00\x00\x00\x00\x00\x00\x00\
    \x00\x17\x16\x02\x00\x00\x00\x00\x00\x00\xff\xff\x00\x01\x00\x00\x00\x01\x00\x01\x00\x01\x00";
const LIST: &[u8] = b"\x00\x0b\x00\x00\x10\x00\x00\x00\x01\x00\x00\x40\x08\x00\x00\x00\x02\x00\x00\x00\x0a\x00\x0b\x00";

fn values<'m>(rows: sinotayam::Rows<'_, 'm>) -> Vec<Value<'m>> {
    rows.into_iter().map(|r| r.value().expect("a value")).collect()
}

#[test]
fn example_1() {
    let mut table = [7u64; 13];
    let got = read(BOOK, 1, MESSAGE, Mode::Crate, &mut table).unwrap();
    assert_eq!(got.len(), 2);
    assert_eq!(values(got), [Value::Structure { ty: 1, rows: 1 }, Value::Int32(-2)]);
    assert_eq!(got.iter().map(|r| (r.id, r.place)).collect::<Vec<_>>(), [(0, 0), (7, 0)]);
    assert_eq!(got.get(2), None);
    assert_eq!(table[10..], [0, 0, 0]);
}

#[test]
fn example_3_has_room_in_10_words() {
    let mut table = [7u64; 9];
    assert_eq!(read(BOOK, 1, MESSAGE, Mode::Crate, &mut table).unwrap_err(), Refusal::NoRoom);
    assert_eq!(table, [0; 9]);
    assert!(read(BOOK, 1, MESSAGE, Mode::Crate, &mut [0u64; 10]).is_ok());
}

#[test]
fn example_12_is_a_text() {
    let mut table = [0u64; 64];
    let got = read(TEXT_BOOK, 1, TEXT, Mode::Crate, &mut table).unwrap();
    assert_eq!(got.get(1).unwrap().value(), Some(Value::Text("A")));
    // its length stands right behind the header
    assert_eq!(got.get(1).unwrap().place, 8);
    let data = got.data();
    assert_eq!(text(&table, 1, data), Some(&b"A"[..]));
    assert_eq!(text(&table, 0, data), None);
    assert_eq!(text(&table, 2, data), None);
    assert_eq!(text(&table, 1, &data[..12]), None);
}

#[test]
fn a_text_of_16_bit_units_in_both_byte_orders() {
    let mut table = [0u64; 64];
    let little = b"\x00\x01\x00\x00\x06\x00\x00\x00\xe4\x00\x3d\xd8\x0b\xdd";
    let big = b"\x00\x00\x00\x00\x00\x00\x00\x06\x00\xe4\xd8\x3d\xdd\x0b";
    for message in [&little[..], &big[..]] {
        let got = read(WIDE_BOOK, 1, message, Mode::Standard, &mut table).unwrap();
        match got.get(1).unwrap().value() {
            Some(Value::Text16(wide)) => {
                assert_eq!(wide.to_string(), "ä\u{1f50b}");
                assert_eq!(wide.units().collect::<Vec<_>>(), [0xe4, 0xd83d, 0xdd0b]);
            }
            other => panic!("{other:?}"),
        }
    }
}

#[test]
fn example_10_in_both_modes() {
    let mut table = [0u64; 64];
    let short = Refusal::NotEnoughData { position: 20, need: 2 };
    assert_eq!(read(LIST_BOOK, 2, LIST, Mode::Crate, &mut table).unwrap_err(), short);
    let numbers = |rows: sinotayam::Rows| rows.iter().skip(2).map(|r| r.a).collect::<Vec<_>>();
    let places = |rows: sinotayam::Rows| rows.iter().map(|r| r.place).collect::<Vec<_>>();
    let got = read(LIST_BOOK, 2, LIST, Mode::Standard, &mut table).unwrap();
    assert_eq!(got.get(1).unwrap().value(), Some(Value::List { element: Kind::UInt16, len: 2 }));
    assert_eq!((numbers(got), places(got)), (vec![10, 11], vec![0, 16, 16, 18]));
    let book = Prepared::new(LIST_BOOK).unwrap();
    assert_eq!(numbers(book.read(2, LIST, Mode::Standard, &mut table).unwrap()), [10, 11]);
    assert_eq!(book.read(2, LIST, Mode::Crate, &mut table).unwrap_err(), short);
    // eight zero bytes more
    let longer = [LIST, &[0; 8]].concat();
    assert_eq!(numbers(read(LIST_BOOK, 2, &longer, Mode::Crate, &mut table).unwrap()), [2, 0, 10, 11, 0, 0, 0, 0]);
    assert_eq!(numbers(read(LIST_BOOK, 2, &longer, Mode::Standard, &mut table).unwrap()), [10, 11]);
}

#[test]
fn refusals_in_order() {
    let mut table = [7u64; 9];
    let mut of = |book: &[u8], root, message: &[u8]| read(book, root, message, Mode::Crate, &mut table).unwrap_err();
    let head = Refusal::BadBook(Fault { record: None, reason: Reason::Head });
    assert_eq!(of(&BOOK[1..], 2, &[]), head);
    assert_eq!(of(&[], 0, MESSAGE), head);
    assert_eq!(of(BOOK, 2, &[0; 65537]), Refusal::BadRoot);
    assert_eq!(of(BOOK, 1, &[0; 65537]), Refusal::TooLong);
    assert_eq!(of(BOOK, 1, &MESSAGE[..3]), Refusal::NotEnoughData { position: 0, need: 1 });
    assert_eq!(of(BOOK, 1, &MESSAGE[..7]), Refusal::NotEnoughData { position: 0, need: 1 });
    assert_eq!(of(BOOK, 1, b"\x00\x04\x00\x00"), Refusal::InvalidData);
    assert_eq!(of(BOOK, 0, MESSAGE), Refusal::InvalidType);
    assert_eq!(table, [0; 9]);
}

#[test]
fn refusals_are_sentences() {
    let mut table = [0u64; 64];
    let said = |r: Refusal| (r.number(), r.to_string());
    let (number, words) = said(read(BOOK, 1, &MESSAGE[..7], Mode::Crate, &mut table).unwrap_err());
    assert_eq!((number, words.as_str()), (1, "the data ends before the type does: at byte 0 1 more were needed"));
    // the list's element is the list itself
    let mut book = LIST_BOOK.to_vec();
    book[32] = 1;
    let (number, words) = said(fault(&book).unwrap_err());
    assert_eq!(number, 20);
    assert!(words.starts_with("the book breaks a rule: record 1: type link: its element"), "{words}");
    assert_eq!(read(&book, 2, LIST, Mode::Crate, &mut table).unwrap_err(), Refusal::BadBook(Fault { record: Some(1), reason: Reason::TypeLink }));
}

#[test]
fn prepared_reads_the_same() {
    let mut table = [0u64; 64];
    let book = Prepared::new(BOOK).unwrap();
    for _ in 0..3 {
        assert_eq!(values(book.read(1, MESSAGE, Mode::Crate, &mut table).unwrap())[1], Value::Int32(-2));
    }
    assert_eq!(book.read(2, MESSAGE, Mode::Crate, &mut table).unwrap_err(), Refusal::BadRoot);
    assert_eq!(Prepared::new(&BOOK[1..]).unwrap_err(), fault(&BOOK[1..]).unwrap_err());
}

#[test]
fn an_empty_table_has_no_room() {
    assert_eq!(read(BOOK, 1, MESSAGE, Mode::Crate, &mut []).unwrap_err(), Refusal::NoRoom);
}

#[test]
fn the_type_check_of_example_1() {
    assert_eq!(check(BOOK, 1, Encodings::Any), Ok(()));
    assert_eq!(check(BOOK, 0, Encodings::Any), Err(Refusal::Unfit));
    assert_eq!(check(BOOK, 2, Encodings::Any), Err(Refusal::BadRoot));
    assert_eq!(check(&[], 0, Encodings::Any), Err(Refusal::BadBook(Fault { record: None, reason: Reason::Head })));
}

// An INT32, and a Mutable structure of two with the ids 5 and 65541.
const ALIKE: &[u8] = b"\0\0\0\x35\x01\0\x02\
    \0\x0E\x04\0\0\0\0\0\0\0\xFF\xFF\0\0\
    \0\x20\x16\x02\0\0\0\0\0\0\xFF\xFF\0\x02\
    \0\0\0\x05\0\0\0\x01\0\
    \0\x01\0\x05\0\0\0\x01\0";

#[test]
fn two_ids_that_share_an_xcdr1_header() {
    assert_eq!(check(ALIKE, 1, Encodings::Any), Err(Refusal::Unfit));
    assert_eq!(check(ALIKE, 1, Encodings::OnlyXcdr2), Ok(()));
}
