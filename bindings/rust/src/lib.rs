//! Safe calls of Sinotayam: a message of DDS, read by its type book into value rows. The library under it is proved; this crate only passes
//! slices on and names what comes back. It takes no memory of its own and needs no standard library.
//!
//! ```
//! use sinotayam::{Mode, Prepared, Value};
//!
//! // The book of README.md's worked message: books/worked.txt as bytes.
//! let book_bytes = b"\0\0\0\x71\x01\0\x05\
//!     \0\x0E\x06\0\0\0\0\0\0\0\xFF\xFF\0\0\0\x0E\x0C\0\0\0\0\0\0\0\xFF\xFF\0\0\
//!     \0\x0E\x10\0\0\0\0\0\0\0\xFF\xFF\0\0\0\x0E\x19\0\0\0\0\0\0\0\0\0\0\0\
//!     \0\x32\x16\x01\0\0\0\0\0\0\xFF\xFF\0\x04\
//!     \0\0\0\x01\0\0\0\x01\0\0\0\0\x02\0\x02\0\x01\0\0\0\0\x03\0\x03\0\x01\0\0\0\0\x04\0\x01\0\x01\0";
//! let message = b"\0\x09\0\0\x15\0\0\0\x74\x0E\0\0\x03\0\0\0\x42\x37\0\0\x02\0\0\0\x10\x0E\x6A\x0E\xFB";
//!
//! let book = Prepared::new(book_bytes)?;                  // judged once
//! let mut table = [0u64; 2048 * sinotayam::ROW];
//! let rows = book.read(4, message, Mode::Standard, &mut table)?;
//! let values: Vec<Value> = rows.iter().filter_map(|row| row.value()).collect();
//! assert_eq!(values.len(), rows.len());
//! assert_eq!(values[1], Value::UInt16(3700));
//! assert_eq!(values[2], Value::Text("B7"));
//! assert_eq!(values[6], Value::Int8(-5));
//! # Ok::<(), sinotayam::Refusal>(())
//! ```
#![no_std]
#![deny(missing_docs)]

mod kinds;
mod refusal;
mod rows;

pub use kinds::{Extensibility, Kind, TryConstruct, DEFAULT, NO_TYPE, OPTIONAL};
pub use refusal::{Fault, Reason, Refusal};
pub use rows::{Iter, Row, Rows, Text16, Value};

mod ffi {
    extern "C" {
        pub fn sinotayam_read(
            book: *const u8,
            book_len: usize,
            root: u16,
            message: *const u8,
            message_len: usize,
            standard: u8,
            table: *mut u64,
            words: usize,
            position: *mut u64,
            need: *mut u64,
        ) -> u64;
        pub fn sinotayam_fault(book: *const u8, book_len: usize) -> u32;
        pub fn sinotayam_check(book: *const u8, book_len: usize, root: u16, only_xcdr2: u8) -> u8;
        pub fn sinotayam_prepare(book: *const u8, book_len: usize, index: *mut u32, index_len: usize) -> u8;
        pub fn sinotayam_read_prepared(
            book: *const u8,
            book_len: usize,
            index: *const u32,
            index_len: usize,
            root: u16,
            message: *const u8,
            message_len: usize,
            standard: u8,
            table: *mut u64,
            words: usize,
            position: *mut u64,
            need: *mut u64,
        ) -> u64;
        pub fn sinotayam_text(table: *const u64, words: usize, row: usize, data: *const u8, data_len: usize) -> u8;
    }
}

/// The words of a row in the table: kind, id, a, b, place.
pub const ROW: usize = 5;

/// The words in which the index of any book has room.
const INDEX: usize = 65;

/// The bytes of a message before its data.
const HEADER: usize = 4;

/// The record that stands for a book's head.
const HEAD: u16 = 65535;

/// How XCDR2 is read. XCDR1 is read alike in both.
#[derive(Clone, Copy, Debug, PartialEq, Eq, Hash)]
#[repr(u8)]
pub enum Mode {
    /// As the crate dust_dds 0.16.0 does.
    Crate = 0,
    /// As DDS-XTypes 1.3 does: values end where their DHEADER says, and what the type does not know is passed over.
    Standard = 1,
}

/// Which encodings a type is used with.
#[derive(Clone, Copy, Debug, PartialEq, Eq, Hash)]
#[repr(u8)]
pub enum Encodings {
    /// Any: in types with headers the low 16 bits of the ids differ, and are at most 16,383.
    Any = 0,
    /// XCDR2 and no other: there each id is at most 268,435,455.
    OnlyXcdr2 = 1,
}

/// What is wrong with a book.
pub fn fault(book: &[u8]) -> Result<(), Refusal> {
    // The pointer and the length are those of a live slice, and nothing is written.
    let word = unsafe { ffi::sinotayam_fault(book.as_ptr(), book.len()) };
    let record = (word >> 8) as u16;
    match Reason::of_number(word as u8) {
        Some(reason) => Err(Refusal::BadBook(Fault { record: (record != HEAD).then_some(record), reason })),
        None if word == 0 => Ok(()),
        None => Err(Refusal::Unknown(word as u8)),
    }
}

/// Success for 0; else what a number says of a book, or of a reading that tells this of a shortage. A number that is not known is no success.
fn judged(number: u8, book: &[u8], position: u64, need: u64) -> Result<(), Refusal> {
    Err(match number {
        0 => return Ok(()),
        1 => Refusal::NotEnoughData { position, need },
        2 => Refusal::InvalidData,
        3 => Refusal::InvalidType,
        8 => Refusal::NotPrepared,
        9 => Refusal::BadRoot,
        10 => Refusal::TooLong,
        11 => Refusal::Unsupported,
        12 => Refusal::TooDeep,
        13 => Refusal::NoRoom,
        14 => Refusal::NoDiscriminator,
        16 => Refusal::Unfit,
        17..=23 => match fault(book) {
            Err(refusal) => refusal,
            Ok(()) => Refusal::Unknown(number),
        },
        _ => Refusal::Unknown(number),
    })
}

/// What a reading call tells of the table that it is lent.
fn told<'t, 'm>(
    book: &[u8],
    message: &'m [u8],
    table: &'t mut [u64],
    call: impl FnOnce(*mut u64, usize, *mut u64, *mut u64) -> u64,
) -> Result<Rows<'t, 'm>, Refusal> {
    let (mut position, mut need) = (0, 0);
    let word = call(table.as_mut_ptr(), table.len(), &mut position, &mut need);
    judged(word as u8, book, position, need)?;
    let words = usize::try_from(word >> 8).ok().and_then(|rows| rows.checked_mul(ROW)).and_then(|n| table.get(..n));
    let (Some(words), Some(data), Some(second)) = (words, message.get(HEADER..), message.get(1)) else {
        return Err(Refusal::Unknown(0));
    };
    Ok(Rows { words, data, little: second % 2 == 1 })
}

/// Reads a message of the book's type `root`, in this mode, into the lent table.
pub fn read<'t, 'm>(book: &[u8], root: u16, message: &'m [u8], mode: Mode, table: &'t mut [u64]) -> Result<Rows<'t, 'm>, Refusal> {
    // The pointers and lengths are those of live slices, and only the table and the two words are written, which nothing else borrows.
    told(book, message, table, |t, words, position, need| unsafe {
        ffi::sinotayam_read(book.as_ptr(), book.len(), root, message.as_ptr(), message.len(), mode as u8, t, words, position, need)
    })
}

/// The type check: whether every reading of the book's type `root`, in either mode, is a finished one, or refused for the message's or the table's sake alone;
/// and whether, in the encodings that the type is used with, no member's header is taken for another's.
pub fn check(book: &[u8], root: u16, encodings: Encodings) -> Result<(), Refusal> {
    // The pointer and the length are those of a live slice, and nothing is written.
    let number = unsafe { ffi::sinotayam_check(book.as_ptr(), book.len(), root, encodings as u8) };
    judged(number, book, 0, 0)
}

/// The bytes of the text in row number `row` of a table, in this data: for who keeps a table without its [`Rows`]. None where the row is no text inside the data.
pub fn text<'d>(table: &[u64], row: usize, data: &'d [u8]) -> Option<&'d [u8]> {
    // The pointers and lengths are those of live slices, and nothing is written.
    let number = unsafe { ffi::sinotayam_text(table.as_ptr(), table.len(), row, data.as_ptr(), data.len()) };
    if number != 0 {
        return None;
    }
    let w = table.chunks_exact(ROW).nth(row)?;
    let size = if w[0] == Kind::String16 as u64 { 2 } else { 1 };
    data.get(w[2] as usize..(w[2] + w[3] * size) as usize)
}

/// A book that was judged once, to read many messages with.
#[derive(Clone, Debug)]
pub struct Prepared<'b> {
    book: &'b [u8],
    index: [u32; INDEX],
}

impl<'b> Prepared<'b> {
    /// Judges a book, and finds its types.
    pub fn new(book: &'b [u8]) -> Result<Prepared<'b>, Refusal> {
        let mut index = [0u32; INDEX];
        // As in `read`; only the index is written.
        let number = unsafe { ffi::sinotayam_prepare(book.as_ptr(), book.len(), index.as_mut_ptr(), index.len()) };
        judged(number, book, 0, 0)?;
        Ok(Prepared { book, index })
    }

    /// The same answer as [`read`] with the book, which is not judged again.
    pub fn read<'t, 'm>(&self, root: u16, message: &'m [u8], mode: Mode, table: &'t mut [u64]) -> Result<Rows<'t, 'm>, Refusal> {
        let (book, index) = (self.book, &self.index);
        // As in `read`.
        told(book, message, table, |t, words, position, need| unsafe {
            ffi::sinotayam_read_prepared(
                book.as_ptr(), book.len(), index.as_ptr(), index.len(), root, message.as_ptr(), message.len(), mode as u8, t, words, position, need,
            )
        })
    }
}
