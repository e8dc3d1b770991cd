//! Rows, and the values that they hold.
use crate::{Kind, ROW};
use core::fmt;

/// The rows of a finished reading, in the lent table, with the data of the message that they were read from.
#[derive(Clone, Copy, Debug)]
pub struct Rows<'t, 'm> {
    pub(crate) words: &'t [u64],
    pub(crate) data: &'m [u8],
    pub(crate) little: bool,
}

/// One row: a value, its id, and where it stood.
#[derive(Clone, Copy, Debug, PartialEq, Eq)]
pub struct Row<'m> {
    /// The number of its kind.
    pub kind: u64,
    /// The member's id; an element's position; 0 of the root and of an enum's value.
    pub id: u64,
    /// Its first word: [`Row::value`] says what it holds.
    pub a: u64,
    /// Its second word.
    pub b: u64,
    /// Where the value stood in the data, which is the message without its first four bytes: its first byte after alignment; a text's length; a sequence's first byte
    /// after its length.
    pub place: u64,
    data: &'m [u8],
    little: bool,
}

/// What a row holds.
#[derive(Clone, Copy, Debug, PartialEq)]
pub enum Value<'m> {
    /// A BOOLEAN.
    Boolean(bool),
    /// An INT8.
    Int8(i8),
    /// An INT16.
    Int16(i16),
    /// An INT32.
    Int32(i32),
    /// An INT64.
    Int64(i64),
    /// A UINT8, a BYTE, or a bitmask of up to 8 bits.
    UInt8(u8),
    /// A UINT16, or a bitmask of 9 to 16 bits.
    UInt16(u16),
    /// A UINT32, or a bitmask of 17 to 32 bits.
    UInt32(u32),
    /// A UINT64, or a bitmask of more bits.
    UInt64(u64),
    /// A FLOAT32.
    Float32(f32),
    /// A FLOAT64.
    Float64(f64),
    /// A FLOAT128, by its bits.
    Float128 {
        /// The lower 64 bits.
        low: u64,
        /// The higher 64 bits.
        high: u64,
    },
    /// A CHAR8, by its byte.
    Char8(u8),
    /// A STRING8.
    Text(&'m str),
    /// A STRING16.
    Text16(Text16<'m>),
    /// An ENUM: its value is the next row.
    Enum {
        /// The number of its type in the book.
        ty: u64,
        /// How many rows stand beneath it.
        rows: u64,
    },
    /// A STRUCTURE.
    Structure {
        /// The number of its type in the book.
        ty: u64,
        /// How many rows stand beneath it, at any depth.
        rows: u64,
    },
    /// A UNION.
    Union {
        /// The number of its type in the book.
        ty: u64,
        /// How many rows stand beneath it, at any depth.
        rows: u64,
    },
    /// A sequence or an array.
    List {
        /// The kind of its elements' rows.
        element: Kind,
        /// How many elements follow.
        len: u64,
    },
}

/// A text of 16-bit units, as it stands in the message.
#[derive(Clone, Copy, Debug, PartialEq, Eq)]
pub struct Text16<'m> {
    bytes: &'m [u8],
    little: bool,
}

impl<'m> Text16<'m> {
    /// Its units, in the machine's order.
    pub fn units(&self) -> impl Iterator<Item = u16> + 'm {
        let little = self.little;
        self.bytes.chunks_exact(2).map(move |b| if little { u16::from_le_bytes([b[0], b[1]]) } else { u16::from_be_bytes([b[0], b[1]]) })
    }

    /// Its characters. The reading has judged that the units make pairs.
    pub fn chars(&self) -> impl Iterator<Item = char> + 'm {
        char::decode_utf16(self.units()).map(|c| c.unwrap_or(char::REPLACEMENT_CHARACTER))
    }
}

impl fmt::Display for Text16<'_> {
    fn fmt(&self, f: &mut fmt::Formatter<'_>) -> fmt::Result {
        self.chars().try_for_each(|c| fmt::Write::write_char(f, c))
    }
}

impl<'m> Row<'m> {
    fn new(w: &[u64], data: &'m [u8], little: bool) -> Row<'m> {
        Row { kind: w[0], id: w[1], a: w[2], b: w[3], place: w[4], data, little }
    }

    /// The part of the data that a text of `size` bytes a unit is.
    fn part(&self, size: u64) -> Option<&'m [u8]> {
        let start = usize::try_from(self.a).ok()?;
        let len = usize::try_from(self.b.checked_mul(size)?).ok()?;
        self.data.get(start..start.checked_add(len)?)
    }

    /// Its value, by its kind; none where the row is none that a reading writes.
    pub fn value(&self) -> Option<Value<'m>> {
        let (a, ty, rows) = (self.a, self.a, self.b);
        Some(match Kind::of_number(self.kind)? {
            Kind::Boolean => Value::Boolean(a == 1),
            Kind::Int8 => Value::Int8(a as i8),
            Kind::Int16 => Value::Int16(a as i16),
            Kind::Int32 => Value::Int32(a as i32),
            Kind::Int64 => Value::Int64(a as i64),
            Kind::UInt8 => Value::UInt8(a as u8),
            Kind::UInt16 => Value::UInt16(a as u16),
            Kind::UInt32 => Value::UInt32(a as u32),
            Kind::UInt64 => Value::UInt64(a),
            Kind::Float32 => Value::Float32(f32::from_bits(a as u32)),
            Kind::Float64 => Value::Float64(f64::from_bits(a)),
            Kind::Float128 => Value::Float128 { low: a, high: self.b },
            Kind::Char8 => Value::Char8(a as u8),
            Kind::String8 => Value::Text(core::str::from_utf8(self.part(1)?).ok()?),
            Kind::String16 => Value::Text16(Text16 { bytes: self.part(2)?, little: self.little }),
            Kind::Enum => Value::Enum { ty, rows },
            Kind::Structure => Value::Structure { ty, rows },
            Kind::Union => Value::Union { ty, rows },
            Kind::Sequence => Value::List { element: Kind::of_number(a)?, len: self.b },
            _ => return None,
        })
    }
}

impl<'t, 'm> Rows<'t, 'm> {
    /// How many rows there are.
    pub fn len(&self) -> usize {
        self.words.len() / ROW
    }

    /// Whether there is none; a finished reading has at least its root's.
    pub fn is_empty(&self) -> bool {
        self.words.is_empty()
    }

    /// Row number `row`; none past the last.
    pub fn get(&self, row: usize) -> Option<Row<'m>> {
        self.words.chunks_exact(ROW).nth(row).map(|w| Row::new(w, self.data, self.little))
    }

    /// The rows, in order.
    pub fn iter(&self) -> Iter<'t, 'm> {
        Iter { words: self.words.chunks_exact(ROW), data: self.data, little: self.little }
    }

    /// The data that the rows were read from: the message without its first four bytes.
    pub fn data(&self) -> &'m [u8] {
        self.data
    }
}

/// The rows, one after the other.
#[derive(Clone, Debug)]
pub struct Iter<'t, 'm> {
    words: core::slice::ChunksExact<'t, u64>,
    data: &'m [u8],
    little: bool,
}

impl<'m> Iterator for Iter<'_, 'm> {
    type Item = Row<'m>;

    fn next(&mut self) -> Option<Row<'m>> {
        self.words.next().map(|w| Row::new(w, self.data, self.little))
    }

    fn size_hint(&self) -> (usize, Option<usize>) {
        self.words.size_hint()
    }
}

impl ExactSizeIterator for Iter<'_, '_> {}

impl<'t, 'm> IntoIterator for Rows<'t, 'm> {
    type Item = Row<'m>;
    type IntoIter = Iter<'t, 'm>;

    fn into_iter(self) -> Iter<'t, 'm> {
        self.iter()
    }
}

impl<'t, 'm> IntoIterator for &Rows<'t, 'm> {
    type Item = Row<'m>;
    type IntoIter = Iter<'t, 'm>;

    fn into_iter(self) -> Iter<'t, 'm> {
        self.iter()
    }
}
