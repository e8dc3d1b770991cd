// Document 01's type book: types as data, and their bytes.

pub const NONE: u16 = 65535;
pub const OPTIONAL: u8 = 1;
pub const DEFAULT: u8 = 2;
pub const USE_DEFAULT: u8 = 0;
pub const FINAL: u8 = 0;
pub const APPENDABLE: u8 = 1;
pub const MUTABLE: u8 = 2;

#[derive(Clone, Debug, PartialEq)]
pub struct Member {
    pub id: u32,
    pub ty: u16,
    pub flags: u8,
    pub construct: u8,
    pub labels: Vec<i32>,
}

#[derive(Clone, Debug, PartialEq)]
pub struct Type {
    pub kind: u8,
    pub ext: u8,
    pub base: u8,
    pub bound: Option<u32>,
    pub element: u16,
    pub members: Vec<Member>,
}

impl Type {
    pub fn new(kind: u8) -> Type {
        Type { kind, ext: FINAL, base: 0, bound: None, element: NONE, members: Vec::new() }
    }

    pub fn opens(&self) -> bool {
        (21..=23).contains(&self.kind)
    }

    /// The bytes of a bitmask.
    pub fn mask_width(&self) -> usize {
        match self.bound.unwrap_or(32) {
            1..=8 => 1,
            9..=16 => 2,
            17..=32 => 4,
            _ => 8,
        }
    }
}

pub fn is_primitive(kind: u8) -> bool {
    (1..=15).contains(&kind)
}

/// The bytes of a primitive.
pub fn width(kind: u8) -> usize {
    match kind {
        3 | 6 | 15 => 2,
        4 | 7 | 9 => 4,
        5 | 8 | 10 => 8,
        11 => 16,
        _ => 1,
    }
}

pub fn encode(types: &[Type]) -> Vec<u8> {
    let mut all = vec![0, 0, 0, 0, 1];
    all.extend((types.len() as u16).to_be_bytes());
    for t in types {
        let mut r = vec![0, 0, t.kind, t.ext, t.base, t.bound.is_some() as u8];
        r.extend(t.bound.unwrap_or(0).to_be_bytes());
        r.extend(t.element.to_be_bytes());
        r.extend((t.members.len() as u16).to_be_bytes());
        for m in &t.members {
            r.extend(m.id.to_be_bytes());
            r.extend(m.ty.to_be_bytes());
            r.extend([m.flags, m.construct, m.labels.len() as u8]);
            for l in &m.labels {
                r.extend(l.to_be_bytes());
            }
        }
        let n = (r.len() as u16).to_be_bytes();
        r[..2].copy_from_slice(&n);
        all.extend(r);
    }
    let n = (all.len() as u32).to_be_bytes();
    all[..4].copy_from_slice(&n);
    all
}

/// What is wrong with a book, as order 2 of document 02 tells it: the record's number, and 17 to 23.
pub type Fault = (u16, u8);

const HEAD: Fault = (65535, 17);

fn number(b: &[u8]) -> u32 {
    b.iter().fold(0, |x, b| x << 8 | *b as u32)
}

/// The types of a good book; else the first broken rule in reading order.
pub fn decode(book: &[u8]) -> Result<Vec<Type>, Fault> {
    if book.len() < 7 || book.len() > 65536 || number(&book[..4]) as usize != book.len() || book[4] != 1 {
        return Err(HEAD);
    }
    let count = number(&book[5..7]) as u16;
    if !(1..=64).contains(&count) {
        return Err(HEAD);
    }
    let mut rest = &book[7..];
    let mut types: Vec<Type> = Vec::new();
    for k in 0..count {
        let (t, after) = record(&types, rest).map_err(|why| (k, why))?;
        types.push(t);
        rest = after;
    }
    if rest.is_empty() {
        Ok(types)
    } else {
        Err(HEAD)
    }
}

/// Passes over a rule that is kept.
fn rule(kept: bool, why: u8) -> Result<(), u8> {
    if kept {
        Ok(())
    } else {
        Err(why)
    }
}

/// The record that comes after these, and the bytes after it. Field by field, then member by member.
fn record<'a>(earlier: &[Type], rest: &'a [u8]) -> Result<(Type, &'a [u8]), u8> {
    let k = earlier.len() as u16;
    rule(rest.len() >= 2, 18)?;
    let length = number(&rest[..2]) as usize;
    rule((14..=rest.len()).contains(&length), 18)?;
    let (b, after) = rest.split_at(length);
    let (kind, ext, base, flag) = (b[2], b[3], b[4], b[5]);
    let (bound, element, count) = (number(&b[6..10]), number(&b[10..12]) as u16, number(&b[12..14]));
    rule(kind <= 27, 19)?;
    rule(ext <= 2, 19)?;
    rule(base <= 27 && (base == 0 || kind == 21), 19)?;
    rule(flag <= 1, 19)?;
    rule(kind != 26 || flag == 1, 21)?;
    rule(flag == 1 || bound == 0, 21)?;
    rule(if matches!(kind, 25 | 26) { element < k } else { element == NONE }, 20)?;
    rule(count <= 64, 22)?;
    rule(count == 0 || matches!(kind, 21..=23), 22)?;
    rule(count > 0 || !matches!(kind, 21 | 23), 22)?;
    let mut t = Type { kind, ext, base, bound: (flag == 1).then_some(bound), element, members: Vec::new() };
    let mut left = &b[14..];
    for _ in 0..count {
        let (m, behind) = member(earlier, &t, left)?;
        t.members.push(m);
        left = behind;
    }
    rule(left.is_empty(), 18)?;
    Ok((t, after))
}

/// The member that comes after those of a type, and the record's bytes after it. That it fits is asked before its fields.
fn member<'a>(earlier: &[Type], t: &Type, b: &'a [u8]) -> Result<(Member, &'a [u8]), u8> {
    rule(b.len() >= 9, 18)?;
    let size = 9 + 4 * b[8] as usize;
    rule(b.len() >= size, 18)?;
    let (id, ty, flags, construct, labels) = (number(&b[..4]), number(&b[4..6]) as u16, b[6], b[7], b[8]);
    let first = t.kind == 23 && t.members.is_empty();
    rule(t.members.iter().all(|m| m.id != id), 22)?;
    rule(!first || id == 0, 23)?;
    rule(if t.kind == 21 { ty == NONE } else { (ty as usize) < earlier.len() }, 20)?;
    rule(!first || matches!(earlier[ty as usize].kind, 1..=15 | 19 | 21), 23)?;
    rule(flags <= 3, 19)?;
    rule(!first || flags & DEFAULT == 0, 23)?;
    rule(construct <= 2, 19)?;
    rule(labels <= 16, 22)?;
    rule(!first || labels == 0, 23)?;
    let labels = b[9..size].chunks(4).map(|l| number(l) as i32).collect();
    Ok((Member { id, ty, flags, construct, labels }, &b[size..]))
}
