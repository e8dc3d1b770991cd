// A message as the standard writes it (DDS-XTypes 1.3, clause 7.4.3.5), of a random value: the bytes, the value itself, and where its headers and
// lengths stand, so that they can be damaged.
use crate::book::{is_primitive, width, Member, Type, DEFAULT, FINAL, MUTABLE, OPTIONAL};
use crate::rng::Rng;

/// A value as it was written. Each has its place in the data last, as order 7 says it.
pub enum Value {
    /// The words a and b of its row.
    Number(u64, u64, u64),
    /// Where it starts; bytes, or units of 16 bits.
    Text(u64, u64, u64),
    List(Vec<Value>, u64),
    /// Members by their id; of an enum its value, by 0.
    Opened(Vec<(u32, Value)>, u64),
    /// The id of the member that was selected, and what was written.
    Union(Option<u32>, Vec<(u32, Value)>, u64),
}

#[derive(Clone, Copy, PartialEq)]
pub enum What {
    Dheader,
    Next,
    Length,
    Header,
}

/// Where a word stands that says how something is to be read.
#[derive(Clone, Copy)]
pub struct Place {
    pub what: What,
    pub at: usize,
    /// The end of the value around it; 0 where that is the message's.
    pub around: usize,
}

pub struct Writer<'a> {
    pub types: &'a [Type],
    pub rng: &'a mut Rng,
    pub big: bool,
    pub xcdr2: bool,
    pub out: Vec<u8>,
    pub places: Vec<Place>,
    /// Whether members that no type has are put in.
    pub strangers: bool,
}

/// The bytes after which lists stay empty.
const LONG: usize = 600;

impl Writer<'_> {
    fn align(&mut self, n: usize) {
        let n = if self.xcdr2 { n.min(4) } else { n };
        while self.out.len() % n != 0 {
            self.out.push(0);
        }
    }

    fn number(&mut self, n: usize, x: u128) {
        self.align(n);
        let b = x.to_le_bytes();
        if self.big {
            self.out.extend(b[..n].iter().rev());
        } else {
            self.out.extend(&b[..n]);
        }
    }

    pub fn put(&mut self, at: usize, x: u32) {
        let b = if self.big { x.to_be_bytes() } else { x.to_le_bytes() };
        self.out[at..at + 4].copy_from_slice(&b);
    }

    pub fn word_at(&self, at: usize) -> u32 {
        let b: [u8; 4] = self.out[at..at + 4].try_into().unwrap();
        if self.big {
            u32::from_be_bytes(b)
        } else {
            u32::from_le_bytes(b)
        }
    }

    /// A word whose value comes later: which of the places it is.
    fn open(&mut self, what: What) -> usize {
        self.number(4, 0);
        self.places.push(Place { what, at: self.out.len() - 4, around: 0 });
        self.places.len() - 1
    }

    /// What a place heads ends here; the places between are inside it.
    fn close(&mut self, place: usize) {
        let end = self.out.len();
        for p in &mut self.places[place + 1..] {
            if p.around == 0 {
                p.around = end;
            }
        }
    }

    fn close_dheader(&mut self, place: usize) {
        self.close(place);
        let at = self.places[place].at;
        self.put(at, (self.out.len() - at - 4) as u32);
    }

    /// A length, and where it stands.
    fn length(&mut self, n: usize) -> usize {
        let place = self.open(What::Length);
        let at = self.places[place].at;
        self.put(at, n as u32);
        at
    }

    fn here(&self) -> u64 {
        self.out.len() as u64
    }

    /// A number of so many bytes, and its row's words.
    fn raw(&mut self, n: usize, signed: bool, x: u128) -> Value {
        self.number(n, x);
        let up = 128 - 8 * n as u32;
        let x = if signed { ((x << up) as i128 >> up) as u128 } else { x << up >> up };
        Value::Number(x as u64, if n == 16 { (x >> 64) as u64 } else { 0 }, self.here() - n as u64)
    }

    fn random(&mut self) -> u128 {
        match self.rng.below(4) {
            0 => self.rng.below(4) as u128,
            1 => u128::MAX - self.rng.below(3) as u128,
            2 => self.rng.below(300) as u128,
            _ => (self.rng.next() as u128) << 64 | self.rng.next() as u128,
        }
    }

    /// A value of the type; none of a NONE.
    pub fn value(&mut self, ty: u16) -> Option<Value> {
        let types = self.types;
        let t = &types[ty as usize];
        Some(match t.kind {
            0 => return None,
            1 => {
                let b = self.rng.below(2) as u128;
                self.raw(1, false, b)
            }
            16 => self.text8(),
            17 => self.text16(),
            21..=23 => self.opened(t),
            25 | 26 => self.list(t),
            _ => {
                let x = self.random();
                self.held(t, x)
            }
        })
    }

    /// A number of a kind, a bitmask or an enum, whose value is given.
    fn held(&mut self, t: &Type, x: u128) -> Value {
        let opening = self.here();
        match t.kind {
            19 => self.raw(t.mask_width(), false, x),
            21 => Value::Opened(vec![(0, self.raw(width(t.base), true, x))], opening),
            k => self.raw(width(k), matches!(k, 3 | 4 | 5 | 12), x),
        }
    }

    fn text8(&mut self) -> Value {
        let words = ["", "a", "ok", "truck 7", "\u{e9}t\u{e9}", "\u{20ac}", "\u{1f50b}", "0123456789abcdef"];
        let s = self.rng.pick(&words);
        let at = self.length(s.len() + 1);
        let start = self.here();
        self.out.extend(s.as_bytes());
        self.out.push(0);
        Value::Text(start, s.len() as u64, at as u64)
    }

    fn text16(&mut self) -> Value {
        let words: [&[u16]; 5] = [&[], &[0x41], &[0x41, 0x20ac], &[0xd83d, 0xdd0b], &[0x41, 0xd83d, 0xdd0b, 0x42]];
        let s = self.rng.pick(&words);
        let at = self.length(2 * s.len());
        let start = self.here();
        for u in s {
            self.number(2, *u as u128);
        }
        Value::Text(start, s.len() as u64, at as u64)
    }

    fn list(&mut self, t: &Type) -> Value {
        let header = (self.xcdr2 && !is_primitive(self.types[t.element as usize].kind)).then(|| self.open(What::Dheader));
        let n = match t.bound {
            Some(n) if t.kind == 26 => n as usize,
            _ if self.out.len() > LONG => 0,
            _ => self.rng.pick(&[0, 1, 1, 2, 2, 3, 5, 9]),
        };
        if t.kind == 25 {
            self.length(n);
        }
        let place = self.here();
        let all = (0..n).filter_map(|_| self.value(t.element)).collect();
        if let Some(h) = header {
            self.close_dheader(h);
        }
        Value::List(all, place)
    }

    fn opened(&mut self, t: &Type) -> Value {
        if t.kind == 21 {
            let x = if self.rng.chance(50) { self.rng.below(12) as u128 } else { self.random() };
            return self.held(t, x);
        }
        let opening = self.here();
        let header = (self.xcdr2 && t.ext != FINAL).then(|| self.open(What::Dheader));
        let mut all = Vec::new();
        let mut selected = None;
        if t.kind == 22 {
            for m in &t.members {
                self.member(t.ext, m, &mut all, Self::value);
            }
        } else {
            selected = self.union(t, &mut all);
        }
        if t.ext == MUTABLE {
            self.stranger();
        }
        if let Some(h) = header {
            self.close_dheader(h);
        }
        if t.kind == 22 {
            Value::Opened(all, opening)
        } else {
            Value::Union(selected, all, opening)
        }
    }

    /// Its discriminator and the member that it selects, whose id is told.
    fn union(&mut self, t: &Type, all: &mut Vec<(u32, Value)>) -> Option<u32> {
        let label = self.rng.below(15) as i32;
        let by_label = t.members.iter().find(|m| m.labels.contains(&label));
        let selected = by_label.or(t.members.iter().rev().find(|m| m.flags & DEFAULT != 0));
        let types = self.types;
        let kind = &types[t.members[0].ty as usize];
        self.member(t.ext, &t.members[0], all, |w, _| Some(w.held(kind, label as u128)));
        let m = selected?;
        self.member(t.ext, m, all, Self::value);
        Some(m.id)
    }

    fn member(&mut self, ext: u8, m: &Member, all: &mut Vec<(u32, Value)>, value: impl Fn(&mut Self, u16) -> Option<Value>) {
        let absent = m.flags & OPTIONAL != 0 && self.rng.chance(40);
        let written = match ext {
            MUTABLE if absent => None,
            MUTABLE => {
                self.stranger();
                self.headed(m.id, |w| value(w, m.ty))
            }
            _ => {
                if m.flags & OPTIONAL != 0 {
                    self.number(1, !absent as u128);
                }
                if absent {
                    None
                } else {
                    value(self, m.ty)
                }
            }
        };
        all.extend(written.map(|v| (m.id, v)));
    }

    /// A member behind its header, with one of the length codes that the standard allows for its bytes.
    fn headed(&mut self, id: u32, value: impl FnOnce(&mut Self) -> Option<Value>) -> Option<Value> {
        let place = self.open(What::Header);
        let start = self.out.len();
        let mut written = value(self);
        let n = self.out.len() - start;
        let mut codes = vec![4];
        codes.extend([1, 2, 4, 8].iter().position(|k| *k == n));
        if n >= 4 {
            let next = self.word_at(start) as usize;
            codes.extend([(5, 1), (6, 4), (7, 8)].iter().filter(|(_, size)| next * size == n - 4).map(|(lc, _)| *lc));
        }
        let lc = self.rng.pick(&codes);
        if lc == 4 {
            self.out.splice(start..start, [0; 4]);
            self.put(start, n as u32);
            written.iter_mut().for_each(shift);
            for p in &mut self.places[place + 1..] {
                p.at += 4;
                p.around += if p.around > 0 { 4 } else { 0 };
            }
            self.places.push(Place { what: What::Next, at: start, around: 0 });
        }
        self.close(place);
        let must = (self.rng.chance(20) as u32) << 31;
        self.put(start - 4, must | (lc as u32) << 28 | id);
        written
    }

    /// A member of an id that no type has.
    fn stranger(&mut self) {
        if !self.strangers || !self.rng.chance(30) {
            return;
        }
        self.align(4);
        let (lc, n) = (self.rng.below(8), self.rng.below(3));
        let id = 0x0abc_de00 + self.rng.below(4) as u32;
        self.number(4, ((lc as u32) << 28 | id) as u128);
        if lc >= 4 {
            self.number(4, n as u128);
        }
        let size = if lc < 4 { 1 << lc } else { n * [1, 1, 4, 8][lc - 4] };
        for _ in 0..size {
            let b = self.rng.next() as u8;
            self.out.push(b);
        }
    }
}

/// Four bytes further on.
fn shift(v: &mut Value) {
    match v {
        Value::Number(_, _, place) => *place += 4,
        Value::Text(start, _, place) => {
            *start += 4;
            *place += 4;
        }
        Value::List(all, place) => {
            *place += 4;
            all.iter_mut().for_each(shift);
        }
        Value::Opened(all, place) | Value::Union(_, all, place) => {
            *place += 4;
            all.iter_mut().for_each(|(_, v)| shift(v));
        }
    }
}
