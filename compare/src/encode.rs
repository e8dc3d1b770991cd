// Messages that are well-formed for a type, or nearly: random values in the encoding of an identifier, with what a stranger may send
// beside them (unknown members, another order, members left out, every length code).
use crate::book::{is_primitive, width, Member, Type, APPENDABLE, FINAL, MUTABLE, OPTIONAL};
use crate::rng::Rng;

pub struct Encoder<'a> {
    pub types: &'a [Type],
    pub rng: &'a mut Rng,
    pub big: bool,
    pub xcdr2: bool,
    /// Lists of primitives in a Mutable type without their own length, as the crate reads them.
    pub bare_lists: bool,
    /// How often, of a hundred, something is left out, swapped or put in.
    pub strange: usize,
    out: Vec<u8>,
    origin: usize,
}

/// The bytes after which lists stay empty.
const LONG: usize = 1500;

impl<'a> Encoder<'a> {
    pub fn new(types: &'a [Type], rng: &'a mut Rng, big: bool, xcdr2: bool) -> Encoder<'a> {
        let bare_lists = rng.chance(70);
        let strange = rng.pick(&[0, 0, 5, 20]);
        Encoder { types, rng, big, xcdr2, bare_lists, strange, out: Vec::new(), origin: 0 }
    }

    pub fn data(mut self, root: u16) -> Vec<u8> {
        self.value(root, 0);
        self.out
    }

    fn odd(&mut self) -> bool {
        let n = self.strange;
        self.rng.chance(n)
    }

    fn align(&mut self, n: usize) {
        let n = if self.xcdr2 { n.min(4) } else { n };
        while (self.out.len() - self.origin) % n != 0 {
            let b = if self.strange == 0 { 0 } else { self.rng.next() as u8 };
            self.out.push(b);
        }
    }

    fn number(&mut self, n: usize, x: u128) {
        self.align(n);
        let b = x.to_le_bytes();
        if self.big {
            self.out.extend(b[..n].iter().rev());
        } else {
            self.out.extend(&b[..n]);
        }
    }

    fn patch(&mut self, at: usize, n: usize, x: usize) {
        let b = (x as u64).to_le_bytes();
        for i in 0..n {
            self.out[at + i] = if self.big { b[n - 1 - i] } else { b[i] };
        }
    }

    fn random(&mut self) -> u128 {
        match self.rng.below(4) {
            0 => self.rng.below(4) as u128,
            1 => u128::MAX - self.rng.below(3) as u128,
            2 => self.rng.below(300) as u128,
            _ => (self.rng.next() as u128) << 64 | self.rng.next() as u128,
        }
    }

    fn value(&mut self, ty: u16, label: i128) {
        let types = self.types;
        let t = &types[ty as usize];
        match t.kind {
            0 | 18 | 20 | 24 | 27 => {}
            1 => {
                let b = if self.odd() { self.rng.below(256) } else { self.rng.below(2) };
                self.number(1, b as u128);
            }
            2..=15 => {
                let x = self.random();
                self.number(width(t.kind), x);
            }
            16 => self.text8(),
            17 => self.text16(),
            19 => {
                let x = self.random();
                self.number(t.mask_width(), x);
            }
            21 => self.enumerated(t, label, true),
            22 => self.structure(t),
            23 => self.union(t),
            _ => self.list(t, false),
        }
    }

    fn count(&mut self) -> usize {
        if self.out.len() > LONG {
            return 0;
        }
        match self.rng.below(12) {
            0 | 1 => 0,
            2..=9 => 1 + self.rng.below(3),
            10 => 3 + self.rng.below(6),
            _ => self.rng.below(40),
        }
    }

    fn text8(&mut self) {
        let words = ["", "a", "ok", "truck 7", "\u{e9}t\u{e9}", "\u{20ac}", "\u{1f50b}", "\u{7ff}\u{800}\u{ffff}", "0123456789abcdef"];
        let mut s = self.rng.pick(&words).as_bytes().to_vec();
        if self.odd() {
            let bad: [&[u8]; 8] =
                [b"\xff", b"\xc0\x80", b"\xed\xa0\x80", b"\xf4\x90\x80\x80", b"\xe2\x82", b"\x80", b"\xf0\x8f\xbf\xbf", b"\xe0\x9f\xbf"];
            s.extend(self.rng.pick(&bad));
        }
        let n = if s.is_empty() && self.rng.chance(40) { 0 } else { s.len() + 1 };
        self.number(4, n as u128);
        self.out.extend(&s);
        let end = if self.odd() { self.rng.next() as u8 } else { 0 };
        self.out.push(end);
    }

    fn text16(&mut self) {
        let words: [&[u16]; 7] = [&[], &[0x41], &[0x41, 0x20ac], &[0xd83d, 0xdd0b], &[0xd7ff, 0xe000], &[0x41, 0xd83d, 0xdd0b, 0x42], &[0]];
        let bad: [&[u16]; 5] = [&[0xd83d], &[0xdd0b], &[0xdd0b, 0xd83d], &[0xd83d, 0x41], &[0xd83d, 0xd83d, 0xdd0b]];
        let s = if self.odd() { self.rng.pick(&bad) } else { self.rng.pick(&words) };
        let n = 2 * s.len() + if self.odd() { self.rng.below(3) } else { 0 };
        self.number(4, n as u128);
        for u in s {
            self.number(2, *u as u128);
        }
    }

    /// A number of a label's value where the type has room for it.
    fn enumerated(&mut self, t: &Type, label: i128, free: bool) {
        let n = match t.base {
            3 => 2,
            12 => 1,
            _ => 4,
        };
        let x = if free && label == 0 {
            let of: Vec<i32> = t.members.iter().flat_map(|m| m.labels.iter().copied()).collect();
            if of.is_empty() {
                self.random()
            } else {
                self.rng.pick(&of) as i128 as u128
            }
        } else {
            label as u128
        };
        self.number(n, x);
    }

    fn list(&mut self, t: &Type, bare: bool) {
        let types = self.types;
        let e = &types[t.element as usize];
        let header = self.xcdr2 && !is_primitive(e.kind);
        let mut at = 0;
        if header {
            self.number(4, 0);
            at = self.out.len();
        }
        let n = if t.kind == 26 { t.bound.unwrap_or(0).min(3000) as usize } else { self.count() };
        if t.kind == 25 && !bare {
            let said = if self.odd() { n + self.rng.below(3) } else { n };
            self.number(4, said as u128);
        }
        for _ in 0..n {
            if self.out.len() < 3 * LONG {
                self.value(t.element, 0);
            }
        }
        if header {
            let n = if self.odd() { self.rng.below(40) } else { self.out.len() - at };
            self.patch(at - 4, 4, n);
        }
    }

    fn structure(&mut self, t: &Type) {
        match t.ext {
            FINAL => self.members(t),
            APPENDABLE => {
                let at = self.dheader();
                self.members(t);
                self.close(at);
            }
            _ => {
                let at = self.dheader();
                let mut order: Vec<&Member> = t.members.iter().collect();
                if self.odd() {
                    for i in (1..order.len()).rev() {
                        let j = self.rng.below(i + 1);
                        order.swap(i, j);
                    }
                }
                for m in order {
                    if !(self.odd() || m.flags & OPTIONAL != 0 && self.rng.chance(40)) {
                        self.mmember(m, 0);
                    }
                }
                self.close_mutable(at);
            }
        }
    }

    fn members(&mut self, t: &Type) {
        for m in &t.members {
            self.fmember(m, 0);
        }
    }

    /// The place after a DHEADER whose value comes later; 0 where there is none.
    fn dheader(&mut self) -> usize {
        if !self.xcdr2 {
            return 0;
        }
        self.number(4, 0);
        self.out.len()
    }

    fn close(&mut self, at: usize) {
        if at > 0 {
            let n = if self.odd() { self.rng.below(64) } else { self.out.len() - at };
            self.patch(at - 4, 4, n);
        }
    }

    fn close_mutable(&mut self, at: usize) {
        if self.odd() {
            self.unknown();
        }
        if self.xcdr2 {
            self.close(at);
        } else if !self.odd() {
            self.align(4);
            self.number(2, 0x3f02);
            let n = if self.odd() { 4 } else { 0 };
            self.number(2, n);
        }
    }

    fn fmember(&mut self, m: &Member, label: i128) {
        if m.flags & OPTIONAL == 0 {
            return self.value(m.ty, label);
        }
        let there = self.rng.chance(70);
        if self.xcdr2 {
            let b = if self.odd() { self.rng.below(4) } else { there as usize };
            self.number(1, b as u128);
            if there {
                self.value(m.ty, label);
            }
        } else if there {
            self.mmember(m, label);
        } else if self.rng.chance(70) {
            self.align(4);
            self.number(2, (m.id & 0x3fff) as u128);
            self.number(2, 0);
        }
    }

    fn unknown(&mut self) {
        let ids = [0x3f01, 77, 0x3fff, 0x0fff_ffff, 9, 0x3f03];
        let id = self.rng.pick(&ids);
        let n = self.rng.below(10);
        if self.xcdr2 {
            self.align(4);
            let lc = self.rng.below(8) as u32;
            let top = (self.rng.next() as u32 & 1) << 31;
            self.number(4, (top | lc << 28 | id) as u128);
            let length = match lc {
                0..=3 => 1 << lc,
                4 | 5 => n,
                6 => 4 * (n / 4),
                _ => 8 * (n / 8),
            };
            if lc > 3 {
                self.number(4, (length / [1, 1, 4, 8][lc as usize - 4]) as u128);
            }
            for _ in 0..length {
                let b = self.rng.next() as u8;
                self.out.push(b);
            }
        } else {
            self.align(4);
            let flags = (self.rng.below(4) as u32) << 14;
            self.number(2, (id & 0x3fff | flags) as u128);
            self.number(2, n as u128);
            for _ in 0..n {
                let b = self.rng.next() as u8;
                self.out.push(b);
            }
        }
        self.align(4);
    }

    fn mmember(&mut self, m: &Member, label: i128) {
        if self.odd() {
            self.unknown();
        }
        self.align(4);
        if self.xcdr2 {
            self.mmember2(m, label);
        } else {
            self.mmember1(m, label);
        }
    }

    fn mmember1(&mut self, m: &Member, label: i128) {
        let flags = if self.odd() { (self.rng.below(4) as u32) << 14 } else { 0 };
        self.number(2, (m.id & 0x3fff | flags) as u128);
        self.number(2, 0);
        let (at, origin) = (self.out.len(), self.origin);
        self.origin = at;
        self.value(m.ty, label);
        self.origin = origin;
        let n = if self.odd() { self.rng.below(16) } else { self.out.len() - at };
        self.patch(at - 2, 2, n.min(65535));
        self.align(4);
    }

    fn mmember2(&mut self, m: &Member, label: i128) {
        let types = self.types;
        let t = &types[m.ty as usize];
        let bare = t.kind == 25 && is_primitive(types[t.element as usize].kind) && self.bare_lists;
        let header = self.out.len();
        self.number(4, 0);
        let long = bare || !(is_primitive(t.kind) && width(t.kind) <= 8) || self.rng.chance(30);
        if long {
            self.number(4, 0);
        }
        let at = self.out.len();
        if bare {
            self.list(t, true);
        } else {
            self.value(m.ty, label);
        }
        let n = self.out.len() - at;
        let short = match n {
            1 => 0,
            2 => 1,
            4 => 2,
            _ => 3,
        };
        let mut lc = if long { 4 } else { short };
        if long {
            if n % 4 == 0 && self.rng.chance(40) {
                lc = 6;
            }
            if n % 8 == 0 && self.rng.chance(40) {
                lc = 7;
            }
            let said = [n, n, n / 4, n / 8][lc - 4];
            self.patch(at - 4, 4, said);
            if lc == 4 && n >= 4 && self.rng.chance(30) {
                // NEXTINT is also the first word of the member
                self.out.drain(at - 4..at);
                lc = 5;
            }
        }
        if self.odd() {
            lc = self.rng.below(8);
        }
        let top = if self.odd() { 1u32 << 31 } else { 0 };
        self.patch(header, 4, ((lc as u32) << 28 | m.id & 0x0fff_ffff | top) as usize);
        self.align(4);
    }

    fn union(&mut self, t: &Type) {
        let Some(disc) = t.members.first() else { return };
        let types = self.types;
        let chosen = if t.members.len() > 1 { Some(&t.members[1 + self.rng.below(t.members.len() - 1)]) } else { None };
        let label = match chosen {
            Some(m) if !m.labels.is_empty() && !self.odd() => self.rng.pick(&m.labels) as i128,
            _ => self.rng.pick(&[-1, 0, 1, 5, 77, 255, 65535]),
        };
        let selected = t.members.iter().find(|m| m.labels.contains(&(label as i32)));
        let selected = selected.or(t.members.iter().rev().find(|m| m.flags & 2 != 0)).or(chosen);
        if t.ext == MUTABLE {
            let at = self.dheader();
            self.mdisc(disc, label);
            if let Some(m) = selected {
                if !self.odd() {
                    self.mmember(m, 0);
                }
            }
            self.close_mutable(at);
            return;
        }
        let at = if t.ext == APPENDABLE { self.dheader() } else { 0 };
        self.disc(&types[disc.ty as usize], label);
        if let Some(m) = selected {
            self.fmember(m, 0);
        }
        self.close(at);
    }

    fn disc(&mut self, t: &Type, label: i128) {
        match t.kind {
            21 => self.enumerated(t, label, false),
            19 => self.number(t.mask_width(), label as u128),
            k => self.number(width(k), label as u128),
        }
    }

    fn mdisc(&mut self, m: &Member, label: i128) {
        let t = &self.types[m.ty as usize];
        self.align(4);
        let n = match t.kind {
            21 => match t.base {
                3 => 2,
                12 => 1,
                _ => 4,
            },
            19 => t.mask_width(),
            k => width(k),
        };
        let x = (label as u128).to_le_bytes();
        if self.xcdr2 {
            let lc = match n {
                1 => 0u32,
                2 => 1,
                4 => 2,
                _ => 3,
            };
            self.number(4, (lc << 28 | m.id & 0x0fff_ffff) as u128);
        } else {
            self.number(2, (m.id & 0x3fff) as u128);
            self.number(2, n as u128);
        }
        if self.big {
            self.out.extend(x[..n].iter().rev());
        } else {
            self.out.extend(&x[..n]);
        }
        self.align(4);
    }
}
