// A value written as a message, in each encoding that the crate reads back: a list of primitives in a Mutable type of XCDR2 has no length
// of its own, as the crate wants it; or as the standard has it, with one.
use crate::book::{is_primitive, width, Member, Type, APPENDABLE, FINAL};

pub enum Value {
    /// A number, an enum's or a bitmask's too; a float by its bits.
    N(u64),
    Text(String),
    /// Elements of a list, or members of a structure; a union's discriminator and the member that it selects.
    Of(Vec<Value>),
}

pub struct Writer<'a> {
    types: &'a [Type],
    big: bool,
    xcdr2: bool,
    standard: bool,
    out: Vec<u8>,
    origin: usize,
}

/// The message of a value of type `root`; `identifier` is the second byte of the message.
pub fn message(types: &[Type], root: u16, value: &Value, identifier: u8, standard: bool) -> Vec<u8> {
    let mut w = Writer { types, big: identifier % 2 == 0, xcdr2: identifier > 3, standard, out: Vec::new(), origin: 0 };
    w.value(root, value);
    [vec![0, identifier, 0, 0], w.out].concat()
}

impl Writer<'_> {
    fn align(&mut self, n: usize) {
        let n = if self.xcdr2 { n.min(4) } else { n };
        let short = (self.out.len() - self.origin).next_multiple_of(n) + self.origin;
        self.out.resize(short, 0);
    }

    fn bytes(&self, n: usize, x: u64) -> Vec<u8> {
        if self.big {
            x.to_be_bytes()[8 - n..].to_vec()
        } else {
            x.to_le_bytes()[..n].to_vec()
        }
    }

    fn number(&mut self, n: usize, x: u64) {
        self.align(n);
        let b = self.bytes(n, x);
        self.out.extend(b);
    }

    /// A number that says how many bytes come after it, and then these.
    fn measured(&mut self, n: usize, contents: impl FnOnce(&mut Self)) {
        self.number(n, 0);
        let at = self.out.len();
        contents(self);
        let b = self.bytes(n, (self.out.len() - at) as u64);
        self.out[at - n..at].copy_from_slice(&b);
    }

    fn size(&self, t: &Type) -> usize {
        match t.kind {
            19 => t.mask_width(),
            21 => width(t.base),
            k => width(k),
        }
    }

    fn value(&mut self, ty: u16, v: &Value) {
        let t = &self.types[ty as usize];
        match v {
            Value::N(x) => self.number(self.size(t), *x),
            Value::Text(s) => {
                self.number(4, s.len() as u64 + 1);
                self.out.extend(s.as_bytes());
                self.out.push(0);
            }
            Value::Of(vs) if t.kind == 22 || t.kind == 23 => self.structure(t, vs),
            Value::Of(vs) if self.xcdr2 && !is_primitive(self.types[t.element as usize].kind) => self.measured(4, |w| w.list(t, vs)),
            Value::Of(vs) => self.list(t, vs),
        }
    }

    fn list(&mut self, t: &Type, vs: &[Value]) {
        self.number(4, vs.len() as u64);
        self.elements(t, vs);
    }

    fn elements(&mut self, t: &Type, vs: &[Value]) {
        for v in vs {
            self.value(t.element, v);
        }
    }

    fn structure(&mut self, t: &Type, vs: &[Value]) {
        match t.ext {
            FINAL => self.members(t, vs),
            APPENDABLE if !self.xcdr2 => self.members(t, vs),
            APPENDABLE => self.measured(4, |w| w.members(t, vs)),
            _ if self.xcdr2 => self.measured(4, |w| w.mutable(t, vs)),
            _ => {
                self.mutable(t, vs);
                self.number(2, 0x3f02);
                self.number(2, 0);
            }
        }
    }

    fn members(&mut self, t: &Type, vs: &[Value]) {
        for (m, v) in t.members.iter().zip(vs) {
            if m.flags & 1 == 0 {
                self.value(m.ty, v);
            } else if self.xcdr2 {
                self.number(1, 1);
                self.value(m.ty, v);
            } else {
                self.align(4);
                self.mutable1(m, v);
            }
        }
    }

    fn mutable(&mut self, t: &Type, vs: &[Value]) {
        for (m, v) in t.members.iter().zip(vs) {
            self.align(4);
            if self.xcdr2 {
                self.mutable2(m, v);
            } else {
                self.mutable1(m, v);
            }
            self.align(4);
        }
    }

    fn mutable1(&mut self, m: &Member, v: &Value) {
        self.number(2, m.id as u64);
        let origin = self.origin;
        self.measured(2, |w| {
            w.origin = w.out.len();
            w.value(m.ty, v);
        });
        self.origin = origin;
    }

    fn mutable2(&mut self, m: &Member, v: &Value) {
        let t = &self.types[m.ty as usize];
        let lc = |n: u64| n << 28 | m.id as u64;
        if let Value::N(x) = v {
            let n = self.size(t);
            self.number(4, lc(n.trailing_zeros() as u64));
            return self.number(n, *x);
        }
        self.number(4, lc(4));
        self.measured(4, |w| match v {
            Value::Of(vs) if !w.standard && t.kind == 25 && is_primitive(w.types[t.element as usize].kind) => w.elements(t, vs),
            _ => w.value(m.ty, v),
        });
    }
}
