// Cases of the standard's mode: messages as the standard writes them, read with the type that wrote them or with one that has changed since, with
// the rows that the written value has in the reader's type; the same with a header or a length damaged; and all that the crate's cases are.
use crate::book::{encode, Type, DEFAULT};
use crate::evolve;
use crate::gen::{self, Case};
use crate::rng::Rng;
use crate::rules::{stored, Mode, Row};
use crate::writer::{Place, Value, What, Writer};

/// The rows of a written value in the types that it is read with; false where document 01 has a refusal for it.
struct Rows<'a> {
    types: &'a [Type],
    rows: Vec<Row>,
}

impl Rows<'_> {
    fn value(&mut self, ty: u16, id: u64, v: &Value) -> bool {
        let types = self.types;
        let t = &types[ty as usize];
        match v {
            Value::Number(a, b, place) => self.rows.push([stored(t) as u64, id, *a, *b, *place]),
            Value::Text(start, n, place) => self.rows.push([t.kind as u64, id, *start, *n, *place]),
            Value::List(all, place) => {
                self.rows.push([25, id, stored(&types[t.element as usize]) as u64, all.len() as u64, *place]);
                return all.iter().enumerate().all(|(i, v)| self.value(t.element, i as u64, v));
            }
            Value::Union(selected, all, place) => return selects(t, *selected, all) && self.opened(ty, id, all, *place),
            Value::Opened(all, place) => return self.opened(ty, id, all, *place),
        }
        true
    }

    fn opened(&mut self, ty: u16, id: u64, all: &[(u32, Value)], place: u64) -> bool {
        let t = &self.types[ty as usize];
        let at = self.rows.len();
        self.rows.push([t.kind as u64, id, ty as u64, 0, place]);
        let read = self.members(t, all);
        self.rows[at][3] = (self.rows.len() - at - 1) as u64;
        read
    }

    fn members(&mut self, t: &Type, all: &[(u32, Value)]) -> bool {
        if let (21, [(_, Value::Number(a, b, place))]) = (t.kind, all) {
            self.rows.push([t.base as u64, 0, *a, *b, *place]);
            return true;
        }
        t.members.iter().all(|m| match all.iter().find(|(id, _)| *id == m.id) {
            Some((_, v)) => self.value(m.ty, m.id as u64, v),
            None => true,
        })
    }
}

/// Whether the reader's union selects the member that was written. It may have it no more; and document 01 refuses a union that selects none.
fn selects(t: &Type, written: Option<u32>, all: &[(u32, Value)]) -> bool {
    let x = match &all[0].1 {
        Value::Number(a, ..) => *a,
        Value::Opened(inside, _) => match inside[0].1 {
            Value::Number(a, ..) => a,
            _ => return false,
        },
        _ => return false,
    };
    let by_label = t.members.iter().find(|m| m.labels.contains(&(x as i32)));
    let selected = by_label.or(t.members.iter().rev().find(|m| m.flags & DEFAULT != 0));
    written.is_some() && selected.map(|m| m.id) == written
}

/// Changes a word that says how the message is to be read.
fn damage(w: &mut Writer) -> &'static str {
    let Place { what, at, around } = w.rng.pick(&w.places);
    let was = w.word_at(at);
    let around = if around == 0 { w.out.len() } else { around };
    let small = 1 + w.rng.below(8) as u32;
    let (x, way) = match (what, w.rng.below(8)) {
        (What::Dheader, 0 | 1) => (was + 1, "DHEADER one too large"),
        (What::Dheader, 2 | 3) => ((around - at - 4) as u32 + 1, "DHEADER past the value around it"),
        (What::Dheader, 4 | 5) => (was.saturating_sub(small), "DHEADER too small"),
        (What::Dheader, 6) => ((around - at - 4) as u32, "DHEADER up to the end around it"),
        (What::Dheader, _) => (w.rng.next() as u32, "DHEADER of any value"),
        (What::Next, 0..=2) => (was + small, "NEXTINT too large"),
        (What::Next, _) => (was.saturating_sub(small), "NEXTINT too small"),
        (What::Length, 0..=2) => (was + small, "length too large"),
        (What::Length, 3..=6) => (was.saturating_sub(small), "length too small"),
        (What::Length, _) => (w.rng.next() as u32, "length of any value"),
        (What::Header, 0..=5) => (was & 0x8fff_ffff | (w.rng.below(8) as u32) << 28, "another LC"),
        (What::Header, _) => (was ^ 1, "another id"),
    };
    w.put(at, x);
    way
}

fn written(r: &mut Rng) -> Case {
    let id: u8 = r.pick(&[0, 1, 6, 7, 8, 9, 10, 11, 6, 7, 8, 9, 10, 11]);
    let (big, xcdr2) = (id % 2 == 0, id > 3);
    let mut all = evolve::types(r);
    if !xcdr2 {
        evolve::plain(&mut all);
    }
    let changed = xcdr2 && r.chance(60);
    let (writer, types) = if changed { evolve::evolved(r, &all) } else { (all.clone(), all) };
    let root = types.len() as u16 - 1;
    let mut way = if changed { "evolved type" } else { "same type" };
    let (harm, other) = (r.chance(35), r.chance(8));
    let strangers = r.chance(50);
    let mut w = Writer { types: &writer, rng: r, big, xcdr2, out: Vec::new(), places: Vec::new(), strangers };
    let value = w.value(root).expect("the root is no NONE");
    if harm && !w.places.is_empty() {
        way = damage(&mut w);
    }
    let mut data = w.out;
    if other {
        way = gen::damage(r, &types, &mut data, big);
    } else if r.chance(20) {
        // what lies behind the message's value is nobody's
        data.extend((0..r.below(9)).map(|k| k as u8));
    }
    let mut rows = Rows { types: &types, rows: Vec::new() };
    let read = rows.value(root, 0, &value) && matches!(way, "same type" | "evolved type");
    let expected = read.then_some(rows.rows);
    let mut message = vec![0, id, 0, 0];
    message.extend(data);
    Case { book: encode(&types), types, root, message, mode: Mode::Standard, way, expected }
}

pub fn case(seed: u64, number: u64) -> Case {
    let mut r = Rng::new(seed ^ 0x7374_616e, number);
    if r.chance(40) {
        return Case { mode: Mode::Standard, ..gen::case(seed, number) };
    }
    written(&mut r)
}
