// Books that break one of document 01's rules, and books with a byte or two changed.
use crate::book::{Member, Type, DEFAULT};
use crate::rng::Rng;

/// A byte or two of a book changed, or its length.
pub fn damage_book(r: &mut Rng, b: &mut Vec<u8>) {
    for _ in 0..1 + r.below(2) {
        let i = r.below(b.len());
        match r.below(8) {
            0..=3 => b[i] = r.pick(&[0, 1, 2, 3, 4, 13, 14, 15, 16, 17, 18, 20, 21, 22, 23, 25, 26, 27, 28, 64, 65, 255]),
            4 => b[i] ^= 1 << r.below(8),
            5 => b[i] = b[i].wrapping_add(1),
            6 if r.chance(30) => {
                b.remove(i);
            }
            7 if r.chance(30) => b.insert(i, 0),
            _ => b[i] = b[i].wrapping_sub(1),
        }
        if b.len() < 8 {
            break;
        }
    }
    if r.chance(50) && b.len() >= 4 {
        let n = (b.len() as u32).to_be_bytes();
        b[..4].copy_from_slice(&n);
    }
}

/// Where a record stands in the book.
fn record_at(types: &[Type], i: usize) -> usize {
    7 + types[..i].iter().map(|t| 14 + t.members.iter().map(|m| 9 + 4 * m.labels.len()).sum::<usize>()).sum::<usize>()
}

/// One rule of a book, to be broken.
pub const BREAKS: [&str; 24] = [
    "kind 28",
    "extensibility 3",
    "base 28",
    "base outside ENUM",
    "bound flag 2",
    "bound without its flag",
    "array without a bound",
    "element outside a list",
    "list without an element",
    "element not below",
    "member outside 21 to 23",
    "member type not below",
    "member without a type",
    "literal with a type",
    "two equal ids",
    "flags 4",
    "try-construct 3",
    "17 labels",
    "no member",
    "first id not 0",
    "first with a label",
    "first a default",
    "first of another kind",
    "65 members",
];

/// Breaks the rule in the record i, if it has what the rule is about.
fn broken(r: &mut Rng, types: &[Type], i: usize, rule: &str) -> Vec<u8> {
    let mut all = types.to_vec();
    let own = i as u16 + r.below(2) as u16;
    let t = &mut all[i];
    let list = matches!(t.kind, 25 | 26);
    let member = |id: u32, ty: u16| Member { id, ty, flags: 0, construct: 1, labels: Vec::new() };
    let j = if t.members.is_empty() { 0 } else { r.below(t.members.len()) };
    let some = !t.members.is_empty();
    match rule {
        "kind 28" if !list && !some => t.kind = 28,
        "extensibility 3" => t.ext = 3,
        "base 28" if t.kind == 21 => t.base = 28,
        "base outside ENUM" if t.kind != 21 => t.base = 4,
        "array without a bound" if t.kind == 26 => t.bound = None,
        "element outside a list" if !list => t.element = 0,
        "list without an element" if list => t.element = crate::book::NONE,
        "element not below" if list => t.element = own,
        "member outside 21 to 23" if !some && !list && t.kind != 22 && i > 0 => t.members.push(member(1, 0)),
        "member type not below" if some && t.kind != 21 => t.members[j].ty = own,
        "member without a type" if some && t.kind != 21 => t.members[j].ty = crate::book::NONE,
        "literal with a type" if t.kind == 21 && i > 0 => t.members[j].ty = 0,
        "two equal ids" if t.members.len() > 1 => t.members[j].id = t.members[(j + 1) % t.members.len()].id,
        "flags 4" if some => t.members[j].flags |= 4,
        "try-construct 3" if some => t.members[j].construct = 3,
        "17 labels" if some && (t.kind != 23 || j > 0) => t.members[j].labels = vec![1; 17],
        "no member" if t.kind == 21 || t.kind == 23 => t.members.clear(),
        "first id not 0" if t.kind == 23 => t.members[0].id = 99,
        "first with a label" if t.kind == 23 => t.members[0].labels = vec![0],
        "first a default" if t.kind == 23 => t.members[0].flags |= DEFAULT,
        "first of another kind" if t.kind == 23 => {
            let ty = t.members[0].ty as usize;
            all[ty] = Type::new(r.pick(&[0, 16, 17, 18, 20, 22, 24, 27]));
        }
        "65 members" if some && t.kind == 22 => {
            let ty = t.members[0].ty;
            let n = t.members.len();
            t.members.extend((n..65).map(|k| member(1000 + k as u32, ty)));
        }
        _ => {}
    }
    let mut bytes = crate::book::encode(&all);
    let at = record_at(&all, i);
    match rule {
        "bound flag 2" => bytes[at + 5] = 2,
        "bound without its flag" if all[i].bound.is_none() => bytes[at + 9] = 1,
        _ => {}
    }
    bytes
}

/// A book with one rule broken in some record, and which rule.
pub fn break_book(r: &mut Rng, types: &[Type]) -> (Vec<u8>, &'static str) {
    let whole = crate::book::encode(types);
    for _ in 0..40 {
        let rule = r.pick(&BREAKS);
        let i = r.below(types.len());
        let bytes = broken(r, types, i, rule);
        if bytes != whole {
            return (bytes, rule);
        }
    }
    (whole, "well-formed")
}
