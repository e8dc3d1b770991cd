// Messages that go as deep as a reading may, for the stack alone: 16 structures or unions, each in the other, of each extensibility, as a member, as
// the element of a list or as an optional member, in both versions and modes.
use crate::book::{encode, Member, Type, APPENDABLE, FINAL, MUTABLE};
use crate::messages::Case;
use crate::write::{message, Value};
use Value::{Of, N};

const DEPTH: usize = 16;
const UINT8: u8 = 13;
const STRUCTURE: u8 = 22;
const UNION: u8 = 23;
const SEQUENCE: u8 = 25;
const OPTIONAL: u8 = 1;

/// How a value stands in the one around it.
#[derive(Clone, Copy, PartialEq)]
enum Link {
    Member,
    List,
    Optional,
}

fn level(kind: u8, ext: u8, number: u16, below: u16, flags: u8) -> Type {
    let member = |id, ty, flags, labels| Member { id, ty, flags, construct: 1, labels };
    Type { ext, members: vec![member(0, number, 0, vec![]), member(1, below, flags, if kind == UNION { vec![1] } else { vec![] })], ..Type::new(kind) }
}

/// The types, the innermost first, and a value of the last.
fn chain(kind: u8, ext: u8, link: Link) -> (Vec<Type>, Value) {
    let flags = if link == Link::Optional { OPTIONAL } else { 0 };
    let mut types = vec![Type::new(UINT8), level(kind, ext, 0, 0, flags)];
    let mut value = Of(vec![N(1), N(2)]);
    for _ in 1..DEPTH {
        let mut below = types.len() as u16 - 1;
        if link == Link::List {
            types.push(Type { element: below, ..Type::new(SEQUENCE) });
            value = Of(vec![value]);
            below += 1;
        }
        types.push(level(kind, ext, 0, below, flags));
        value = Of(vec![N(1), value]);
    }
    (types, value)
}

fn case(name: String, types: Vec<Type>, value: &Value, identifier: u8, standard: u8) -> Case {
    let root = types.len() as u16 - 1;
    let written = |standard| message(&types, root, value, identifier, standard);
    let (message, its_own) = (written(standard == 1), written(false));
    Case { name: name.leak(), book: encode(&types), types, root, message, its_own, standard }
}

pub fn all() -> Vec<Case> {
    let mut all = Vec::new();
    for (kind, what) in [(STRUCTURE, "structures"), (UNION, "unions")] {
        for (ext, how, codes) in [(FINAL, "Final", [1, 7]), (APPENDABLE, "Appendable", [1, 9]), (MUTABLE, "Mutable", [3, 11])] {
            for (link, by) in [(Link::Member, "as members"), (Link::List, "through lists"), (Link::Optional, "as optional members")] {
                for (identifier, version) in codes.into_iter().zip(["XCDR1", "XCDR2"]) {
                    for (standard, mode) in [(0, ""), (1, ", the standard's mode")] {
                        let (types, value) = chain(kind, ext, link);
                        all.push(case(format!("16 {how} {what} {by}, {version}{mode}"), types, &value, identifier, standard));
                    }
                }
            }
        }
    }
    all
}
