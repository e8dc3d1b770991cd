// Types that have changed: the type that a message is written with and the one that it is read with, side by side. A type keeps its place in both
// lists; an Appendable one has its members up to some place, a Mutable one has some of them in some order. All are of kinds that document 01 reads.
use crate::book::{is_primitive, Member, Type, APPENDABLE, DEFAULT, FINAL, MUTABLE, NONE, OPTIONAL, USE_DEFAULT};
use crate::rng::Rng;

const DISCRIMINATORS: [u8; 7] = [2, 3, 4, 6, 7, 12, 13];

fn leaf(r: &mut Rng) -> Type {
    let mut t = Type::new(match r.below(20) {
        0 => 0,
        1 | 2 => 16,
        3 => 17,
        4 | 5 => 19,
        6 | 7 => 21,
        _ => 1 + r.below(14) as u8,
    });
    match t.kind {
        19 => t.bound = r.pick(&[None, Some(0), Some(3), Some(8), Some(12), Some(32), Some(40)]),
        21 => {
            t.base = r.pick(&[3, 4, 12]);
            t.members = vec![Member { id: 0, ty: NONE, flags: 0, construct: 1, labels: vec![0] }];
        }
        _ => {}
    }
    t
}

/// Ids that a header of XCDR2 can hold, each once.
fn id(r: &mut Rng, taken: &[Member]) -> u32 {
    loop {
        let id = match r.below(12) {
            0 => r.pick(&[0x0fff_ffff, 0x3f02, 0x3f01, 0x1_0005, 0x4005]),
            _ => r.below(12) as u32,
        };
        if !taken.iter().any(|m| m.id == id) {
            return id;
        }
    }
}

fn earlier(r: &mut Rng, types: &[Type]) -> u16 {
    let n = types.len();
    (if r.chance(50) { n - 1 - r.below(n.min(3)) } else { r.below(n) }) as u16
}

fn structure(r: &mut Rng, types: &[Type], most: usize) -> Type {
    let mut t = Type::new(22);
    t.ext = r.pick(&[FINAL, APPENDABLE, APPENDABLE, MUTABLE, MUTABLE]);
    for _ in 0..r.below(most + 1) {
        let id = id(r, &t.members);
        let flags = if r.chance(20) { OPTIONAL } else { 0 };
        let construct = r.pick(&[USE_DEFAULT, 1, 1, 1, 2]);
        t.members.push(Member { id, ty: earlier(r, types), flags, construct, labels: Vec::new() });
    }
    t
}

fn union(r: &mut Rng, types: &[Type]) -> Type {
    let fit = |t: &Type| DISCRIMINATORS.contains(&t.kind) || t.kind == 21 || t.kind == 19 && t.mask_width() < 8;
    let fit: Vec<u16> = (0..types.len() as u16).filter(|i| fit(&types[*i as usize])).collect();
    let mut t = Type::new(23);
    t.ext = r.pick(&[FINAL, APPENDABLE, APPENDABLE, MUTABLE, MUTABLE]);
    let construct = r.pick(&[USE_DEFAULT, 1, 1]);
    t.members.push(Member { id: 0, ty: r.pick(&fit), flags: 0, construct, labels: Vec::new() });
    for k in 0..1 + r.below(4) as i32 {
        let id = id(r, &t.members);
        let flags = if r.chance(15) { OPTIONAL } else { 0 } | if r.chance(15) { DEFAULT } else { 0 };
        let labels = if r.chance(25) { vec![k, k + 10] } else { vec![k] };
        t.members.push(Member { id, ty: earlier(r, types), flags, construct: 1, labels });
    }
    t
}

fn listed(r: &mut Rng, types: &[Type]) -> Type {
    let mut t = Type::new(if r.chance(70) { 25 } else { 26 });
    t.element = earlier(r, types);
    if matches!(types[t.element as usize].kind, 0 | 25 | 26) {
        t.element = 0;
    }
    if t.kind == 26 {
        t.bound = Some(r.below(5) as u32);
    }
    t
}

/// Types with all members that either side may have. The first is a discriminator's.
pub fn types(r: &mut Rng) -> Vec<Type> {
    let mut types = vec![Type::new(r.pick(&DISCRIMINATORS))];
    types.extend((0..1 + r.below(5)).map(|_| leaf(r)));
    for _ in 0..r.below(6) {
        let t = match r.below(10) {
            0..=3 => listed(r, &types),
            4..=7 => structure(r, &types, 4),
            _ => union(r, &types),
        };
        types.push(t);
    }
    let root = if r.chance(12) { union(r, &types) } else { structure(r, &types, 6) };
    types.push(root);
    types
}

/// As XCDR1 reads it like the standard: nothing Mutable, nothing optional, no FLOAT128.
pub fn plain(types: &mut [Type]) {
    for t in types {
        t.ext = t.ext.min(APPENDABLE);
        t.kind = if t.kind == 11 { 10 } else { t.kind };
        t.members.iter_mut().for_each(|m| m.flags &= !OPTIONAL);
    }
}

/// Whether a value of the type takes a byte at least, and says so by answer 1 where there is none.
fn takes_bytes(types: &[Type], ty: u16) -> bool {
    let t = &types[ty as usize];
    match t.kind {
        0 => false,
        22 if t.ext == FINAL => {
            let told = t.members.iter().take_while(|m| m.construct != USE_DEFAULT);
            told.into_iter().any(|m| m.flags & OPTIONAL != 0 || takes_bytes(types, m.ty))
        }
        26 => !is_primitive(types[t.element as usize].kind) || t.bound != Some(0),
        _ => true,
    }
}

fn some(r: &mut Rng, members: &[Member], keep: usize) -> Vec<Member> {
    let mut left: Vec<Member> = members.iter().filter(|_| !r.chance(30)).cloned().collect();
    if r.chance(60) {
        for i in (1..left.len()).rev() {
            let j = r.below(i + 1);
            left.swap(i, j);
        }
    }
    let mut all = members[..keep].to_vec();
    all.extend(left.into_iter().filter(|m| members[..keep].iter().all(|k| k.id != m.id)));
    all
}

/// Two stages of the same types: the writer's, and the reader's.
pub fn evolved(r: &mut Rng, all: &[Type]) -> (Vec<Type>, Vec<Type>) {
    let (mut writer, mut reader) = (all.to_vec(), all.to_vec());
    for i in 0..all.len() {
        let t = &all[i];
        if !matches!(t.kind, 22 | 23) || t.ext == FINAL || r.chance(25) {
            continue;
        }
        // a union's discriminator stays
        let keep = (t.kind == 23) as usize;
        if t.ext == MUTABLE || t.kind == 23 {
            writer[i].members = some(r, &t.members, keep);
            reader[i].members = some(r, &t.members, keep);
            continue;
        }
        let n = t.members.len();
        let (w, mut more) = (r.below(n + 1), r.below(n + 1));
        if more > w && !(t.members[w].flags & OPTIONAL != 0 || takes_bytes(&reader[..i], t.members[w].ty)) {
            more = w;
        }
        writer[i].members.truncate(w);
        reader[i].members.truncate(more);
    }
    (writer, reader)
}
