// The smallest input near a given one on which the two sides still differ.
use crate::gen::Case;
use crate::port::Port;
use crate::{ask, by_rules, differs, words_for};

fn still(port: &Port, c: &Case) -> bool {
    if c.types != crate::book::decode(&c.book).unwrap_or_default() {
        return false;
    }
    let rules = by_rules(c);
    rules.number != crate::rules::TOO_MANY_STEPS && differs(c, &rules, &ask(port, c, words_for(&rules))).is_some()
}

/// Each smaller input that is one step away.
fn steps(c: &Case) -> Vec<Case> {
    let mut all = Vec::new();
    let mut add = |change: &dyn Fn(&mut Case)| {
        let mut d = Case { expected: None, ..c.clone() };
        change(&mut d);
        if d.types != c.types {
            d.book = crate::book::encode(&d.types);
        }
        if d != *c {
            all.push(d);
        }
    };
    let n = c.message.len();
    for k in [n / 2, n / 4, 8, 4, 1] {
        add(&|d| d.message.truncate(n.saturating_sub(k).max(4)));
    }
    for i in 4..n {
        add(&|d| {
            d.message.remove(i);
        });
        add(&|d| d.message[i] = 0);
    }
    add(&|d| d.types.truncate(d.root as usize + 1));
    for i in 0..c.types.len() {
        for j in 0..c.types[i].members.len() {
            add(&|d| {
                d.types[i].members.remove(j);
            });
            add(&|d| d.types[i].members[j].labels.truncate(0));
            add(&|d| d.types[i].members[j].flags = 0);
            add(&|d| d.types[i].members[j].construct = 1);
            add(&|d| d.types[i].members[j].ty = d.types[i].members[j].ty.min(0));
        }
        add(&|d| d.types[i].ext = 0);
        add(&|d| drop_type(d, i as u16));
    }
    all
}

/// Without a type that nothing names.
fn drop_type(c: &mut Case, i: u16) {
    let named = c.types.iter().any(|t| t.element == i || t.members.iter().any(|m| m.ty == i));
    if named || c.root == i {
        return;
    }
    c.types.remove(i as usize);
    let fall = |x: &mut u16| {
        if *x != crate::book::NONE && *x > i {
            *x -= 1
        }
    };
    fall(&mut c.root);
    for t in &mut c.types {
        fall(&mut t.element);
        t.members.iter_mut().for_each(|m| fall(&mut m.ty));
    }
}

pub fn shrink(port: &Port, c: &Case) -> Case {
    let mut best = c.clone();
    for _ in 0..400 {
        match steps(&best).into_iter().find(|d| still(port, d)) {
            Some(d) => best = d,
            None => break,
        }
    }
    best
}
