// How often each answer and each feature was reached.
use crate::gen::Case;
use crate::rules::{Mode, Reading};
use std::collections::BTreeMap;

#[derive(Default)]
pub struct Tally(BTreeMap<String, u64>);

const KINDS: [&str; 28] = [
    "NONE",
    "BOOLEAN",
    "BYTE",
    "INT16",
    "INT32",
    "INT64",
    "UINT16",
    "UINT32",
    "UINT64",
    "FLOAT32",
    "FLOAT64",
    "FLOAT128",
    "INT8",
    "UINT8",
    "CHAR8",
    "CHAR16",
    "STRING8",
    "STRING16",
    "ALIAS",
    "BITMASK",
    "ANNOTATION",
    "ENUM",
    "STRUCTURE",
    "UNION",
    "BITSET",
    "SEQUENCE",
    "ARRAY",
    "MAP",
];

const EXTENSIBILITY: [&str; 3] = ["Final", "Appendable", "Mutable"];

const MARKS: [&str; 23] = [
    "ended early, Appendable",
    "ended early, UseDefault",
    "optional, present",
    "optional, absent",
    "XCDR1 lookup, found",
    "XCDR1 lookup, length 0",
    "XCDR1 lookup, end marker",
    "XCDR1 lookup, short",
    "XCDR2 lookup, short",
    "LC 0",
    "LC 1",
    "LC 2",
    "LC 3",
    "LC 4",
    "LC 5",
    "LC 6",
    "LC 7",
    "union, by label",
    "union, the last default",
    "union, UseDefault",
    "union, none selected",
    "needs more rows than it keeps",
    "opens at depth 16",
];

/// What the crate alone meets.
const CRATE_MARKS: [&str; 3] = ["past the end", "found sequence of primitives", "Mutable union's DHEADER unheard"];

/// What the standard's mode alone meets.
const STANDARD_MARKS: [&str; 7] = [
    "DHEADER short",
    "DHEADER past the end",
    "Appendable value with bytes left",
    "Mutable value passed by its DHEADER",
    "list short of its DHEADER's end",
    "member with bytes left",
    "member short of its value",
];

const WAYS: [&str; 11] = [
    "well-formed",
    "cut",
    "flipped",
    "word changed",
    "shifted",
    "longer",
    "noise",
    "unknown identifier",
    "under 4 bytes",
    "root not below the number of types",
    "book damaged",
];

/// How messages of the standard's mode are made, besides.
const STANDARD_WAYS: [&str; 14] = [
    "same type",
    "evolved type",
    "DHEADER one too large",
    "DHEADER past the value around it",
    "DHEADER up to the end around it",
    "DHEADER too small",
    "DHEADER of any value",
    "NEXTINT too large",
    "NEXTINT too small",
    "length too large",
    "length too small",
    "length of any value",
    "another LC",
    "another id",
];

fn version(id: u8) -> &'static str {
    match id {
        0 | 2 => "XCDR1 big-endian",
        1 | 3 => "XCDR1 little-endian",
        6 | 8 | 10 => "XCDR2 big-endian",
        _ => "XCDR2 little-endian",
    }
}

/// So many random cases reach every feature.
const ENOUGH: u64 = 300_000;

impl Tally {
    fn add(&mut self, mode: Mode, what: String) {
        *self.0.entry(named(mode, what)).or_default() += 1;
    }

    pub fn reading(&mut self, c: &Case, r: &Reading) {
        self.add(c.mode, format!("answer {:>2}", r.number));
        let rule = crate::broken::BREAKS.contains(&c.way);
        self.add(c.mode, format!("{} {}", if rule { "book broken:" } else { "message" }, c.way));
        if c.expected.is_some() {
            self.add(c.mode, format!("read as it was written, {}", c.way));
        }
        for m in &r.marks {
            self.add(c.mode, format!("reached {m}"));
        }
        if r.number == 0 && r.needed > r.rows.len() {
            self.add(c.mode, "reached needs more rows than it keeps".into());
        }
        if c.message.len() >= 4 && c.message[0] == 0 && !matches!(r.number, 9 | 10 | 17..=23) {
            self.add(c.mode, format!("identifier 00{:02x}", c.message[1]));
        }
        for i in 0..r.rows.len() {
            self.row(c, r, i);
        }
        if deepest(r) == 16 {
            self.add(c.mode, "reached opens at depth 16".into());
        }
    }

    pub fn left_out(&mut self, n: usize) {
        if n > 0 {
            *self.0.entry("left out: too many steps".into()).or_default() += n as u64;
        }
    }

    fn row(&mut self, c: &Case, r: &Reading, i: usize) {
        let [kind, _, a, b, _] = r.rows[i];
        match kind {
            21..=23 => {
                let t = &c.types[a as usize];
                self.add(c.mode, format!("stored {} {}, {}", EXTENSIBILITY[t.ext as usize], KINDS[kind as usize], version(c.message[1])));
            }
            25 => {
                let n = if b == 0 { "empty" } else { "filled" };
                self.add(c.mode, format!("stored list of {}, {n}", KINDS[a as usize]));
            }
            _ => self.add(c.mode, format!("stored {}", KINDS[kind as usize])),
        }
    }

    pub fn names(&self) -> impl Iterator<Item = &String> {
        self.0.keys()
    }

    pub fn table(&mut self, mode: Mode, k: usize, needed: usize) {
        self.add(mode, format!("table {}", if k < needed { "too small" } else { "of enough rows" }));
    }

    fn wanted(mode: Mode) -> Vec<String> {
        let mut all: Vec<String> = [0, 1, 2, 3, 9, 10, 11, 12, 13, 14, 17, 18, 19, 20, 21, 22, 23].iter().map(|n| format!("answer {n:>2}")).collect();
        all.extend(WAYS.iter().map(|w| format!("message {w}")));
        let marks: &[&str] = match mode {
            Mode::Crate => &CRATE_MARKS,
            Mode::Standard => {
                all.extend(STANDARD_WAYS.iter().map(|w| format!("message {w}")));
                all.extend(STANDARD_WAYS[..2].iter().map(|w| format!("read as it was written, {w}")));
                &STANDARD_MARKS
            }
        };
        all.extend(marks.iter().map(|w| format!("reached {w}")));
        all.extend(crate::broken::BREAKS.iter().map(|w| format!("book broken: {w}")));
        all.extend(MARKS.iter().map(|w| format!("reached {w}")));
        all.extend([0, 1, 2, 3, 6, 7, 8, 9, 10, 11].iter().map(|i| format!("identifier 00{i:02x}")));
        for k in [1, 3, 4, 5, 6, 7, 8, 9, 10, 11, 12, 13, 14, 16, 17] {
            all.push(format!("stored {}", KINDS[k]));
        }
        for k in [1, 3, 4, 5, 6, 7, 8, 9, 10, 11, 12, 13, 14, 16, 17, 21, 22, 23] {
            all.push(format!("stored list of {}, empty", KINDS[k]));
            all.push(format!("stored list of {}, filled", KINDS[k]));
        }
        for id in [0, 1, 6, 7] {
            for k in 21..=23 {
                all.extend(EXTENSIBILITY.iter().map(|e| format!("stored {e} {}, {}", KINDS[k], version(id))));
            }
        }
        all.extend(["table too small".to_string(), "table of enough rows".to_string()]);
        all.into_iter().map(|w| named(mode, w)).collect()
    }

    /// All that was counted, and what the modes want and was not: by name where so many cases should have reached it.
    pub fn print(&self, modes: &[Mode], cases: u64) {
        for (what, n) in &self.0 {
            println!("{n:>10}  {what}");
        }
        let wanted: Vec<String> = modes.iter().flat_map(|m| Self::wanted(*m)).collect();
        let missing: Vec<&String> = wanted.iter().filter(|w| !self.0.contains_key(*w)).collect();
        if cases < ENOUGH && !missing.is_empty() {
            println!("{} of {} features were not met in so few cases; from {ENOUGH} cases on each is met, or named", missing.len(), wanted.len());
            return;
        }
        for w in missing {
            println!("NOT REACHED  {w}");
        }
    }
}

/// A feature's name, with the mode that reached it.
pub fn named(mode: Mode, what: String) -> String {
    match mode {
        Mode::Crate => what,
        Mode::Standard => format!("standard: {what}"),
    }
}

/// The greatest depth of an opened value among the rows.
fn deepest(r: &Reading) -> usize {
    let mut ends: Vec<usize> = Vec::new();
    let mut most = 0;
    for (i, row) in r.rows.iter().enumerate() {
        while ends.last().is_some_and(|e| *e <= i) {
            ends.pop();
        }
        if (21..=23).contains(&row[0]) {
            ends.push(i + 1 + row[3] as usize);
            most = most.max(ends.len());
        }
    }
    most
}
