// compare: the port beside the crate's own text, on random books and messages. See README.md.
extern crate alloc;
extern crate self as dust_dds;
extern crate self as tracing;

/// Stand-in for tracing's macro: says nothing.
#[macro_export]
macro_rules! debug {
    ($($t:tt)*) => {};
}

mod agree;
mod book;
mod books;
mod broken;
mod changes;
mod encode;
mod evolve;
mod gen;
mod list;
mod memory;
mod oracle;
mod port;
mod rng;
mod rules;
mod sample;
mod shrink;
mod standard;
mod tally;
mod watch;
mod writer;
mod written;
#[allow(dead_code, unused)]
pub mod xtypes;

use agree::WIDTH;
use gen::Case;
use oracle::Oracle;
use port::{Batch, Port, Reply};
use rules::{Mode, Reading};
use tally::Tally;

/// The most rows of a table.
const ROWS: usize = 100_000;

/// A case's reading by the rules, with as many rows as there may be.
pub fn by_rules(case: &Case) -> Reading {
    by_rules_in(case, ROWS)
}

/// A case's reading by the rules, with a table of so many rows.
pub fn by_rules_in(case: &Case, rows: usize) -> Reading {
    if let Err((_, why)) = book::decode(&case.book) {
        return rules::refused(why);
    }
    rules::read(&case.types, case.root, &case.message, case.mode, rows)
}

/// A random case of a mode.
pub fn made(mode: Mode, seed: u64, number: u64) -> Case {
    match mode {
        Mode::Crate => gen::case(seed, number),
        Mode::Standard => standard::case(seed, number),
    }
}

/// The words of a table that has room for a reading, and some to spare.
pub fn words_for(r: &Reading) -> usize {
    WIDTH * ROWS.min(r.needed + 20) + WIDTH - 1
}

/// The first of these rows whose value does not stand where it says; in the standard's mode no row of all stands past the data's end.
pub fn misplaced(case: &Case, rows: &[rules::Row]) -> Option<usize> {
    let data = case.message.get(4..)?;
    let inside = |r: &rules::Row| case.mode == Mode::Crate || r[4] <= data.len() as u64;
    rows.iter().position(|r| !(agree::stands(r, data, case.message[1] % 2 == 0) && inside(r)))
}

/// Where the port differs from the rules or from the crate, in words.
pub fn differs(case: &Case, rules: &Reading, got: &Reply) -> Option<String> {
    if !got.cleared {
        return Some("the table is not zero after the last row".into());
    }
    if !got.prepared {
        return Some("the prepared reading gives something else".into());
    }
    let fault = book::decode(&case.book).err();
    if fault != got.fault {
        return Some(format!("of the book the rules tell {fault:?}, the port {:?}", got.fault));
    }
    if rules.number != got.number || rules.rows.len() as u64 != got.count {
        return Some(format!("the rules give {} with {} rows, the port {} with {}", rules.number, rules.rows.len(), got.number, got.count));
    }
    if rules.told != got.told {
        return Some(format!("{}: the rules tell {:?}, the port {:?}", got.number, rules.told, got.told));
    }
    if let Some(at) = (0..rules.rows.len()).find(|i| rules.rows[*i] != got.rows[*i]) {
        return Some(format!("row {at}: the rules {:?}, the port {:?}", rules.rows[at], got.rows[at]));
    }
    if let Some(at) = misplaced(case, &got.rows) {
        return Some(format!("row {at} does not stand where it says: {:?}", got.rows[at]));
    }
    if let Some(rows) = case.expected.as_ref().filter(|rows| **rows != got.rows) {
        return Some(format!("{}: the value that was written has {} rows, and the port gives {} with others", case.way, rows.len(), got.number));
    }
    if !asks_the_crate(case, got.number) {
        return None;
    }
    let crate_says = Oracle::new(&case.types).read(case.root, &case.message);
    agree::differs(&crate_says, got.number, &got.rows, &case.message)
}

/// Whether the crate has a say: it knows no book, root, long message or table, and XCDR2 as the standard reads it neither.
pub fn asks_the_crate(case: &Case, number: u8) -> bool {
    let xcdr2 = case.message.get(1).is_some_and(|id| *id > 3);
    !(matches!(number, 9 | 10 | 13 | 17..=23) || case.mode == Mode::Standard && xcdr2)
}

pub fn ask(port: &Port, case: &Case, words: usize) -> Reply {
    let mut b = Batch::default();
    b.book(&case.book);
    b.message(case.root, case.mode, words, &case.message);
    port.run(&b).remove(0)
}

fn hex(b: &[u8]) -> String {
    b.iter().map(|x| format!("{x:02x}")).collect()
}

fn show(case: &Case, why: &str) {
    println!("DIFFERENCE: {why}");
    for (i, t) in case.types.iter().enumerate() {
        println!("  {i}: {t:?}");
    }
    println!("  book {}\n  root {}\n  message {}\n  {:?} mode", hex(&case.book), case.root, hex(&case.message), case.mode);
    if let Some(rows) = &case.expected {
        println!("  as it was written: {rows:?}");
    }
}

/// `run`, `standard`, `first` and `first-standard` with COUNT SEED CASES FOLDER PORT.., `list` with the list's folder, `sample` with COUNT SEED CASES and that folder.
fn main() {
    let args: Vec<String> = std::env::args().collect();
    match args[1].as_str() {
        "run" => Run::new(&args, Mode::Crate, false).all(),
        "standard" => Run::new(&args, Mode::Standard, false).all(),
        first @ ("first" | "first-standard") => {
            let mut run = Run::new(&args, if first == "first" { Mode::Crate } else { Mode::Standard }, true);
            watch::start(60 + run.total / 1000);
            run.all()
        }
        "list" => {
            watch::start(60);
            if let Some(why) = list::differs(&args[2]) {
                println!("{why}");
                std::process::exit(1);
            }
        }
        "sample" => sample::write(args[2].parse().expect("COUNT"), args[3].parse().expect("SEED"), &args[4], &args[5]),
        other => panic!("no command {other}"),
    }
}

struct Run {
    port: Port,
    tally: Tally,
    differences: u64,
    shown: u64,
    total: u64,
    seed: u64,
    cases: String,
    mode: Mode,
    /// Ends at the first difference, and looks at no table: the crate has none.
    first: bool,
}

impl Run {
    fn new(args: &[String], mode: Mode, first: bool) -> Run {
        let port = Port { folder: args[5].clone(), command: args[6..].to_vec() };
        let (total, seed) = (args[2].parse().expect("COUNT"), args[3].parse().expect("SEED"));
        Run { port, tally: Tally::default(), differences: 0, shown: 0, total, seed, cases: args[4].clone(), mode, first }
    }

    fn all(&mut self) {
        self.written();
        self.real();
        self.changes();
        let mut at = 0;
        while at < self.total {
            let n = (self.total - at).min(5000);
            let cases: Vec<Case> = (at..at + n).map(|i| made(self.mode, self.seed, i)).collect();
            self.window(cases, self.seed.wrapping_add(at));
            at += n;
        }
        self.tally.print(&[self.mode], self.total);
        let which = if self.mode == Mode::Crate { "" } else { " (standard mode)" };
        println!("{} cases with seed {}: {} differences{which}", self.total, self.seed, self.differences);
        std::process::exit((self.differences > 0) as i32);
    }

    fn written(&mut self) {
        let all = written::cases(&self.cases, self.mode);
        for w in &all {
            let r = by_rules(&w.case);
            if let Some(said) = w.differs(&r) {
                self.differences += 1;
                println!("DIFFERENCE: line {}: {}\n  the rules give {said}", w.line, w.text);
            }
        }
        println!("{} written cases", all.len());
        self.window(all.into_iter().map(|w| w.case).collect(), 0);
    }

    /// The messages of real writers, all of them in this mode. `differs` looks at the bytes where each number and each text's length is said to stand.
    fn real(&mut self) {
        let list = std::path::Path::new(&self.cases).with_file_name("../crates/replay/stdin");
        let all = list::entries(&std::fs::read(list).expect("the stored list"));
        let real = all.into_iter().take(sample::REAL).filter(|e| e.case.mode == Mode::Standard);
        let cases: Vec<Case> = real.map(|e| Case { mode: self.mode, ..e.case }).collect();
        let rows: usize = cases.iter().map(|c| by_rules(c).rows.len()).sum();
        println!("{} messages of real writers: {rows} rows, each held to the bytes at its place", cases.len());
        self.window(cases, 0);
    }

    /// The README's worked book with one byte changed: what is told of it, and the reading.
    fn changes(&mut self) {
        let mut cases = changes::cases(self.mode);
        let (all, told) = (cases.len(), cases.iter().filter(|c| c.types.is_empty()).count());
        let before = self.differences;
        while !cases.is_empty() {
            let rest = cases.split_off(cases.len().min(5000));
            self.window(cases, 0);
            cases = rest;
        }
        println!("{all} changes of one byte of the README's book, {told} of them told: {} differences", self.differences - before);
    }

    fn window(&mut self, cases: Vec<Case>, seed: u64) {
        let readings: Vec<(Case, Reading)> = cases.into_iter().map(|c| (by_rules(&c), c)).map(|(r, c)| (c, r)).collect();
        let (long, fit): (Vec<_>, Vec<_>) = readings.into_iter().partition(|(_, r)| r.number == rules::TOO_MANY_STEPS);
        self.tally.left_out(long.len());
        let mut batch = Batch::default();
        for (c, r) in &fit {
            batch.book(&c.book);
            batch.message(c.root, c.mode, words_for(r), &c.message);
        }
        for ((c, r), got) in fit.iter().zip(self.port.run(&batch)) {
            self.tally.reading(c, r);
            if let Some(why) = differs(c, r, &got) {
                if self.first {
                    println!("{why}");
                    std::process::exit(1);
                }
                self.differ(c);
            }
        }
        if !self.first {
            self.tables(&fit, seed);
        }
    }

    fn differ(&mut self, c: &Case) {
        self.differences += 1;
        self.shown += 1;
        if self.shown > 5 {
            return;
        }
        let small = shrink::shrink(&self.port, c);
        let rules = by_rules(&small);
        let got = ask(&self.port, &small, words_for(&rules));
        show(&small, &differs(&small, &rules, &got).unwrap_or_default());
    }

    /// Tables of every size around what is needed: 13 below it, the same answer from it on.
    fn tables(&mut self, readings: &[(Case, Reading)], seed: u64) {
        let mut rng = rng::Rng::new(seed, 13);
        let mut batch = Batch::default();
        let mut asked = Vec::new();
        for (c, r) in readings {
            if r.needed > 1000 || !rng.chance(15) {
                continue;
            }
            batch.book(&c.book);
            for k in 0..=r.needed + 1 {
                if k < 12 || k + 2 > r.needed || rng.chance(10) {
                    batch.message(c.root, c.mode, WIDTH * k + rng.below(WIDTH), &c.message);
                    asked.push((c, r, k));
                }
            }
        }
        for ((c, r, k), got) in asked.into_iter().zip(self.port.run(&batch)) {
            let same = if k < r.needed {
                got.number == 13 && got.count == 0 && got.told == [0, 0]
            } else {
                got.number == r.number && got.rows == r.rows && got.told == r.told
            };
            self.tally.table(c.mode, k, r.needed);
            if !(same && got.cleared && got.prepared) {
                self.differences += 1;
                show(c, &format!("a table of {k} rows, {} needed: {} with {} rows", r.needed, got.number, got.count));
            }
        }
    }
}
