// The list that the program `replay` reads, and what it must print: entries of mode u8 (0 the crate's, 1 the standard's), rows u16, book, root u16,
// message length u32, message (big-endian), and for each a line `answer N rows K` and its rows.
use crate::book::decode;
use crate::gen::Case;
use crate::oracle::Oracle;
use crate::port::Reply;
use crate::rules::{Mode, Row};

pub struct Entry {
    /// The rows of the table.
    pub rows: usize,
    pub case: Case,
}

/// A book is known by its own length, so the list holds no book that says another one.
pub fn fits(case: &Case) -> bool {
    case.book.len() >= 4 && case.book[..4] == (case.book.len() as u32).to_be_bytes()
}

pub fn bytes(e: &Entry) -> Vec<u8> {
    let mut all = vec![e.case.mode as u8];
    all.extend((e.rows as u16).to_be_bytes());
    all.extend(&e.case.book);
    all.extend(e.case.root.to_be_bytes());
    all.extend((e.case.message.len() as u32).to_be_bytes());
    all.extend(&e.case.message);
    all
}

/// The place of a row that the stored output does not tell: `compare/real` writes none.
pub const UNTOLD: u64 = u64::MAX;

pub fn lines(number: u8, rows: &[Row]) -> String {
    let mut all = format!("answer {number} rows {}\n", rows.len());
    for [kind, id, a, b, place] in rows {
        all.push_str(&format!("{kind} {id} {a} {b} {place}\n"));
    }
    all
}

fn number(rest: &mut &[u8], n: usize) -> usize {
    take(rest, n).iter().fold(0, |x, b| x << 8 | *b as usize)
}

fn take<'a>(rest: &mut &'a [u8], n: usize) -> &'a [u8] {
    let (head, tail) = rest.split_at(n);
    *rest = tail;
    head
}

pub fn entries(mut rest: &[u8]) -> Vec<Entry> {
    let mut all = Vec::new();
    while !rest.is_empty() {
        let mode = if number(&mut rest, 1) == 0 { Mode::Crate } else { Mode::Standard };
        let rows = number(&mut rest, 2);
        let size = number(&mut &rest[..], 4);
        let book = take(&mut rest, size).to_vec();
        let root = number(&mut rest, 2) as u16;
        let size = number(&mut rest, 4);
        let message = take(&mut rest, size).to_vec();
        let types = decode(&book).unwrap_or_default();
        all.push(Entry { rows, case: Case { types, book, root, message, mode, way: "stored", expected: None } });
    }
    all
}

pub fn replies(said: &str) -> Vec<Reply> {
    let mut all: Vec<Reply> = Vec::new();
    for line in said.lines() {
        let words: Vec<u64> = line.split(' ').filter_map(|w| w.parse().ok()).collect();
        match words[..] {
            [n, count] => all.push(Reply { number: n as u8, rows: Vec::new(), count, told: [0, 0], cleared: true, prepared: true, fault: None }),
            [kind, id, a, b, place] => all.last_mut().expect("an answer first").rows.push([kind, id, a, b, place]),
            [kind, id, a, b] => all.last_mut().expect("an answer first").rows.push([kind, id, a, b, UNTOLD]),
            _ => panic!("the stored output: {line}"),
        }
    }
    all
}

/// Where the crate, or the rules where it has no say, say something else than what is stored: the entry's number, and how.
pub fn differs(folder: &str) -> Option<String> {
    let input = std::fs::read(format!("{folder}/stdin")).expect("stdin");
    let output = std::fs::read_to_string(format!("{folder}/stdout")).expect("stdout");
    let (entries, replies) = (entries(&input), replies(&output));
    assert_eq!(entries.len(), replies.len(), "entries and answers");
    entries.iter().zip(&replies).enumerate().find_map(|(i, (e, said))| {
        if let Some(at) = crate::misplaced(&e.case, &said.rows) {
            return Some(format!("entry {}: row {at} does not stand where it says", i + 1));
        }
        if !crate::asks_the_crate(&e.case, said.number) {
            let r = crate::by_rules_in(&e.case, e.rows);
            return ((r.number, &r.rows) != (said.number, &said.rows)).then(|| format!("entry {}: the rules give {}", i + 1, r.number));
        }
        let crate_says = Oracle::new(&e.case.types).read(e.case.root, &e.case.message);
        crate::agree::differs(&crate_says, said.number, &said.rows, &e.case.message).map(|why| format!("entry {}: {why}", i + 1))
    })
}
