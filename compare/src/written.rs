// The written cases of cases.txt: one a line, `IDENTIFIER TYPE | DATA -> NUMBER ROWS`. The head of that file says how a type and an answer are
// written.
use crate::book::{encode, Member, Type, DEFAULT, NONE, OPTIONAL};
use crate::gen::Case;
use crate::rules::{Mode, Reading};

const NAMES: [&str; 28] = [
    "none",
    "bool",
    "byte",
    "i16",
    "i32",
    "i64",
    "u16",
    "u32",
    "u64",
    "f32",
    "f64",
    "f128",
    "i8",
    "u8",
    "char8",
    "char16",
    "str8",
    "str16",
    "alias",
    "mask",
    "annotation",
    "E",
    "F",
    "FU",
    "bitset",
    "seq",
    "arr",
    "map",
];

pub struct Written {
    pub line: usize,
    pub text: String,
    pub case: Case,
    number: u8,
    rows: usize,
    /// The a of each row that is a number or a text, where the line has them.
    values: Option<Vec<u64>>,
}

/// The a of each row that is a number or a text.
fn values_of(r: &Reading) -> Vec<u64> {
    r.rows.iter().filter(|row| !matches!(row[0], 21..=23 | 25)).map(|row| row[2]).collect()
}

impl Written {
    /// What a reading gives, where it is not what the line says.
    pub fn differs(&self, r: &Reading) -> Option<String> {
        let values = values_of(r);
        let same = (r.number, r.rows.len()) == (self.number, self.rows) && self.values.as_ref().is_none_or(|v| *v == values);
        (!same).then(|| format!("{} {} {values:?}", r.number, r.rows.len()))
    }
}

struct Parser {
    words: Vec<String>,
    at: usize,
    types: Vec<Type>,
}

/// Names and numbers whole, every other sign by itself.
fn split(s: &str) -> Vec<String> {
    let mut words: Vec<String> = Vec::new();
    let mut open = false;
    for c in s.chars() {
        let part = c.is_alphanumeric() || c == '-';
        if part && open {
            words.last_mut().unwrap().push(c);
        } else if !c.is_whitespace() {
            words.push(c.to_string());
        }
        open = part;
    }
    words
}

fn number(s: &str) -> i64 {
    let n = match s.strip_prefix("0x") {
        Some(h) => i64::from_str_radix(h, 16),
        None => s.parse(),
    };
    n.unwrap_or_else(|_| panic!("cases.txt: {s} is no number"))
}

impl Parser {
    fn peek(&self) -> &str {
        self.words.get(self.at).map_or("", |s| s)
    }

    fn next(&mut self) -> String {
        self.at += 1;
        self.words[self.at - 1].clone()
    }

    fn take(&mut self, w: &str) -> bool {
        let there = self.peek() == w;
        self.at += there as usize;
        there
    }

    fn expect(&mut self, w: &str) {
        assert!(self.take(w), "cases.txt: {} where {w} belongs", self.peek());
    }

    fn push(&mut self, t: Type) -> u16 {
        self.types.push(t);
        self.types.len() as u16 - 1
    }

    fn parse(&mut self) -> u16 {
        let name = self.next();
        let (ext, union) = match name.as_str() {
            "F" => (0, false),
            "A" => (1, false),
            "M" => (2, false),
            "FU" => (0, true),
            "AU" => (1, true),
            "MU" => (2, true),
            _ => return self.plain(&name),
        };
        let mut t = Type::new(if union { 23 } else { 22 });
        t.ext = ext;
        t.members = self.members(true);
        self.push(t)
    }

    fn plain(&mut self, name: &str) -> u16 {
        let kind = NAMES.iter().position(|n| *n == name).unwrap_or_else(|| panic!("cases.txt: no type {name}"));
        let mut t = Type::new(kind as u8);
        match name {
            "E" => {
                self.expect("(");
                t.base = NAMES.iter().position(|n| *n == self.peek()).expect("a base") as u8;
                self.next();
                self.expect(")");
                t.members = self.members(false);
            }
            "mask" | "str8" | "str16" if self.take("(") => {
                t.bound = Some(number(&self.next()) as u32);
                self.expect(")");
            }
            "seq" | "arr" => {
                self.expect("<");
                t.element = self.parse();
                if self.take(",") {
                    t.bound = Some(number(&self.next()) as u32);
                }
                self.expect(">");
            }
            _ => {}
        }
        self.push(t)
    }

    fn members(&mut self, typed: bool) -> Vec<Member> {
        let mut all = Vec::new();
        self.expect("{");
        while !self.take("}") {
            let id = number(&self.next()) as u32;
            let ty = if typed {
                self.expect(":");
                self.parse()
            } else {
                NONE
            };
            let mut m = Member { id, ty, flags: 0, construct: 1, labels: Vec::new() };
            while !matches!(self.peek(), "," | "}") {
                match self.next().as_str() {
                    "?" => m.flags |= OPTIONAL,
                    "default" => m.flags |= DEFAULT,
                    "ud" => m.construct = 0,
                    "trim" => m.construct = 2,
                    "[" => {
                        while !self.take("]") {
                            m.labels.push(number(&self.next()) as i32);
                            self.take(",");
                        }
                    }
                    w => panic!("cases.txt: {w} after a member"),
                }
            }
            self.take(",");
            all.push(m);
        }
        all
    }
}

fn bytes(s: &str) -> Vec<u8> {
    let digits: Vec<u8> = s.chars().filter(|c| !c.is_whitespace()).map(|c| c.to_digit(16).expect("hex") as u8).collect();
    assert!(digits.len() % 2 == 0, "cases.txt: half a byte in {s}");
    digits.chunks(2).map(|d| d[0] << 4 | d[1]).collect()
}

/// The lines, with the answers of a mode.
pub fn cases(file: &str, mode: Mode) -> Vec<Written> {
    let text = std::fs::read_to_string(file).expect("cases.txt");
    let lines = text.lines().enumerate().filter(|(_, l)| !l.trim().is_empty() && !l.starts_with('#'));
    lines.map(|(i, l)| written(i + 1, l, mode)).collect()
}

fn written(line: usize, text: &str, mode: Mode) -> Written {
    let wrong = || panic!("cases.txt, line {line}: not IDENTIFIER TYPE | DATA -> NUMBER ROWS");
    let (question, answer) = text.split_once("->").unwrap_or_else(wrong);
    let (kind, data) = question.split_once('|').unwrap_or_else(wrong);
    let (identifier, kind) = kind.trim().split_once(' ').unwrap_or_else(wrong);
    let mut p = Parser { words: split(kind), at: 0, types: Vec::new() };
    let root = p.parse();
    let mut message = bytes(identifier);
    message.resize(4, 0);
    message.extend(bytes(data));
    let answer = match answer.split_once("standard") {
        None => answer,
        Some((crate_says, standard)) => match mode {
            Mode::Crate => crate_says,
            Mode::Standard => standard,
        },
    };
    let (answer, values) = match answer.split_once('(') {
        None => (answer, None),
        Some((answer, values)) => (answer, Some(values.trim().trim_end_matches(')'))),
    };
    let mut said = answer.split_whitespace().map(|w| number(w) as usize);
    let (number, rows) = (said.next().unwrap_or(255) as u8, said.next().unwrap_or(0));
    let values = values.map(|v| split(v).iter().filter(|w| *w != ",").map(|w| self::number(w) as u64).collect());
    let case = Case { book: encode(&p.types), types: p.types, root, message, mode, way: "written", expected: None };
    Written { line, text: text.to_string(), case, number, rows, values }
}
