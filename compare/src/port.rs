// The port's program, run over a file of cases.
use crate::book::Fault;
use crate::rules::{Mode, Row, Told};
use std::io::Write;
use std::process::{Command, Stdio};

#[derive(Clone, Debug, PartialEq)]
pub struct Reply {
    pub number: u8,
    pub rows: Vec<Row>,
    pub count: u64,
    pub told: Told,
    /// Zero after the last row, the whole table of a refusal too.
    pub cleared: bool,
    /// The prepared reading gave the same.
    pub prepared: bool,
    /// What is wrong with the book.
    pub fault: Option<Fault>,
}

pub struct Port {
    /// The program and the words before its name, as an emulator.
    pub command: Vec<String>,
    pub folder: String,
}

#[derive(Default)]
pub struct Batch {
    bytes: Vec<u8>,
    pub asked: usize,
}

impl Batch {
    pub fn book(&mut self, book: &[u8]) {
        self.bytes.push(1);
        self.bytes.extend((book.len() as u32).to_le_bytes());
        self.bytes.extend(book);
    }

    pub fn message(&mut self, root: u16, mode: Mode, words: usize, message: &[u8]) {
        self.bytes.push(2);
        self.bytes.extend(root.to_le_bytes());
        self.bytes.push(mode as u8);
        self.bytes.extend((words as u32).to_le_bytes());
        self.bytes.extend((message.len() as u32).to_le_bytes());
        self.bytes.extend(message);
        self.asked += 1;
    }
}

impl Port {
    pub fn run(&self, batch: &Batch) -> Vec<Reply> {
        let path = format!("{}/cases.bin", self.folder);
        std::fs::File::create(&path).and_then(|mut f| f.write_all(&batch.bytes)).expect("cases.bin");
        let input = std::fs::File::open(&path).expect("cases.bin");
        let done =
            Command::new(&self.command[0]).args(&self.command[1..]).stdin(input).stderr(Stdio::inherit()).output().expect("the port's program");
        assert!(done.status.success(), "the port's program ended with {}", done.status);
        let mut rest = &done.stdout[..];
        let replies = (0..batch.asked).map(|_| reply(&mut rest)).collect();
        assert!(rest.is_empty(), "the port's program said more than it was asked");
        replies
    }
}

fn take<'a>(rest: &mut &'a [u8], n: usize) -> &'a [u8] {
    let (head, tail) = rest.split_at(n);
    *rest = tail;
    head
}

fn word(rest: &mut &[u8]) -> u64 {
    u64::from_le_bytes(take(rest, 8).try_into().unwrap())
}

fn reply(rest: &mut &[u8]) -> Reply {
    let answer = word(rest);
    let told = [word(rest), word(rest)];
    let marks = take(rest, 1)[0];
    let said = u32::from_le_bytes(take(rest, 4).try_into().unwrap());
    let fault = (said != 0).then_some(((said >> 8) as u16, said as u8));
    let (number, count) = (answer as u8, answer >> 8);
    let rows = if number == 0 { (0..count).map(|_| std::array::from_fn(|_| word(rest))).collect() } else { Vec::new() };
    Reply { number, rows, count, told, cleared: marks & 1 != 0, prepared: marks & 2 != 0, fault }
}
