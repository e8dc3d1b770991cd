// All messages of a file that real DDS wrote: bench/run makes real.txt of it, a line for each: name, root, modes, book and message in hex.
use crate::book::decode;
use crate::messages::{bytes, Case};

/// Each in the crate's mode, which may refuse it; and in the standard's where both modes read it, with S behind its name.
pub fn all() -> Vec<Case> {
    let mut cases = Vec::new();
    for line in include_str!("real.txt").lines() {
        let words: Vec<&'static str> = line.split('\t').collect();
        let [name, root, modes, book, message] = words[..] else { panic!("real.txt: {line}") };
        let (book, message) = (bytes(book), bytes(message));
        let case = |name, standard| Case {
            name,
            types: decode(&book).expect("a good book"),
            book: book.clone(),
            root: root.parse().expect("a type's number"),
            message: message.clone(),
            its_own: message.clone(),
            standard,
        };
        cases.push(case(name, 0));
        if modes == "crate,standard" {
            cases.push(case(format!("{name} S").leak(), 1));
        }
    }
    cases
}
