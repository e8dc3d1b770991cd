// The messages of a truck that real DDS wrote: bench/trucks.txt says which.
use crate::book::decode;
use crate::messages::{book, bytes, Case};
use std::collections::HashMap;

/// The type that a message is read with: the name is TYPE/SAMPLE/WRITER, and TYPE may be A->B.
fn read_type(name: &str) -> &str {
    let types = name.split('/').next().unwrap();
    types.rsplit("->").next().unwrap()
}

pub fn all() -> Vec<Case> {
    let mut books = HashMap::new();
    let mut cases = Vec::new();
    for line in include_str!("trucks.txt").lines().filter(|l| !l.starts_with('#')) {
        let words: Vec<&'static str> = line.split(' ').collect();
        match words[..] {
            ["book", name, root, of] => drop(books.insert(name, (root.parse().expect("a type's number"), book(of)))),
            [name, message] => {
                let (root, book) = books[read_type(name)].clone();
                let types = decode(&book).expect("a good book");
                cases.push(Case { name, types, book, root, message: bytes(message), its_own: bytes(message), standard: 0 });
            }
            _ => panic!("trucks.txt: {line}"),
        }
    }
    cases
}
