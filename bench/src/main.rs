// bench: the port and the crate's own text on the same messages, in one run. See docs/SPEED.md.
//   bench agree          compares the answers, and says each message's bytes and rows
//   bench count CALLS    makes CALLS calls of each side, with `bench_mark` before each region, where callgrind ends a count
//   bench time ROUNDS    native time: in each round every side has its turn
//   bench stack          bytes of stack
//   bench real-count CALLS, bench real-time ROUNDS    the same, of the messages of real.txt alone
//   bench one CALLS MESSAGE SIDE    CALLS calls of one side, for a profiler
// A line for each side: message, side, value.
extern crate alloc;
extern crate self as dust_dds;
extern crate self as tracing;

/// Stand-in for tracing's macro: says nothing.
#[macro_export]
macro_rules! debug {
    ($($t:tt)*) => {};
}

mod agree;
#[allow(dead_code)]
mod book;
mod deep;
mod messages;
mod oracle;
mod port;
mod real;
mod trucks;
mod write;
#[allow(dead_code, unused)]
pub mod xtypes;

use agree::WIDTH;
use messages::Case;
use oracle::Oracle;
use std::hint::black_box;
use std::time::Instant;
use xtypes::deserializer::deserialize_top_level_type;

/// The rows that the app lends.
const APP: usize = 2048;

struct Side {
    message: &'static str,
    name: &'static str,
    call: Box<dyn FnMut()>,
}

/// Where callgrind ends one count and begins the next.
#[no_mangle]
#[inline(never)]
extern "C" fn bench_mark() {
    black_box(0);
}

extern "C" {
    fn stack_of(call: extern "C" fn(*mut Side), side: *mut Side) -> u64;
}

/// The rows of a message, after a check that the port and the crate agree on it; or the number that both refuse it with.
fn rows_of(c: &Case) -> Result<usize, u8> {
    let (mut table, mut again) = (vec![!0; WIDTH * 20_000], vec![!0; WIDTH * 20_000]);
    let mut index = [0; 65];
    let answer = port::read(&c.book, c.root, &c.message, c.standard, &mut table);
    assert_eq!(port::prepare(&c.book, &mut index), 0, "{}: prepare", c.name);
    assert_eq!(port::read_prepared(&c.book, &index, c.root, &c.message, c.standard, &mut again), answer, "{}: prepared", c.name);
    assert!(table == again, "{}: the prepared call leaves another table", c.name);
    let rows: Vec<agree::Words> = table.chunks(WIDTH).take((answer >> 8) as usize).map(|r| r.try_into().unwrap()).collect();
    let said = Oracle::new(&c.types).read(c.root, &c.its_own);
    if let Some(why) = agree::differs(&said, answer as u8, &rows, &c.message) {
        panic!("{}: {why}", c.name);
    }
    match answer as u8 {
        0 => Ok(rows.len()),
        number => Err(number),
    }
}

fn whole(c: &'static Case, name: &'static str, rows: usize) -> Side {
    let mut table = vec![0; WIDTH * rows];
    let call = move || drop(black_box(port::read(black_box(&c.book), c.root, black_box(&c.message), c.standard, &mut table)));
    Side { message: c.name, name, call: Box::new(call) }
}

fn prepared(c: &'static Case, name: &'static str, rows: usize) -> Side {
    let mut table = vec![0; WIDTH * rows];
    let mut index = [0; 65];
    port::prepare(&c.book, &mut index);
    let call = move || drop(black_box(port::read_prepared(black_box(&c.book), &index, c.root, black_box(&c.message), c.standard, &mut table)));
    Side { message: c.name, name, call: Box::new(call) }
}

/// The types are built once; what the crate hands back is freed in the call, for the memory is its result.
fn its_own(c: &'static Case) -> Side {
    let root = Oracle::new(&c.types).root(c.root);
    let call = move || drop(black_box(&deserialize_top_level_type(black_box(root), black_box(&c.its_own))));
    Side { message: c.name, name: "crate", call: Box::new(call) }
}

fn of_message(c: &'static Case, rows: usize) -> [Side; 3] {
    println!("{}\tbytes\t{}\n{}\trows\t{rows}\n{}\tbook\t{}", c.name, c.message.len(), c.name, c.name, c.book.len());
    [its_own(c), prepared(c, "prepared", rows), whole(c, "whole", rows)]
}

fn sides() -> Vec<Side> {
    let mut all = vec![empty()];
    for c in Vec::leak(messages::all()) {
        let rows = rows_of(c).unwrap_or_else(|number| panic!("{}: answer {number}", c.name));
        all.extend(of_message(c, rows));
        if rows <= APP {
            all.push(prepared(c, "prepared, 2048 rows", APP));
        }
    }
    written_by_others(&mut all, trucks::all());
    all
}

/// Those that both sides read; the others are named, with their number.
fn written_by_others(all: &mut Vec<Side>, cases: Vec<Case>) {
    for c in Vec::leak(cases) {
        match rows_of(c) {
            Ok(rows) => all.extend(of_message(c, rows)),
            Err(number) => println!("{}\trefused\t{number}", c.name),
        }
    }
}

/// A message that the port refuses is not handed to the crate: of one whose type has changed it may reserve more memory than there is.
fn real_sides() -> Vec<Side> {
    let number = |c: &Case| port::read(&c.book, c.root, &c.message, c.standard, &mut vec![0; WIDTH * 20_000]) as u8;
    let (read, refused): (Vec<Case>, Vec<Case>) = real::all().into_iter().partition(|c| number(c) == 0);
    for c in &refused {
        println!("{}\trefused\t{}", c.name, number(c));
    }
    let mut all = vec![empty()];
    written_by_others(&mut all, read);
    all
}

fn empty() -> Side {
    Side { message: "-", name: "empty", call: Box::new(|| drop(black_box(0))) }
}

fn count(sides: &mut [Side], calls: usize) {
    for s in sides.iter_mut() {
        (s.call)();
        bench_mark();
        for _ in 0..calls {
            (s.call)();
        }
        bench_mark();
    }
    for s in sides {
        println!("{}\t{}\t{calls}", s.message, s.name);
    }
}

fn nanoseconds(s: &mut Side, calls: u32) -> f64 {
    let start = Instant::now();
    for _ in 0..calls {
        (s.call)();
    }
    start.elapsed().as_nanos() as f64 / calls as f64
}

fn time(sides: &mut [Side], rounds: usize) {
    // as many calls a turn as take about 100 microseconds
    let calls: Vec<u32> = sides.iter_mut().map(|s| (1e5 / nanoseconds(s, 100)).max(1.0) as u32).collect();
    let mut best = vec![f64::MAX; sides.len()];
    for _ in 0..rounds {
        for (i, s) in sides.iter_mut().enumerate() {
            best[i] = best[i].min(nanoseconds(s, calls[i]));
        }
    }
    for (s, ns) in sides.iter().zip(best) {
        println!("{}\t{}\t{ns:.2}", s.message, s.name);
    }
}

extern "C" fn call(s: *mut Side) {
    unsafe { ((*s).call)() }
}

/// Each is read first, and agrees with the crate.
fn deep_sides() -> Vec<Side> {
    Vec::leak(deep::all())
        .iter()
        .flat_map(|c| {
            rows_of(c).unwrap_or_else(|number| panic!("{}: answer {number}", c.name));
            [its_own(c), prepared(c, "prepared", APP), whole(c, "whole", APP)]
        })
        .collect()
}

fn stack(sides: &mut [Side]) {
    for s in sides {
        let bytes = unsafe { stack_of(call, s) };
        println!("{}\t{}\t{bytes}", s.message, s.name);
    }
}

fn main() {
    let args: Vec<String> = std::env::args().collect();
    let number = || args[2].parse().expect("a number");
    match args[1].as_str() {
        "real-count" => return count(&mut real_sides(), number()),
        "real-time" => return time(&mut real_sides(), number()),
        _ => {}
    }
    let mut sides = sides();
    match args[1].as_str() {
        "agree" => {}
        "count" => count(&mut sides, number()),
        "time" => time(&mut sides, number()),
        "stack" => {
            stack(&mut sides);
            stack(&mut deep_sides());
        }
        "one" => {
            let mut one = sides.into_iter().filter(|s| s.message == args[3] && s.name == args[4]);
            count(&mut [one.next().expect("a message and a side")], number());
        }
        other => panic!("bench: no {other}"),
    }
}
