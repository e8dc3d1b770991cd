// Document 01's reading rules, written a third time: plain Rust, with rows and room. The crate has neither, so the numbers that the port
// adds, a text's start, where each value stood and the rows that a reading needs are checked against these; all else is checked against the crate. Order 1's second mode,
// XCDR2 as the standard reads it, stands in the same text: the mode is asked where the two differ, and the port is held to this alone there.
mod leaves;

use crate::book::{is_primitive, Member, Type, APPENDABLE, DEFAULT, FINAL, MUTABLE, OPTIONAL, USE_DEFAULT};
pub use crate::agree::Words as Row;
pub use leaves::stored;

/// How XCDR2 is read; XCDR1 is read alike in both.
#[derive(Clone, Copy, Debug, PartialEq)]
pub enum Mode {
    Crate,
    Standard,
}

/// What is told of a read that ran short: its position, and the bytes that it still needed. Of all else it is 0, 0.
pub type Told = [u64; 2];

/// Answer 1 may be absorbed, and then nothing is told of it; every other number ends the reading.
enum Fail {
    Short(Told),
    Refused(u8),
}
use Fail::{Refused, Short};

type Done<T> = Result<T, Fail>;

pub struct Reading {
    pub number: u8,
    pub rows: Vec<Row>,
    pub told: Told,
    /// The rows that a table must have room for, so that the reading does not end with 13.
    pub needed: usize,
    pub marks: Vec<&'static str>,
}

struct Reader<'a> {
    types: &'a [Type],
    /// It ends where reading ends: behind the value that is open, in the standard's mode.
    data: &'a [u8],
    big: bool,
    xcdr2: bool,
    /// XCDR2, as the standard reads it.
    standard: bool,
    pos: usize,
    origin: usize,
    rows: Vec<Row>,
    needed: usize,
    most: usize,
    steps: usize,
    marks: Vec<&'static str>,
}

/// A reading of more steps is left out: lists whose failure is absorbed can be read again and again.
const STEPS: usize = 1_000_000;

/// The number of a reading that is left out.
pub const TOO_MANY_STEPS: u8 = 255;

const SENTINEL: u16 = 0x3f02;

pub fn refused(number: u8) -> Reading {
    Reading { number, rows: Vec::new(), told: [0, 0], needed: 0, marks: Vec::new() }
}

/// Reads a message of a good book. `most` is the capacity.
pub fn read(types: &[Type], root: u16, message: &[u8], mode: Mode, most: usize) -> Reading {
    if root as usize >= types.len() {
        return refused(9);
    }
    if message.len() > 65536 {
        return refused(10);
    }
    if message.len() < 4 {
        return Reading { told: [0, 4 - message.len() as u64], ..refused(1) };
    }
    if message[0] != 0 || !matches!(message[1], 0..=3 | 6..=11) {
        return refused(2);
    }
    let mut r = Reader {
        types,
        data: &message[4..],
        big: message[1] % 2 == 0,
        xcdr2: message[1] > 3,
        standard: message[1] > 3 && mode == Mode::Standard,
        pos: 0,
        origin: 0,
        rows: Vec::new(),
        needed: 0,
        most,
        steps: 0,
        marks: Vec::new(),
    };
    let (number, told) = match r.nested(root, 0, 1) {
        Ok(()) => (0, [0, 0]),
        Err(Short(told)) => (1, told),
        Err(Refused(n)) => (n, [0, 0]),
    };
    if number != 0 {
        r.rows.clear();
    }
    Reading { number, rows: r.rows, told, needed: r.needed, marks: r.marks }
}

impl<'a> Reader<'a> {
    /// A structure, enum or union.
    fn nested(&mut self, ty: u16, id: u64, depth: usize) -> Done<()> {
        let types = self.types;
        let t = &types[ty as usize];
        if !t.opens() {
            return Err(Refused(3));
        }
        if depth > 16 {
            return Err(Refused(12));
        }
        let at = self.rows.len();
        self.row(t.kind, id, ty as u64, 0, self.pos)?;
        match t.kind {
            21 => self.enumeration(t)?,
            _ if self.xcdr2 && t.ext != FINAL => self.delimited(t, depth)?,
            _ => self.body(t, depth)?,
        }
        self.rows[at][3] = (self.rows.len() - at - 1) as u64;
        Ok(())
    }

    /// A structure or union behind its DHEADER, where it has one.
    fn body(&mut self, t: &Type, depth: usize) -> Done<()> {
        match (t.kind, t.ext) {
            (22, MUTABLE) => self.mutable_structure(t, depth),
            (22, _) => self.structure(t, depth),
            (_, MUTABLE) => self.mutable_union(t, depth),
            _ => self.union(t, depth),
        }
    }

    /// An Appendable or Mutable structure or union of XCDR2: its DHEADER, then itself.
    fn delimited(&mut self, t: &Type, depth: usize) -> Done<()> {
        let n = match self.word() {
            // the crate does not hear of it where the union is Mutable
            Err(Short(_)) if !self.standard && t.kind == 23 && t.ext == MUTABLE => {
                self.mark("Mutable union's DHEADER unheard");
                0
            }
            Err(Short(told)) => {
                self.mark("DHEADER short");
                return Err(Short(told));
            }
            other => other?,
        };
        if self.standard {
            let end = self.end_of(n)?;
            self.cut_at(end, |r| r.body(t, depth))?;
            if self.pos < end {
                self.mark(if t.ext == MUTABLE { "Mutable value passed by its DHEADER" } else { "Appendable value with bytes left" });
            }
            self.pos = end;
            return Ok(());
        }
        let end = self.pos + n;
        self.body(t, depth)?;
        // in the crate a Mutable structure alone stands at its end, wherever that is
        if t.kind == 22 && t.ext == MUTABLE {
            self.pos = end;
            if end > self.data.len() {
                self.mark("past the end");
            }
        }
        Ok(())
    }

    /// Where the DHEADER of n that was just read says that its value ends: in the data, and in the value around it.
    fn end_of(&mut self, n: usize) -> Done<usize> {
        if self.pos + n > self.data.len() {
            self.mark("DHEADER past the end");
            return Err(Refused(2));
        }
        Ok(self.pos + n)
    }

    /// Reads from the data cut at a place; positions stay what they are.
    fn cut_at(&mut self, end: usize, read: impl FnOnce(&mut Self) -> Done<()>) -> Done<()> {
        let whole = self.data;
        self.data = &whole[..end];
        let result = read(self);
        self.data = whole;
        result
    }

    fn enumeration(&mut self, t: &Type) -> Done<()> {
        match t.base {
            3 | 4 | 12 => self.scalar(&Type::new(t.base), 0),
            _ => Err(Refused(11)),
        }
    }

    fn structure(&mut self, t: &Type, depth: usize) -> Done<()> {
        for m in &t.members {
            let kept = self.rows.len();
            match self.member(m, depth) {
                Err(Short(_)) if t.ext == APPENDABLE || m.construct == USE_DEFAULT => {
                    self.rows.truncate(kept);
                    self.mark(if t.ext == APPENDABLE { "ended early, Appendable" } else { "ended early, UseDefault" });
                    return Ok(());
                }
                other => other?,
            }
        }
        Ok(())
    }

    fn mutable_structure(&mut self, t: &Type, depth: usize) -> Done<()> {
        for m in &t.members {
            self.lookup(m, depth)?;
        }
        if self.xcdr2 {
            return Ok(());
        }
        // the end marker, of any length; no alignment first
        loop {
            let id = self.number(2)? as u16 & 0x3fff;
            let n = self.number(2)? as usize;
            if id == SENTINEL {
                return Ok(());
            }
            self.seek(n)?;
            self.align(4)?;
        }
    }

    /// A member of a Final or Appendable type.
    fn member(&mut self, m: &Member, depth: usize) -> Done<()> {
        if m.flags & OPTIONAL == 0 {
            return self.value(m, depth);
        }
        if !self.xcdr2 {
            return self.lookup(m, depth);
        }
        if self.boolean()? {
            self.mark("optional, present");
            return self.value(m, depth);
        }
        self.mark("optional, absent");
        Ok(())
    }

    fn lookup(&mut self, m: &Member, depth: usize) -> Done<()> {
        self.align(4)?;
        let (pos, origin) = (self.pos, self.origin);
        let result = if self.xcdr2 { self.lookup2(m, depth) } else { self.lookup1(m, depth) };
        self.pos = pos;
        self.origin = origin;
        result
    }

    fn lookup1(&mut self, m: &Member, depth: usize) -> Done<()> {
        let (mark, found) = match self.seek1(m.id as u16) {
            Ok(Some(0)) => ("XCDR1 lookup, length 0", false),
            Ok(Some(_)) => ("XCDR1 lookup, found", true),
            Ok(None) => ("XCDR1 lookup, end marker", false),
            Err(Short(_)) => ("XCDR1 lookup, short", false),
            Err(other) => return Err(other),
        };
        self.mark(mark);
        if found {
            self.origin = self.pos;
            self.value(m, depth)?;
        }
        Ok(())
    }

    fn seek1(&mut self, wanted: u16) -> Done<Option<usize>> {
        loop {
            let id = self.number(2)? as u16 & 0x3fff;
            let n = self.number(2)? as usize;
            if id == SENTINEL && n == 0 {
                return Ok(None);
            }
            if id == wanted {
                return Ok(Some(n));
            }
            self.seek(n)?;
            self.align(4)?;
        }
    }

    fn lookup2(&mut self, m: &Member, depth: usize) -> Done<()> {
        let types = self.types;
        let (lc, n) = match self.seek2(m.id) {
            Ok(found) => found,
            Err(Short(_)) => {
                self.mark("XCDR2 lookup, short");
                return Ok(());
            }
            Err(other) => return Err(other),
        };
        self.mark(["LC 0", "LC 1", "LC 2", "LC 3", "LC 4", "LC 5", "LC 6", "LC 7"][lc]);
        if self.standard {
            return self.found(m, lc, n, depth);
        }
        if lc == 5 {
            self.pos -= 4;
        }
        let t = &types[m.ty as usize];
        if t.kind == 25 && is_primitive(types[t.element as usize].kind) {
            let size = match types[t.element as usize].kind {
                4 | 7 | 9 => 4,
                5 | 8 | 10 => 8,
                _ => 1,
            };
            self.mark("found sequence of primitives");
            return self.elements(t, m.id as u64, n / size, depth);
        }
        self.value(m, depth)
    }

    /// A member of the standard's mode behind its header: n bytes, and with LC 5 to 7 NEXTINT before them too. It has no others.
    fn found(&mut self, m: &Member, lc: usize, n: usize, depth: usize) -> Done<()> {
        let end = self.data.len().min(self.pos + n);
        if lc >= 5 {
            self.pos -= 4;
        }
        let result = self.cut_at(end, |r| r.value(m, depth));
        match result {
            Ok(()) if self.pos < end => self.mark("member with bytes left"),
            Err(Short(_)) => self.mark("member short of its value"),
            _ => {}
        }
        result
    }

    /// The next header of this id: its LC, and the length that it tells.
    fn seek2(&mut self, wanted: u32) -> Done<(usize, usize)> {
        loop {
            let header = self.word()?;
            let (id, lc) = (header & 0x0fff_ffff, header >> 28 & 7);
            let n = if lc < 4 { 1 << lc } else { self.word()? * [1, 1, 4, 8][lc - 4] };
            if id == wanted as usize {
                return Ok((lc, n));
            }
            self.seek(n)?;
            self.align(4)?;
        }
    }

    fn value(&mut self, m: &Member, depth: usize) -> Done<()> {
        let types = self.types;
        let t = &types[m.ty as usize];
        let id = m.id as u64;
        match t.kind {
            0 => Ok(()),
            15 | 18 | 20 | 24 | 27 => Err(Refused(11)),
            21..=23 => self.nested(m.ty, id, depth + 1),
            25 | 26 if self.xcdr2 && !is_primitive(types[t.element as usize].kind) => {
                let n = self.word()?;
                if !self.standard {
                    return self.list(t, id, depth);
                }
                let end = self.end_of(n)?;
                self.cut_at(end, |r| r.list(t, id, depth))?;
                if self.pos != end {
                    self.mark("list short of its DHEADER's end");
                    return Err(Refused(2));
                }
                Ok(())
            }
            25 | 26 => self.list(t, id, depth),
            _ => self.scalar(t, id),
        }
    }

    fn list(&mut self, t: &Type, id: u64, depth: usize) -> Done<()> {
        let n = if t.kind == 26 { t.bound.unwrap_or(0) as usize } else { self.word()? };
        self.elements(t, id, n, depth)
    }

    fn elements(&mut self, t: &Type, id: u64, n: usize, depth: usize) -> Done<()> {
        let types = self.types;
        let e = &types[t.element as usize];
        let place = self.pos;
        match e.kind {
            0 | 15 | 18 | 20 | 24..=27 => return Err(Refused(11)),
            2 | 13 => {
                self.seek(n)?;
                self.row(25, id, 13, n as u64, place)?;
                for i in 0..n {
                    self.row(13, i as u64, self.data[place + i] as u64, 0, place + i)?;
                }
                return Ok(());
            }
            _ => {}
        }
        self.row(25, id, stored(e) as u64, n as u64, place)?;
        for i in 0..n {
            if e.opens() {
                self.nested(t.element, i as u64, depth + 1)?;
            } else {
                self.scalar(e, i as u64)?;
            }
        }
        Ok(())
    }

    fn union(&mut self, t: &Type, depth: usize) -> Done<()> {
        let at = self.rows.len();
        self.value(&t.members[0], depth)?;
        let m = self.selected(t, at)?;
        self.member(m, depth)
    }

    fn mutable_union(&mut self, t: &Type, depth: usize) -> Done<()> {
        let at = self.rows.len();
        self.lookup(&t.members[0], depth)?;
        let m = self.selected(t, at)?;
        self.lookup(m, depth)
    }

    /// The member that the discriminator selects, whose row is at `at` if it was stored.
    fn selected<'t>(&mut self, t: &'t Type, at: usize) -> Done<&'t Member> {
        let types = self.types;
        let Some(mut row) = self.rows.get(at).copied() else { return Err(Refused(14)) };
        if row[0] == 21 {
            row = self.rows[at + 1];
        }
        if !matches!(row[0], 3 | 4 | 6 | 7 | 12 | 13) {
            return Err(Refused(3));
        }
        let x = row[2] as u32 as i32;
        if let Some(m) = t.members.iter().find(|m| m.labels.contains(&x)) {
            self.mark("union, by label");
            return Ok(m);
        }
        if let Some(m) = t.members.iter().rev().find(|m| m.flags & DEFAULT != 0) {
            self.mark("union, the last default");
            return Ok(m);
        }
        let disc = &t.members[0];
        if disc.construct == USE_DEFAULT {
            let d = &types[disc.ty as usize];
            let mut x = 0;
            if d.kind == 21 {
                let literal = d.members.iter().find(|m| m.flags & DEFAULT != 0).unwrap_or(&d.members[0]);
                x = literal.labels.first().copied().unwrap_or(0);
            }
            if let Some(m) = t.members.iter().find(|m| m.labels.contains(&x)) {
                self.mark("union, UseDefault");
                return Ok(m);
            }
        }
        self.mark("union, none selected");
        Err(Refused(2))
    }
}
