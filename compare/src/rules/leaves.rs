// What the rules read of the bytes themselves: places, numbers, text; and the rows' room. It is the same in both modes: the end of reading is the
// length of the data, which a value's end has cut.
use super::Fail::{Refused, Short};
use super::{Done, Reader, STEPS, TOO_MANY_STEPS};
use crate::book::{width, Type};

fn signed(kind: u8) -> bool {
    matches!(kind, 3 | 4 | 5 | 12)
}

/// The code under which a scalar is stored.
pub fn stored(t: &Type) -> u8 {
    match t.kind {
        2 => 13,
        19 => match t.mask_width() {
            1 => 13,
            2 => 6,
            4 => 7,
            _ => 8,
        },
        k => k,
    }
}

impl Reader<'_> {
    pub(super) fn mark(&mut self, what: &'static str) {
        if !self.marks.contains(&what) {
            self.marks.push(what);
        }
    }

    pub(super) fn step(&mut self) -> Done<()> {
        self.steps += 1;
        if self.steps > STEPS {
            return Err(Refused(TOO_MANY_STEPS));
        }
        Ok(())
    }

    pub(super) fn seek(&mut self, n: usize) -> Done<()> {
        self.step()?;
        if self.pos + n > self.data.len() {
            return Err(Short([self.pos as u64, (self.pos + n - self.data.len()) as u64]));
        }
        self.pos += n;
        Ok(())
    }

    pub(super) fn align(&mut self, n: usize) -> Done<()> {
        let n = if self.xcdr2 { n.min(4) } else { n };
        self.seek((self.pos - self.origin).next_multiple_of(n) - (self.pos - self.origin))
    }

    pub(super) fn number(&mut self, n: usize) -> Done<u128> {
        self.align(n)?;
        self.seek(n)?;
        let bytes = &self.data[self.pos - n..self.pos];
        let join = |x: u128, b: &u8| x << 8 | *b as u128;
        Ok(if self.big { bytes.iter().fold(0, join) } else { bytes.iter().rev().fold(0, join) })
    }

    pub(super) fn word(&mut self) -> Done<usize> {
        Ok(self.number(4)? as usize)
    }

    pub(super) fn boolean(&mut self) -> Done<bool> {
        match self.number(1)? {
            0 => Ok(false),
            1 => Ok(true),
            _ => Err(Refused(2)),
        }
    }

    /// Room for one row more.
    pub(super) fn room(&mut self) -> Done<()> {
        self.step()?;
        self.needed = self.needed.max(self.rows.len() + 1);
        if self.rows.len() < self.most {
            Ok(())
        } else {
            Err(Refused(13))
        }
    }

    pub(super) fn row(&mut self, kind: u8, id: u64, a: u64, b: u64, place: usize) -> Done<()> {
        self.room()?;
        self.rows.push([kind as u64, id, a, b, place as u64]);
        Ok(())
    }

    /// A value that opens nothing: a primitive, a bitmask or a text.
    pub(super) fn scalar(&mut self, t: &Type, id: u64) -> Done<()> {
        let kind = stored(t);
        match kind {
            1 => {
                let b = self.boolean()?;
                self.row(1, id, b as u64, 0, self.pos - 1)
            }
            11 => {
                let x = self.number(16)?;
                self.row(11, id, x as u64, (x >> 64) as u64, self.pos - 16)
            }
            16 => {
                let n = self.word()?;
                let start = self.pos;
                let n = n.saturating_sub(1);
                self.seek(n)?;
                self.seek(1)?;
                if std::str::from_utf8(&self.data[start..start + n]).is_err() {
                    return Err(Refused(2));
                }
                self.row(16, id, start as u64, n as u64, start - 4)
            }
            17 => self.text16(id),
            k => {
                let n = width(k);
                let x = self.number(n)? as u64;
                let up = 64 - 8 * n as u32;
                let x = if signed(k) { ((x << up) as i64 >> up) as u64 } else { x };
                self.row(k, id, x, 0, self.pos - n)
            }
        }
    }

    pub(super) fn text16(&mut self, id: u64) -> Done<()> {
        let n = self.word()?;
        let start = self.pos;
        if n % 2 != 0 {
            return Err(Refused(2));
        }
        let mut units = Vec::new();
        for _ in 0..n / 2 {
            units.push(self.number(2)? as u16);
        }
        if char::decode_utf16(units).any(|c| c.is_err()) {
            return Err(Refused(2));
        }
        self.row(17, id, start as u64, n as u64 / 2, start - 4)
    }
}
