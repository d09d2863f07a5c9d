//! One line of a sheet: its word and its fields. Badly written is 3, outside the range 4, and a whole field is looked at
//! before its range is.

use super::Refused;
use crate::limits::{COUNT, NAME_BYTES, VAR};
use crate::reference::hir::{HirId, VarId, VarKind};
use crate::reference::stand_ins::SmolStr;
use crate::type_line::{decode_hex, is_hex_pairs};

/// A whole line.
#[derive(Clone, Copy)]
pub struct Line<'a> {
    pub id: HirId,
    pub word: &'a [u8],
    /// What stands behind the word, from its comma on.
    rest: &'a [u8],
}

impl<'a> Line<'a> {
    pub fn new(id: HirId, text: &'a [u8]) -> Self {
        let end = text.iter().position(|&b| b == b',').unwrap_or(text.len());
        Line {
            id,
            word: &text[..end],
            rest: &text[end..],
        }
    }

    pub fn refused(&self, number: u32) -> Refused {
        Refused {
            number,
            line: self.id,
        }
    }

    /// The line's fields, if it has this many.
    pub fn fields(&self, count: usize) -> Result<Fields<'a>, Refused> {
        if self.rest.iter().filter(|&&b| b == b',').count() != count {
            return Err(self.refused(3));
        }
        Ok(Fields {
            line: *self,
            rest: self.rest,
        })
    }
}

/// The fields of a line still to be read.
pub struct Fields<'a> {
    line: Line<'a>,
    rest: &'a [u8],
}

impl<'a> Fields<'a> {
    fn next(&mut self) -> &'a [u8] {
        let rest = &self.rest[1..];
        let end = rest.iter().position(|&b| b == b',').unwrap_or(rest.len());
        self.rest = &rest[end..];
        &rest[..end]
    }

    fn bad<T>(&self) -> Result<T, Refused> {
        Err(self.line.refused(3))
    }

    fn outside<T>(&self) -> Result<T, Refused> {
        Err(self.line.refused(4))
    }

    fn decimal(&self, text: &[u8]) -> Result<u128, Refused> {
        match decimal(text) {
            Some(n) => Ok(n),
            None => self.bad(),
        }
    }

    /// A decimal of at most `most`.
    fn within(&self, text: &[u8], most: u64) -> Result<u64, Refused> {
        let n = self.decimal(text)?;
        if n > u128::from(most) {
            return self.outside();
        }
        Ok(n as u64)
    }

    /// A decimal of at most `most`.
    pub fn number(&mut self, most: u64) -> Result<u64, Refused> {
        let text = self.next();
        self.within(text, most)
    }

    /// `0|1`.
    pub fn bit(&mut self) -> Result<bool, Refused> {
        Ok(self.number(1)? == 1)
    }

    /// A flag number of one known bit.
    pub fn flag(&mut self) -> Result<bool, Refused> {
        self.bit()
    }

    /// A flag number of two known bits, the lowest first.
    pub fn two_flags(&mut self) -> Result<(bool, bool), Refused> {
        let n = self.number(3)?;
        Ok((n % 2 == 1, n / 2 == 1))
    }

    pub fn count(&mut self) -> Result<usize, Refused> {
        Ok(self.number(COUNT)? as usize)
    }

    pub fn var(&mut self) -> Result<VarId, Refused> {
        Ok(VarId(self.number(VAR)? as u32))
    }

    pub fn optional_var(&mut self) -> Result<Option<VarId>, Refused> {
        match self.next() {
            b"-" => Ok(None),
            text => Ok(Some(VarId(self.within(text, VAR)? as u32))),
        }
    }

    /// A bound of a relationship's length: `-` if the length is single.
    pub fn bound(&mut self, variable: bool) -> Result<Option<u64>, Refused> {
        match self.next() {
            b"-" => Ok(None),
            _ if !variable => self.bad(),
            text => Ok(Some(self.within(text, u64::MAX)?)),
        }
    }

    pub fn name(&mut self) -> Result<SmolStr, Refused> {
        let text = self.next();
        self.name_of(text)
    }

    /// `-` or a name.
    pub fn alias(&mut self) -> Result<Option<SmolStr>, Refused> {
        match self.next() {
            b"-" => Ok(None),
            text => Ok(Some(self.name_of(text)?)),
        }
    }

    fn name_of(&self, text: &[u8]) -> Result<SmolStr, Refused> {
        if !is_hex_pairs(text) {
            return self.bad();
        }
        let mut bytes = [0; NAME_BYTES];
        match bytes.get_mut(..text.len() / 2) {
            None => self.outside(),
            Some(bytes) => {
                decode_hex(text, bytes);
                Ok(SmolStr::new(bytes))
            }
        }
    }

    /// A signed 64-bit decimal, never `-0`.
    pub fn int(&mut self) -> Result<i64, Refused> {
        let text = self.next();
        let Some(digits) = text.strip_prefix(b"-") else {
            return Ok(self.within(text, i64::MAX as u64)? as i64);
        };
        match self.decimal(digits)? {
            0 => self.bad(),
            n if n > 1 << 63 => self.outside(),
            n => Ok((n as u64).wrapping_neg() as i64),
        }
    }

    /// 16 hexadecimal digits.
    pub fn float(&mut self) -> Result<f64, Refused> {
        let text = self.next();
        let mut bytes = [0; 8];
        if text.len() != 2 * bytes.len() || !is_hex_pairs(text) {
            return self.bad();
        }
        decode_hex(text, &mut bytes);
        Ok(f64::from_bits(u64::from_be_bytes(bytes)))
    }

    pub fn var_kind(&mut self) -> Result<VarKind, Refused> {
        match self.next() {
            b"N" => Ok(VarKind::Node),
            b"R" => Ok(VarKind::Relationship),
            b"P" => Ok(VarKind::Path),
            b"V" => Ok(VarKind::Value),
            _ => self.bad(),
        }
    }

    /// The first line's number.
    pub fn edition(&mut self) -> Result<(), Refused> {
        let text = self.next();
        match self.decimal(text)? {
            1 => Ok(()),
            _ => self.outside(),
        }
    }
}

/// A decimal of any length without leading zeros; one past 128 bits counts as the greatest of these.
fn decimal(text: &[u8]) -> Option<u128> {
    if text.is_empty() || (text.len() > 1 && text[0] == b'0') {
        return None;
    }
    let mut n: u128 = 0;
    for &b in text {
        if !b.is_ascii_digit() {
            return None;
        }
        n = n.saturating_mul(10).saturating_add(u128::from(b - b'0'));
    }
    Some(n)
}
