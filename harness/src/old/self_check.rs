//! Checks of the reference alone: what is made is a type line, made again it stays, it means what the old line means, and
//! two lines get equal bytes exactly if they mean the same.

use super::made::made;
use super::meaning::meaning;
use super::read::read_old;
use super::tree::Old;
use crate::generate::old::{old_pair, old_text, Pair};
use crate::limited::size::fits;
use crate::limits::{OLD_BYTES, TYPE_BYTES};
use crate::random::Random;
use crate::type_line::{read_type_line, type_line};

/// What was seen, so that a run that checked little shows.
#[derive(Debug, Default, Clone, PartialEq, Eq)]
pub struct Seen {
    pub lines: u64,
    pub lines_read: u64,
    pub lines_too_large: u64,
    /// Lines that are type lines: they come out as they went in.
    pub regular: u64,
    pub pairs_read: u64,
    pub pairs_same: u64,
    /// Pairs that were made one change apart and mean the same, and those that do not.
    pub apart_same: u64,
    pub apart_other: u64,
}

/// One text, and one pair.
pub fn round(rng: &mut Random, seen: &mut Seen) -> Result<(), String> {
    check_line(&old_text(rng), seen)?;
    let (kind, a, b) = old_pair(rng);
    check_line(&a, seen)?;
    check_line(&b, seen)?;
    check_pair(kind, &a, &b, seen)
}

fn shown(line: &[u8]) -> String {
    line.escape_ascii().to_string()
}

/// Every claim about one text.
pub fn check_line(text: &[u8], seen: &mut Seen) -> Result<(), String> {
    seen.lines += 1;
    let wrong = |what: &str| Err(format!("{what}: {}", shown(text)));
    let regular = read_type_line(text);
    let Some(old) = read_old(text) else {
        return match regular {
            Some(_) => wrong("a type line, but no old line"),
            None => Ok(()),
        };
    };
    seen.lines_read += 1;
    if old.line() != text {
        return wrong("printed otherwise than read");
    }
    let ty = made(&old);
    let line = type_line(&ty);
    if let Some(regular) = regular {
        seen.regular += 1;
        if regular != ty || line != text {
            return wrong("a type line that comes out otherwise");
        }
    }
    seen.lines_too_large += u64::from(!fits(&ty));
    if fits(&ty) != (line.len() <= TYPE_BYTES) {
        return wrong("the result is too deep");
    }
    if read_type_line(&line) != Some(ty.clone()).filter(fits) {
        return wrong("the result is no type line");
    }
    check_again(&old, &Old::of(&ty), &line).or_else(|what| wrong(&what))
}

/// Making twice is making once, and the meaning stays.
fn check_again(old: &Old, regular: &Old, line: &[u8]) -> Result<(), String> {
    if regular.line() != line || line.len() <= OLD_BYTES && read_old(line).as_ref() != Some(regular)
    {
        return Err("the result is read otherwise".into());
    }
    if type_line(&made(regular)) != line {
        return Err("made twice it is another".into());
    }
    if meaning(regular) != meaning(old) {
        return Err("the result means something else".into());
    }
    if regular.nesting() > old.nesting() {
        return Err("the result is deeper".into());
    }
    Ok(())
}

/// Equal bytes exactly if the same meaning.
fn check_pair(kind: Pair, a: &[u8], b: &[u8], seen: &mut Seen) -> Result<(), String> {
    let (Some(x), Some(y)) = (read_old(a), read_old(b)) else {
        return Ok(());
    };
    let same = meaning(&x) == meaning(&y);
    let pair = || format!("{}\n{}", shown(a), shown(b));
    if same != (type_line(&made(&x)) == type_line(&made(&y))) {
        return Err(format!("lines and meanings disagree:\n{}", pair()));
    }
    if kind == Pair::Equivalent && !same {
        return Err(format!("made to mean the same, but do not:\n{}", pair()));
    }
    seen.pairs_read += 1;
    seen.pairs_same += u64::from(same);
    seen.apart_same += u64::from(kind == Pair::Apart && same);
    seen.apart_other += u64::from(kind == Pair::Apart && !same);
    Ok(())
}
