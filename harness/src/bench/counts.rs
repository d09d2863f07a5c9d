//! A file of counted instructions: lines of family, side and instructions for a call, blanks between.

use super::family::Side;
use super::measure::Taken;
use std::collections::HashMap;
use std::fs;
use std::path::Path;

pub struct Counts {
    by_name: HashMap<(String, &'static str), f64>,
}

impl Counts {
    pub fn read(path: &Path) -> Result<Counts, String> {
        let shown = path.display();
        let text = fs::read_to_string(path).map_err(|e| format!("{shown}: {e}"))?;
        let lines = text
            .lines()
            .map(|line| count(line).ok_or_else(|| format!("{shown}: no count: {line}")));
        let by_name = lines.collect::<Result<_, _>>()?;
        Ok(Counts { by_name })
    }

    /// Writes the counts of a family beside its times.
    pub fn put(&self, family: &str, taken: &mut [Taken]) {
        for one in taken {
            let name = (family.to_string(), one.side.word());
            one.instructions = self.by_name.get(&name).copied();
        }
    }
}

fn count(line: &str) -> Option<((String, &'static str), f64)> {
    let mut words = line.split(' ');
    let family = words.next()?.to_string();
    let side = Side::named(words.next()?)?;
    let instructions = words.next()?.parse().ok()?;
    match words.next() {
        None => Some(((family, side.word()), instructions)),
        Some(_) => None,
    }
}
