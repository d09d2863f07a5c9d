//! The one table: a row for each family, in Markdown.

use super::family::{Family, Side};
use super::measure::{Taken, ROUNDS};

/// What is not there.
const NONE: &str = "-";

pub fn print_head(instructions: &str) {
    println!(
        "For a call: nanoseconds, the least of {ROUNDS} rounds; instructions, {instructions}."
    );
    println!("Ratio: library / reference. Bare: the reference with no buffers. Growth: against the row before,");
    println!("library / reference, by instructions where they are counted, else by time.");
    println!();
    row([
        "family",
        "bytes",
        "ns library",
        "reference",
        "bare",
        "ratio",
        "instr. library",
        "reference",
        "bare",
        "ratio",
        "growth",
    ]);
    println!("|---|{}", "---:|".repeat(10));
}

fn row(cells: [&str; 11]) {
    let [family, numbers @ ..] = cells;
    print!("| {family:<41}");
    for number in numbers {
        print!(" | {number:>11}");
    }
    println!(" |");
}

/// A whole number with a comma before each three digits.
fn grouped(number: f64) -> String {
    let digits = format!("{number:.0}");
    let mut text = String::new();
    for (at, digit) in digits.chars().enumerate() {
        if at > 0 && (digits.len() - at) % 3 == 0 {
            text.push(',');
        }
        text.push(digit);
    }
    text
}

fn shown(number: Option<f64>) -> String {
    number.map_or(NONE.to_string(), grouped)
}

fn quotient(a: Option<f64>, b: Option<f64>) -> Option<f64> {
    Some(a? / b?)
}

fn shown_quotient(a: Option<f64>, b: Option<f64>) -> String {
    quotient(a, b).map_or(NONE.to_string(), |q| format!("{q:.2}"))
}

/// What the sides of a family took, in one measure.
#[derive(Debug, Clone, Copy, Default)]
struct Numbers {
    library: Option<f64>,
    reference: Option<f64>,
    bare: Option<f64>,
}

impl Numbers {
    fn of(taken: &[Taken], measure: impl Fn(&Taken) -> Option<f64>) -> Self {
        let of = |side| taken.iter().find(|t| t.side == side).and_then(&measure);
        Numbers {
            library: of(Side::Library),
            reference: of(Side::Reference),
            bare: of(Side::Bare),
        }
    }

    /// Library, reference, bare and ratio.
    fn cells(&self) -> [String; 4] {
        [
            shown(self.library),
            shown(self.reference),
            shown(self.bare),
            shown_quotient(self.library, self.reference),
        ]
    }

    /// How much more than before, on both sides.
    fn growth(&self, before: &Numbers) -> String {
        let library = shown_quotient(self.library, before.library);
        let reference = shown_quotient(self.reference, before.reference);
        format!("{library} / {reference}")
    }
}

/// The table under way: it keeps the row before.
#[derive(Default)]
pub struct Table {
    before: Numbers,
}

impl Table {
    pub fn print_row(&mut self, family: &Family, bytes: usize, taken: &[Taken]) {
        let times = Numbers::of(taken, |t| Some(t.nanoseconds));
        let instructions = Numbers::of(taken, |t| t.instructions);
        let grows = match instructions.reference {
            Some(_) => instructions,
            None => times,
        };
        let growth = match family.doubles {
            true => grows.growth(&self.before),
            false => NONE.to_string(),
        };
        self.before = grows;
        let [library, reference, bare, ratio] = times.cells();
        let [counted_library, counted_reference, counted_bare, counted_ratio] =
            instructions.cells();
        row([
            &family.name,
            &grouped(bytes as f64),
            &library,
            &reference,
            &bare,
            &ratio,
            &counted_library,
            &counted_reference,
            &counted_bare,
            &counted_ratio,
            &growth,
        ]);
    }
}
