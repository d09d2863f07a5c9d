//! The linked calls against the reference on the same inputs, in one run: time always, instructions where the machine
//! counts them or a file of counts is given (tools/instructions.sh makes one). Of unification both sides read two type lines and
//! write one; of validation the library only reads, and the reference's reader makes the statement too; typing is the whole sheet
//! call; for old type lines see [`crate::old::bench`], for stores [`crate::catalogue::bench`].

mod cases;
mod clearing;
mod counter;
mod counts;
mod doubling;
pub mod family;
mod measure;
mod pairs;
pub mod sheets;
mod statements;
mod table;

use crate::library::Library;
use crate::{catalogue, old};
use counter::Counter;
use counts::Counts;
use family::{Family, Side};
use measure::measured;
use std::path::Path;
use table::Table;

/// The families of every call.
fn families(library: Library) -> Vec<Family> {
    let mut all = pairs::families(library.unify);
    all.extend(sheets::check_families(library.check));
    all.extend(sheets::type_families(library.sheet));
    all.extend(old::bench::families(library.regular));
    all.extend(catalogue::bench::families(library.store));
    all.push(clearing::family());
    all
}

/// Measures every family and prints one table. The instructions are those of the file, if one is
/// given, else the machine's own count, if it has one.
pub fn run(library: Library, file: Option<&Path>) -> Result<bool, String> {
    let counts = file.map(Counts::read).transpose()?;
    let mut counter = match counts {
        Some(_) => None,
        None => Counter::open(),
    };
    table::print_head(match (&counts, &counter) {
        (Some(_), _) => "those of the file of counts",
        (None, Some(_)) => "counted by the machine",
        (None, None) => "not counted by this machine (tools/instructions.sh counts them)",
    });
    let mut table = Table::default();
    for family in families(library) {
        let mut ready = family.ready();
        let mut taken = measured(&mut ready, counter.as_mut());
        if let Some(counts) = &counts {
            counts.put(&family.name, &mut taken);
        }
        table.print_row(&family, ready.bytes, &taken);
    }
    Ok(true)
}

/// Prints each family's name, each of its sides and how many turns are enough to count its instructions.
pub fn list(library: Library) {
    for family in families(library) {
        let ready = family.ready();
        for (side, _) in &ready.sides {
            println!("{} {} {}", family.name, side.word(), ready.counted_turns());
        }
    }
}

/// Runs one side of one family so many turns and prints how many calls that was.
pub fn one(library: Library, name: &str, side: &str, turns: u64) -> Result<bool, String> {
    let side = Side::named(side).ok_or("a side is library, reference or bare")?;
    let mut all = families(library).into_iter();
    let family = all
        .find(|f| f.name == name)
        .ok_or_else(|| format!("no such family: {name} (bench list names them)"))?;
    let mut ready = family.ready();
    let calls = ready.calls as u64 * turns;
    let run = ready
        .side(side)
        .ok_or_else(|| format!("{name} has no such side"))?;
    run(turns);
    println!("{calls}");
    Ok(true)
}
