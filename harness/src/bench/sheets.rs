//! Sheets to validate and to type: the kinds, and the families of both calls over them.

use super::family::{turns, Family, Ready, Side, Turns};
use super::{cases, doubling, statements};
use crate::calls;
use crate::library::{CheckCall, SheetCall};
use crate::limits::{SHEET_BYTES, WORK_BYTES};
use std::hint::black_box;
use std::rc::Rc;

/// Whole sheets.
pub type Sheets = Vec<Vec<u8>>;

/// Sheets of one kind.
pub struct Kind {
    pub name: String,
    /// The number that typing such a sheet has, 0 if it is accepted.
    pub number: u32,
    /// Whether they have twice the size of those of the kind before.
    pub doubles: bool,
    /// Whether they show nothing new of validation.
    pub for_typing: bool,
    pub make: Box<dyn Fn() -> Sheets>,
}

impl Kind {
    /// Sheets that are accepted.
    pub fn new(name: impl Into<String>, make: impl Fn() -> Sheets + 'static) -> Self {
        Kind {
            name: name.into(),
            number: 0,
            doubles: false,
            for_typing: false,
            make: Box::new(make),
        }
    }

    pub fn refused(self, number: u32) -> Self {
        Kind { number, ..self }
    }

    pub fn for_typing(self) -> Self {
        Kind {
            for_typing: true,
            ..self
        }
    }

    pub fn doubling(self, doubles: bool) -> Self {
        Kind { doubles, ..self }
    }
}

/// Every kind of sheet.
pub fn kinds() -> Vec<Kind> {
    let mut all = statements::kinds();
    all.extend(cases::kinds());
    all.extend(doubling::kinds());
    all
}

fn ready(sheets: Sheets, sides: impl Fn(&Rc<Sheets>) -> Vec<(Side, Turns)>) -> Ready {
    let sheets = Rc::new(sheets);
    let all: usize = sheets.iter().map(Vec::len).sum();
    Ready {
        bytes: all / sheets.len(),
        calls: sheets.len(),
        sides: sides(&sheets),
    }
}

fn families(
    call: &str,
    kinds: impl Iterator<Item = Kind>,
    sides: impl Fn(&Rc<Sheets>) -> Vec<(Side, Turns)> + Copy + 'static,
) -> Vec<Family> {
    let family = |kind: Kind| {
        let (name, doubles) = (format!("{call}/{}", kind.name), kind.doubles);
        Family::new(name, move || ready((kind.make)(), sides)).doubling(doubles)
    };
    kinds.map(family).collect()
}

fn check_turns(call: CheckCall, sheets: &Rc<Sheets>) -> Turns {
    turns(sheets, move |sheet| {
        black_box(call(sheet));
    })
}

/// Validation: every kind but those for typing alone.
pub fn check_families(linked: CheckCall) -> Vec<Family> {
    let kinds = kinds().into_iter().filter(|kind| !kind.for_typing);
    families("check", kinds, move |sheets| {
        vec![
            (Side::Library, check_turns(linked, sheets)),
            (Side::Reference, check_turns(calls::check_call, sheets)),
        ]
    })
}

fn type_turns(call: SheetCall, sheets: &Rc<Sheets>) -> Turns {
    let (mut work, mut out) = (vec![0; WORK_BYTES], vec![0; SHEET_BYTES + 1]);
    turns(sheets, move |sheet| {
        black_box(call(sheet, &mut work, &mut out));
    })
}

/// Typing: every kind.
pub fn type_families(linked: SheetCall) -> Vec<Family> {
    families("type", kinds().into_iter(), move |sheets| {
        vec![
            (Side::Library, type_turns(linked, sheets)),
            (Side::Reference, type_turns(calls::sheet_call, sheets)),
        ]
    })
}
