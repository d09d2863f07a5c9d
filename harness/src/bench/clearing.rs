//! The clearing of the work area alone, which document 01 asks of every call with one.

use super::family::{turns, Family, Ready, Side};
use crate::limits::WORK_BYTES;
use std::hint::black_box;
use std::rc::Rc;

pub fn family() -> Family {
    Family::new("clearing/work-area".to_string(), || {
        let mut work = vec![0_u8; WORK_BYTES];
        let once = Rc::new(vec![()]);
        let clear = turns(&once, move |_| black_box(&mut work).fill(0));
        Ready {
            bytes: WORK_BYTES,
            calls: once.len(),
            sides: vec![(Side::Reference, clear)],
        }
    })
}
