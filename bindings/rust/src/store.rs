//! A store of types.

use crate::lent;
use crate::limits::STORE_SIZE;
use crate::refusal::{number, Refusal};

/// A store of types, which gives each a short number and counts its uses. Its bytes are the whole of it: they can be kept in a file.
///
/// ```
/// let mut store = cyrs::Store::new();
/// let entered = store.enter(b"J,D,")?;
/// assert_eq!((entered.number, entered.uses), (1, 1));
/// assert_eq!(store.enter(b"J,D,")?.uses, 2);
/// let live = store.look_up(1)?;
/// assert_eq!((live.line, live.uses), (&b"J,D,"[..], 2));
/// assert_eq!(store.release(1)?, 1);
/// assert_eq!(store.release(1)?, 0);
/// assert_eq!(store.look_up(1).unwrap_err().number(), cyrs::number::NOT_LIVE);
/// # Ok::<(), cyrs::Refusal>(())
/// ```
///
/// A line that is looked up is lent from the store, so it is copied before the store is written:
///
/// ```compile_fail
/// let mut store = cyrs::Store::new();
/// store.enter(b"D,").unwrap();
/// let live = store.look_up(1).unwrap();
/// store.enter(live.line);
/// ```
#[derive(Debug, Clone, PartialEq, Eq)]
pub struct Store {
    bytes: Box<[u8]>,
}

/// An entered type.
#[derive(Debug, Clone, Copy, PartialEq, Eq)]
pub struct Entered {
    /// Its number, from 1; none is given twice.
    pub number: u64,
    /// Its uses, this one with them.
    pub uses: u64,
}

/// A type that is live.
#[derive(Debug, Clone, Copy, PartialEq, Eq)]
pub struct Live<'a> {
    /// Its line, a part of the store.
    pub line: &'a [u8],
    /// Its uses.
    pub uses: u64,
}

impl Store {
    /// An empty store.
    pub fn new() -> Self {
        Store {
            bytes: vec![0; STORE_SIZE].into_boxed_slice(),
        }
    }

    /// The store that these bytes are; refusal 2 if they are none.
    pub fn from_bytes(bytes: &[u8]) -> Result<Self, Refusal> {
        // 0 is the number of no type: looking it up checks the store, and finds nothing in one that has the form.
        const NO_TYPE: u64 = 0;
        match lent::look_up_type(bytes, NO_TYPE) {
            (number::NOT_LIVE, ..) => Ok(Store {
                bytes: bytes.into(),
            }),
            (refusal, place, ..) => Err(Refusal::new(refusal, place)),
        }
    }

    /// The store's bytes, [`STORE_SIZE`] of them.
    pub fn as_bytes(&self) -> &[u8] {
        &self.bytes
    }

    /// Enters a type: a use more, or a new number. Refusals 8, 13 and 14, which leave the store as it is.
    pub fn enter(&mut self, line: &[u8]) -> Result<Entered, Refusal> {
        match lent::enter_type(&mut self.bytes, line) {
            (0, number, uses) => Ok(Entered { number, uses }),
            (refusal, place, _) => Err(Refusal::new(refusal, place)),
        }
    }

    /// Releases a use of a type: the uses left; at 0 the type is gone. Refusal 15, which leaves the store as it is.
    pub fn release(&mut self, number: u64) -> Result<u64, Refusal> {
        match lent::release_type(&mut self.bytes, number) {
            (0, uses) => Ok(uses),
            (refusal, place) => Err(Refusal::new(refusal, place)),
        }
    }

    /// Looks a number up: its type. Refusal 15.
    pub fn look_up(&self, number: u64) -> Result<Live<'_>, Refusal> {
        match lent::look_up_type(&self.bytes, number) {
            (0, at, len, uses) => Ok(Live {
                line: &self.bytes[at as usize..][..len as usize],
                uses,
            }),
            (refusal, ..) => Err(Refusal::new(refusal, 0)),
        }
    }
}

impl Default for Store {
    fn default() -> Self {
        Store::new()
    }
}
