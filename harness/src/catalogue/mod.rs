//! The type catalogue (RULES 10.4, ask 12): a plain list of number, line and uses, with the last number given kept beside it; its
//! store; and the comparison of the library's store calls with them.

pub mod bench;
pub mod calls;
pub mod cases;
pub mod compare;
pub mod damage;
pub mod draw;
pub mod in_place;
pub mod lines;
pub mod probes;
pub mod sequence;
pub mod store;
pub mod vectors;

/// The store's length.
pub const STORE_BYTES: usize = 65_536;
/// What the live types may take of it together.
pub const ROOM: usize = 65_528;
/// What a live type takes beside its line.
pub const LIVE_HEAD: usize = 8;
/// Greatest number of a type.
pub const NUMBER: u64 = 65_535;
/// Greatest count of uses.
pub const USES: u64 = 4_294_967_295;

/// Refusals of the store calls alone.
pub const NO_ROOM: u32 = 13;
pub const TOO_MANY: u32 = 14;
pub const NOT_LIVE: u32 = 15;

/// A live type.
#[derive(Debug, Clone, PartialEq, Eq)]
pub struct Live {
    pub number: u64,
    pub line: Vec<u8>,
    pub uses: u64,
}

impl Live {
    /// What it takes of the store.
    pub fn bytes(&self) -> usize {
        LIVE_HEAD + self.line.len()
    }
}

/// The live types by ascending number, and the last number given.
#[derive(Debug, Clone, Default, PartialEq, Eq)]
pub struct Catalogue {
    pub last: u64,
    pub live: Vec<Live>,
}

impl Catalogue {
    /// What the live types take of the store.
    pub fn bytes(&self) -> usize {
        self.live.iter().map(Live::bytes).sum()
    }

    fn place(&self, number: u64) -> Option<usize> {
        self.live.iter().position(|l| l.number == number)
    }

    /// One use more of a type line: its number and its uses, or refusal 14 or 13.
    pub fn enter(&mut self, line: &[u8]) -> Result<(u64, u64), u32> {
        if let Some(live) = self.live.iter_mut().find(|l| l.line == line) {
            if live.uses == USES {
                return Err(TOO_MANY);
            }
            live.uses += 1;
            return Ok((live.number, live.uses));
        }
        if self.last == NUMBER {
            return Err(TOO_MANY);
        }
        if self.bytes() + LIVE_HEAD + line.len() > ROOM {
            return Err(NO_ROOM);
        }
        self.last += 1;
        self.live.push(Live {
            number: self.last,
            line: line.to_vec(),
            uses: 1,
        });
        Ok((self.last, 1))
    }

    /// One use less: the uses left, or refusal 15. At none the type is gone; its number is not given again.
    pub fn release(&mut self, number: u64) -> Result<u64, u32> {
        let place = self.place(number).ok_or(NOT_LIVE)?;
        self.live[place].uses -= 1;
        let left = self.live[place].uses;
        if left == 0 {
            self.live.remove(place);
        }
        Ok(left)
    }

    /// The live type of a number, or refusal 15.
    pub fn look_up(&self, number: u64) -> Result<&Live, u32> {
        Ok(&self.live[self.place(number).ok_or(NOT_LIVE)?])
    }
}
