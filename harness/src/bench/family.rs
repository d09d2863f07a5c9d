//! A family: inputs of one kind for one call, and who answers them.

use std::hint::black_box;
use std::rc::Rc;

/// Who answers.
#[derive(Debug, Clone, Copy, PartialEq, Eq)]
pub enum Side {
    Library,
    Reference,
    /// The reference with no buffers, and of unification with no size tests.
    Bare,
}

const SIDES: [Side; 3] = [Side::Library, Side::Reference, Side::Bare];

impl Side {
    /// Its name in commands and files.
    pub fn word(self) -> &'static str {
        match self {
            Side::Library => "library",
            Side::Reference => "reference",
            Side::Bare => "bare",
        }
    }

    pub fn named(word: &str) -> Option<Side> {
        SIDES.into_iter().find(|side| side.word() == word)
    }
}

/// Answers all inputs of a family so many times.
pub type Turns = Box<dyn FnMut(u64)>;

/// A call on each of the inputs, as turns.
pub fn turns<T: 'static>(inputs: &Rc<Vec<T>>, mut call: impl FnMut(&T) + 'static) -> Turns {
    let inputs = Rc::clone(inputs);
    Box::new(move |turns| {
        for _ in 0..turns {
            for input in inputs.iter() {
                call(black_box(input));
            }
        }
    })
}

/// A family with its inputs made.
pub struct Ready {
    /// Bytes of an input, in the mean.
    pub bytes: usize,
    /// Calls of a turn.
    pub calls: usize,
    pub sides: Vec<(Side, Turns)>,
}

/// About how many bytes are read while instructions are counted: few, since the counting is slow.
const COUNTED_BYTES: usize = 65_536;
/// The most turns while instructions are counted.
const COUNTED_TURNS: usize = 50;

impl Ready {
    pub fn side(&mut self, wanted: Side) -> Option<&mut Turns> {
        let mut sides = self.sides.iter_mut();
        sides.find(|(side, _)| *side == wanted).map(|(_, run)| run)
    }

    /// How many turns are enough to count instructions.
    pub fn counted_turns(&self) -> usize {
        let read = (self.bytes * self.calls).max(1);
        (COUNTED_BYTES / read).clamp(1, COUNTED_TURNS)
    }
}

/// A family by name. Its inputs are made when they are wanted, so that a run of one family makes no other's.
pub struct Family {
    /// The call, a slash, and what its inputs are; no blanks.
    pub name: String,
    /// Whether its inputs have twice the size of those of the family before it.
    pub doubles: bool,
    make: Box<dyn Fn() -> Ready>,
}

impl Family {
    pub fn new(name: String, make: impl Fn() -> Ready + 'static) -> Self {
        Family {
            name,
            doubles: false,
            make: Box::new(make),
        }
    }

    pub fn doubling(self, doubles: bool) -> Self {
        Family { doubles, ..self }
    }

    pub fn ready(&self) -> Ready {
        (self.make)()
    }
}
