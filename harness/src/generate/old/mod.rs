//! Old type lines: of every form, at the limits, damaged, and pairs of them.

mod change;
mod exhaustive;
mod loosen;
mod probes;
mod shapes;
mod texts;

pub use change::changed;
pub use exhaustive::{damaged_everywhere, small_lines, EVERY_LETTER};
pub use loosen::loosened;
pub use probes::{old_probes, OldProbe};
pub use shapes::{any_old, chain, stretched};
pub use texts::{old_pair, old_text, Pair};
