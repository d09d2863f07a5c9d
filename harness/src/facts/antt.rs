//! Facts as text of the checker's language, antt, in the terms of crates/semantics/proofs/Cases.antt.

use super::Fact;
use crate::calls::{sheet_call, unify_call};
use crate::cases::Case;
use crate::limits::WORK_BYTES;
use std::fmt;

/// The bytes that Cases.antt fills the lent buffers with.
const WORK_BYTE: u8 = 119;
const OUT_BYTE: u8 = 111;

/// What is left in the buffers, as Cases.antt tells it: this text at the front of the output and zeros in the work area;
/// zeros in both; both as lent.
#[derive(Debug, Clone, PartialEq, Eq)]
pub enum Left {
    Wrote(Vec<u8>),
    Zeroed,
    AsLent,
}

/// What the reference settles.
#[derive(Debug, Clone, PartialEq, Eq)]
pub struct Settled {
    pub number: u32,
    pub first: u64,
    pub second: u64,
    pub left: Left,
}

impl Settled {
    /// The reference's answer, told by the bytes that it leaves in both buffers.
    pub fn of(case: &Case) -> Self {
        let (mut work, mut out) = match case {
            Case::Sheet { work, out, .. } | Case::Pair { work, out, .. } => {
                (vec![WORK_BYTE; *work], vec![OUT_BYTE; *out])
            }
        };
        let (number, first, second) = match case {
            Case::Sheet { sheet, .. } => {
                let (number, first) = sheet_call(sheet, &mut work, &mut out);
                (number, first, 0)
            }
            Case::Pair { a, b, .. } => unify_call(a, b, &mut work, &mut out),
        };
        let text = match number {
            0 | 9 => (first + second) as usize,
            _ => 0,
        };
        let all = |bytes: &[u8], byte| bytes.iter().all(|&b| b == byte);
        let left = if number < 3 && all(&work, WORK_BYTE) && all(&out, OUT_BYTE) {
            Left::AsLent
        } else if all(&work, 0) && all(&out, 0) {
            Left::Zeroed
        } else if all(&work, 0) && all(&out[text..], OUT_BYTE) {
            out.truncate(text);
            Left::Wrote(out)
        } else {
            panic!("the reference leaves its buffers as RULES 7.2 does not say: {case:?}")
        };
        Settled {
            number,
            first,
            second,
            left,
        }
    }
}

impl fmt::Display for Settled {
    fn fmt(&self, f: &mut fmt::Formatter) -> fmt::Result {
        let (number, first, second) = (self.number, self.first, self.second);
        write!(f, "number {number}, returned {first} and {second}, ")?;
        match &self.left {
            Left::Wrote(text) => write!(f, "wrote \"{}\"", text.escape_ascii()),
            Left::Zeroed => write!(f, "zeros in both buffers"),
            Left::AsLent => write!(f, "both buffers as lent"),
        }
    }
}

/// Bytes: a text literal; other bytes than printable ASCII and LF as numbers.
pub fn bytes(text: &[u8]) -> String {
    let plain = |b: u8| b == b'\n' || (b' '..=b'~').contains(&b);
    if text.iter().all(|&b| plain(b)) {
        return format!("text {}", literal(text));
    }
    let mut parts = String::new();
    let mut closing = String::new();
    for run in text.chunk_by(|&x, &y| plain(x) && plain(y)) {
        match run {
            [b] if !plain(*b) => parts.push_str(&format!("({b} ∷ ")),
            _ => parts.push_str(&format!("(text {} ++ ", literal(run))),
        }
        closing.push(')');
    }
    format!("{parts}[]{closing}")
}

/// A string literal of printable ASCII and LF.
fn literal(text: &[u8]) -> String {
    let mut string = String::from("\"");
    for &b in text {
        match b {
            b'\n' => string.push_str("\\n"),
            b'"' | b'\\' => string.extend(['\\', b as char]),
            _ => string.push(b as char),
        }
    }
    string.push('"');
    string
}

/// A call and the reference's answer as a record `Case`.
pub fn record(fact: &Fact) -> String {
    let question = match &fact.case {
        Case::Sheet { sheet, .. } => format!("typed ({})", bytes(sheet)),
        Case::Pair { a, b, .. } => format!("unified ({}) ({})", bytes(a), bytes(b)),
    };
    let lent = match &fact.case {
        Case::Sheet { work, out, .. } | Case::Pair { work, out, .. } => match *work {
            WORK_BYTES if !fact.whole => format!("output {out}"),
            work => format!("sized {work} {out}"),
        },
    };
    let settled = Settled::of(&fact.case);
    let left = match &settled.left {
        Left::Wrote(text) => format!("wrote ({})", bytes(text)),
        Left::Zeroed => "zeroed".to_string(),
        Left::AsLent => "as_lent".to_string(),
    };
    format!(
        "record {{ question = {question}; lent = {lent}; number = {}; first = {}; second = {}; left = {left} }}",
        settled.number, settled.first, settled.second
    )
}

const USES: &str = "\
use mathlib.Core.Path.{refl}
use mathlib.Core.List.{List, [], ◌∷◌, ◌++◌}
use Rattle.semantics.specs.Bytes.{text}
use Rattle.semantics.proofs.Cases.{Case, Pass, typed, unified, output, sized, wrote, zeroed, as_lent, reply, expected}
";

/// A module that says that the calls answer as these facts say: one list, one computation.
pub(super) fn list_module(facts: &[Fact]) -> String {
    let mut module = format!("{USES}\nabbrev pub facts : List Case\nfacts =\n");
    for fact in facts {
        let record = record(fact);
        module.push_str(&format!("    -- {}\n    {record} ∷\n", fact.from));
    }
    module
        .push_str("    []\n\npub hold : Pass facts\nunfolding reply expected text\nhold = refl\n");
    module
}

/// A module that is refused, with the definition's answer in the message: the outcome of a sheet with no limit on the
/// output, or all that the unify call settles over empty buffers.
pub(super) fn seen_module(case: &Case) -> String {
    match case {
        Case::Sheet { sheet, .. } => format!(
            "\
use mathlib.Core.Path.{{◌≡◌, refl}}
use mathlib.Core.List.{{[], ◌∷◌, ◌++◌}}
use Rattle.semantics.specs.Bytes.{{text}}
use Rattle.semantics.specs.Calls.{{refusal}}
use Rattle.semantics.proofs.Run.{{run}}

pub seen : run ({}) ≡ refusal 0 0
unfolding run text
seen = refl
",
            bytes(sheet)
        ),
        Case::Pair { a, b, .. } => format!(
            "\
use mathlib.Core.Path.{{◌≡◌, refl}}
use mathlib.Core.List.{{[], ◌∷◌, ◌++◌}}
use Rattle.semantics.specs.Bytes.{{text}}
use Rattle.semantics.specs.Ty.{{type_line}}
use Rattle.semantics.specs.Calls.{{unify_types, untouched}}
use Rattle.semantics.proofs.Run.{{run, run_unify}}

pub seen : unify_types (type_line ({})) (type_line ({})) [] [] ≡ untouched 999 [] []
unfolding run_unify run type_line unify_types text
seen = refl
",
            bytes(a),
            bytes(b)
        ),
    }
}

/// A message of the checker with its lists of bytes as texts.
pub fn readable(message: &str) -> String {
    let words: Vec<&str> = message.split(' ').collect();
    let mut shown: Vec<String> = Vec::new();
    let mut at = 0;
    while at < words.len() {
        let (text, len) = byte_list(&words[at..]);
        match text {
            Some(text) => shown.push(text),
            None => shown.push(words[at].to_string()),
        }
        at += len;
    }
    shown.join(" ")
}

/// The list `b ∷ .. ∷ []` at the front as a text, and how many words it takes.
fn byte_list(words: &[&str]) -> (Option<String>, usize) {
    let opening = words[0].trim_start_matches(|c: char| !c.is_ascii_digit());
    let before = &words[0][..words[0].len() - opening.len()];
    let mut text: Vec<u8> = Vec::new();
    let mut at = 0;
    loop {
        let word = if at == 0 { opening } else { words[at] };
        if let Some(closing) = word.strip_prefix("[]").filter(|_| at > 0) {
            let text = text.escape_ascii();
            return (Some(format!("{before}\"{text}\"{closing}")), at + 1);
        }
        match (word.parse(), words.get(at + 1)) {
            (Ok(byte), Some(&"∷")) if at + 2 < words.len() => text.push(byte),
            _ => return (None, 1),
        }
        at += 2;
    }
}
