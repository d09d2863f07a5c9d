//! Stand-ins for what the reference uses and `docs/src` has no body of: the string type, the ordered map, spans, and
//! diagnostics as records in push order (RULES 1.2).

use std::collections::hash_map::{Entry, HashMap};
use std::fmt;
use std::hash::{Hash, Hasher};
use std::ops::Deref;
use std::rc::Rc;

/// How many bytes a [`SmolStr`] holds without a heap block, as the original does.
const INLINE: usize = 23;

/// A short string: bytes, so that names which are not UTF-8 have a place too. Its order is the order of bytes, which is
/// the original's order of strings.
#[derive(Clone)]
pub struct SmolStr(Repr);

#[derive(Clone)]
enum Repr {
    Inline { len: u8, bytes: [u8; INLINE] },
    Heap(Rc<[u8]>),
}

impl SmolStr {
    pub fn new(text: impl AsRef<[u8]>) -> Self {
        let text = text.as_ref();
        if text.len() > INLINE {
            return SmolStr(Repr::Heap(Rc::from(text)));
        }
        let mut bytes = [0; INLINE];
        bytes[..text.len()].copy_from_slice(text);
        SmolStr(Repr::Inline {
            len: text.len() as u8,
            bytes,
        })
    }

    pub fn as_bytes(&self) -> &[u8] {
        match &self.0 {
            Repr::Inline { len, bytes } => &bytes[..*len as usize],
            Repr::Heap(bytes) => bytes,
        }
    }
}

impl Deref for SmolStr {
    type Target = [u8];
    fn deref(&self) -> &[u8] {
        self.as_bytes()
    }
}

impl PartialEq for SmolStr {
    fn eq(&self, other: &Self) -> bool {
        self.as_bytes() == other.as_bytes()
    }
}

impl Eq for SmolStr {}

impl PartialOrd for SmolStr {
    fn partial_cmp(&self, other: &Self) -> Option<std::cmp::Ordering> {
        Some(self.cmp(other))
    }
}

impl Ord for SmolStr {
    fn cmp(&self, other: &Self) -> std::cmp::Ordering {
        self.as_bytes().cmp(other.as_bytes())
    }
}

impl Hash for SmolStr {
    fn hash<H: Hasher>(&self, state: &mut H) {
        self.as_bytes().hash(state);
    }
}

impl fmt::Debug for SmolStr {
    fn fmt(&self, f: &mut fmt::Formatter<'_>) -> fmt::Result {
        write!(f, "{:?}", String::from_utf8_lossy(self.as_bytes()))
    }
}

/// A map that keeps the order of insertion.
#[derive(Debug, Clone)]
pub struct IndexMap<K, V> {
    entries: Vec<(K, V)>,
    places: HashMap<K, usize>,
}

impl<K: Hash + Eq + Clone, V> IndexMap<K, V> {
    pub fn new() -> Self {
        IndexMap {
            entries: Vec::new(),
            places: HashMap::new(),
        }
    }

    pub fn insert(&mut self, key: K, value: V) {
        match self.places.entry(key.clone()) {
            Entry::Occupied(at) => self.entries[*at.get()].1 = value,
            Entry::Vacant(free) => {
                free.insert(self.entries.len());
                self.entries.push((key, value));
            }
        }
    }

    pub fn get(&self, key: &K) -> Option<&V> {
        self.places.get(key).map(|&at| &self.entries[at].1)
    }

    pub fn iter(&self) -> impl Iterator<Item = (&K, &V)> {
        self.entries.iter().map(|(k, v)| (k, v))
    }

    pub fn len(&self) -> usize {
        self.entries.len()
    }

    pub fn is_empty(&self) -> bool {
        self.entries.is_empty()
    }
}

impl<K: Hash + Eq + Clone, V> Default for IndexMap<K, V> {
    fn default() -> Self {
        Self::new()
    }
}

/// A place in a source text; always 0 here (RULES 1.2).
#[derive(Debug, Clone, Copy, PartialEq, Eq)]
pub struct TextSize(u32);

impl TextSize {
    pub fn new(at: u32) -> Self {
        TextSize(at)
    }
}

/// A span of a source text; always empty here.
#[derive(Debug, Clone, Copy, PartialEq, Eq)]
pub struct TextRange(TextSize);

impl TextRange {
    pub fn empty(at: TextSize) -> Self {
        TextRange(at)
    }
}

/// The codes that `infer.rs` gives.
#[derive(Debug, Clone, Copy, PartialEq, Eq)]
pub enum DiagCode {
    E2009,
    E2010,
    E2011,
    E2012,
    E2013,
    E5012,
}

/// A diagnostic as `infer.rs` makes it.
#[derive(Debug, Clone)]
pub struct Diagnostic {
    pub code: DiagCode,
    pub span: TextRange,
    pub message: String,
}

impl Diagnostic {
    pub fn error(code: DiagCode, span: TextRange, message: String) -> Self {
        Diagnostic {
            code,
            span,
            message,
        }
    }
}

/// Diagnostics in push order.
#[derive(Debug, Default)]
pub struct DiagnosticsSink(pub Vec<Diagnostic>);

impl DiagnosticsSink {
    pub fn push(&mut self, diagnostic: Diagnostic) {
        self.0.push(diagnostic);
    }
}
