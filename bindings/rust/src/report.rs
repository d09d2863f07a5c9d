//! The report of a sheet.

/// A sheet's report: for each top expression the faults found in it and then its type, and two counts at the end.
///
/// ```
/// let sheet = b"cyrs,1\nret,0,1\npro,-\nbin,0\nint,1\nbool,1\nend\n";
/// let report = cyrs::infer_types(sheet)?;
/// assert_eq!(report.text(), b"F,2009,Bool\nT,P,\nend,1,1\n");
/// assert_eq!(report.faults().collect::<Vec<_>>(), [b"2009,Bool"]);
/// assert_eq!(report.types().collect::<Vec<_>>(), [b"P,"]);
/// assert_eq!((report.type_count(), report.fault_count()), (1, 1));
/// # Ok::<(), cyrs::Refusal>(())
/// ```
#[derive(Debug, Clone, PartialEq, Eq, Hash)]
pub struct Report {
    text: Vec<u8>,
}

impl Report {
    /// The report that the library wrote.
    pub(crate) fn of(text: Vec<u8>) -> Self {
        Report { text }
    }

    /// The whole text, each line with its LF.
    pub fn text(&self) -> &[u8] {
        &self.text
    }

    /// The whole text, given away.
    pub fn into_text(self) -> Vec<u8> {
        self.text
    }

    /// The lines in order, without LF: `F,` for a fault, `T,` for a type, and last `end,` with both counts.
    pub fn lines(&self) -> impl DoubleEndedIterator<Item = &[u8]> + Clone {
        let inner = self.text.strip_suffix(b"\n").unwrap_or(&self.text);
        inner.split(|&byte| byte == b'\n')
    }

    /// The type lines in the order of the top expressions, without `T,`.
    pub fn types(&self) -> impl DoubleEndedIterator<Item = &[u8]> + Clone {
        self.lines().filter_map(|line| line.strip_prefix(b"T,"))
    }

    /// The faults in order, without `F,`: the code, and what was found and expected, with commas between.
    pub fn faults(&self) -> impl DoubleEndedIterator<Item = &[u8]> + Clone {
        self.lines().filter_map(|line| line.strip_prefix(b"F,"))
    }

    /// How many types there are, by the last line.
    pub fn type_count(&self) -> u64 {
        self.count(1)
    }

    /// How many faults there are, by the last line.
    pub fn fault_count(&self) -> u64 {
        self.count(2)
    }

    /// A field of the last line as a number.
    fn count(&self, field: usize) -> u64 {
        let last = self.lines().next_back().unwrap_or_default();
        let digits = last.split(|&byte| byte == b',').nth(field);
        let add = |sum, digit: &u8| 10 * sum + u64::from(digit - b'0');
        digits.unwrap_or_default().iter().fold(0, add)
    }
}
