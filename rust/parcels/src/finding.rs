//! What is found in a sheet: what is wrong with it, and what is only noted.

use std::fmt;

/// What is found at a line of a sheet, and of which parcel.
#[derive(Clone, Debug, PartialEq, Eq, PartialOrd, Ord)]
pub struct Finding {
    /// The line, from 1; none where it is the whole sheet's.
    pub line: Option<usize>,
    /// The parcel's name, where it has one.
    pub parcel: Option<String>,
    /// What is found.
    pub what: String,
}

impl Finding {
    /// What is found of a whole sheet.
    pub fn of_sheet(what: impl Into<String>) -> Finding {
        Finding {
            line: None,
            parcel: None,
            what: what.into(),
        }
    }

    /// What is found at a line that has no parcel.
    pub fn at(line: usize, what: impl Into<String>) -> Finding {
        Finding {
            line: Some(line),
            ..Finding::of_sheet(what)
        }
    }
}

/// The line, the parcel and what is found, to be put behind the file's name.
impl fmt::Display for Finding {
    fn fmt(&self, f: &mut fmt::Formatter) -> fmt::Result {
        if let Some(line) = self.line {
            write!(f, ":{line}")?;
        }
        if let Some(name) = &self.parcel {
            write!(f, ": {}", shown(name))?;
        }
        write!(f, ": {}", self.what)
    }
}

/// So many characters of a word are enough to find it.
const SHOWN: usize = 40;

/// The start of a word, as it is told.
pub(crate) fn shown(word: &str) -> String {
    word.chars().take(SHOWN).collect()
}

/// The first findings of a sheet, and whether there are more.
#[derive(Clone, Debug, Default, PartialEq, Eq)]
pub struct Findings {
    first: Vec<Finding>,
    more: bool,
}

impl Findings {
    /// So many are kept: who has mended them lifts the sheet again.
    pub const MOST: usize = 10;

    /// Adds one, where there is room.
    pub fn push(&mut self, finding: Finding) {
        self.push_with(|| finding);
    }

    /// Adds one that is made only where there is room.
    pub fn push_with(&mut self, finding: impl FnOnce() -> Finding) {
        if self.first.len() == Findings::MOST {
            self.more = true;
        } else {
            self.first.push(finding());
        }
    }

    /// Adds others, where there is room.
    pub fn extend(&mut self, others: Findings) {
        self.more |= others.more;
        others.first.into_iter().for_each(|one| self.push(one));
    }

    /// Whether nothing was found.
    pub fn is_empty(&self) -> bool {
        self.first.is_empty()
    }

    /// Those that are kept, by their lines, each behind the file's name.
    pub fn lines(&self, file: &str) -> Vec<String> {
        let mut first: Vec<&Finding> = self.first.iter().collect();
        // Those of one parcel stay as they were found.
        first.sort_by_key(|one| (one.line, &one.parcel));
        let mut lines: Vec<String> = first.iter().map(|one| format!("{file}{one}")).collect();
        if self.more {
            lines.push(format!("{file}: ten are told, and there are more"));
        }
        lines
    }
}

impl From<Finding> for Findings {
    fn from(finding: Finding) -> Findings {
        let mut findings = Findings::default();
        findings.push(finding);
        findings
    }
}

impl fmt::Display for Findings {
    fn fmt(&self, f: &mut fmt::Formatter) -> fmt::Result {
        f.write_str(&self.lines("sheet").join("\n"))
    }
}

impl std::error::Error for Findings {}
