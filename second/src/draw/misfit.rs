//! What is wrong where an input and an output do not fit.

/// The file that is told to be wrong.
#[derive(Clone, Copy, Debug, PartialEq, Eq)]
pub enum Side {
    Input,
    Output,
}

#[derive(Clone, Debug, PartialEq, Eq)]
pub struct Misfit {
    pub side: Side,
    /// The line of that file, from 1. The output's answer to line n of a night is its line n; the
    /// input's line 1 is the header.
    pub line: usize,
    pub what: String,
}

impl Misfit {
    pub fn expected(side: Side, line: usize, expected: &str, found: Option<&str>) -> Misfit {
        let found = found.map_or("the end of the file".to_string(), quoted);
        Misfit {
            side,
            line,
            what: format!("expected {expected}, found {found}"),
        }
    }
}

/// Longer lines are told by their beginning.
const MOST_QUOTED: usize = 40;

pub fn quoted(line: &str) -> String {
    match line.char_indices().nth(MOST_QUOTED) {
        Some((end, _)) => format!("{:?} and more", &line[..end]),
        None => format!("{line:?}"),
    }
}
