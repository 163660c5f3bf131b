//! What the runs of one seed came to.

use std::fmt;

#[derive(Default)]
pub struct Summary {
    pub runs: u64,
    pub calls: u64,
    /// How often each number came up, 0 for calls that were done.
    pub numbers: [u64; 15],
    pub grants: u64,
    /// How often all that was sent had been accepted by all.
    pub rests: u64,
    /// The longest list a post had.
    pub longest: usize,
}

impl Summary {
    /// One more call, with the number it gave.
    pub fn count(&mut self, number: u8) {
        self.calls += 1;
        self.numbers[usize::from(number)] += 1;
    }
}

impl fmt::Display for Summary {
    fn fmt(&self, f: &mut fmt::Formatter) -> fmt::Result {
        write!(
            f,
            "calls {} runs {} grants {} rests {} longest {} done {} refused",
            self.calls, self.runs, self.grants, self.rests, self.longest, self.numbers[0]
        )?;
        for (number, times) in self.numbers.iter().enumerate().skip(1) {
            write!(f, " {number}:{times}")?;
        }
        Ok(())
    }
}
