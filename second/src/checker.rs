//! The checker of random runs: every answer of a post is held against 01, and demand 3 is tested
//! after every step.

mod demand;
mod hearing;
mod one_call;
mod runs;
mod stray;
mod summary;
mod table;
mod watched;

pub use runs::check;
pub use summary::Summary;

type Check = Result<(), String>;

/// Says what is wrong unless it holds.
fn ensure(holds: bool, what: impl FnOnce() -> String) -> Check {
    if holds {
        Ok(())
    } else {
        Err(what())
    }
}
