//! The feeder post a second time: every message a post sent or accepted is kept, sorted by stamp,
//! and whatever is asked is worked out from that list. "01" in the comments is the scope document.

// Messages, frames and posts.
pub mod frame;
pub mod message;
pub mod queue;
pub mod refusal;

// The bench, and pictures of its nights.
pub mod bench;
pub mod draw;
pub mod feeder;
pub mod lines;

// Random runs that are checked, random nights, and what is random in both.
pub mod checker;
pub mod nights;
pub mod random;
