//! A picture of a night as SVG, drawn from what its input and its output say. No post is run for it,
//! so it shows what was answered, right or wrong.

mod answers;
mod axis;
mod course;
mod element;
mod layout;
mod legend;
mod misfit;
mod picture;
mod rows;
mod strip;

use course::Course;
pub use misfit::{Misfit, Side};

/// The picture of the night under this name.
pub fn draw(name: &str, input: &[u8], output: &[u8]) -> Result<String, Misfit> {
    let course = Course::read(input, output)?;
    Ok(format!("{}\n", picture::picture(name, &course)))
}
