//! What is told of each line by itself: its number, its command, and whether it was refused.

use super::answers::{text, Answer};
use super::course::Course;
use super::element::Element;
use super::layout::{Commands, Layout, REFUSED};
use super::rows::label;

/// From the top of a line of text to what its letters stand on.
const LETTERS: usize = 10;
/// From the middle of a column to what upright letters stand on.
const LETTERS_UPRIGHT: usize = 3;

/// Lines from the first row down to the numbers.
pub fn grid(layout: &Layout) -> Element {
    let (top, bottom) = (layout.row(0), layout.refused() + REFUSED + 6);
    let line = |x| {
        let line = Element::of_class("path", "grid");
        line.with("d", format_args!("M{x} {top}V{bottom}"))
    };
    let xs = layout.numbered().map(|line| layout.middle(line));
    Element::new("g").children(xs.map(line))
}

pub fn refused(course: &Course, layout: &Layout) -> Element {
    let top = layout.refused();
    let mark = |(line, answer): (usize, &Answer)| {
        self::mark(layout.middle(line), top).hint(text(line, answer))
    };
    Element::new("g")
        .child(label(top + REFUSED, "refused"))
        .children(course.refused().map(mark))
}

/// The mark of a refused line.
pub fn mark(middle: usize, top: usize) -> Element {
    Element::of_class("rect", "refused").at(middle - 1, top, 3, REFUSED)
}

pub fn numbers(layout: &Layout) -> Element {
    let y = layout.numbers();
    let number = |line| {
        let number = Element::of_class("text", "number").with("x", layout.middle(line));
        number.with("y", y).saying(line)
    };
    Element::new("g")
        .child(label(y, "line"))
        .children(layout.numbered().map(number))
}

/// The commands, where there is room for them.
pub fn commands(course: &Course, layout: &Layout) -> Option<Element> {
    let (top, setting) = (layout.commands_top(), layout.commands());
    if setting == Commands::Omitted {
        return None;
    }
    let command = |(line, answer): (usize, &Answer)| {
        let text = Element::of_class("text", class(answer)).saying(words(answer));
        match setting {
            Commands::Upright => upright(text, layout.middle(line), top),
            _ => level(text, layout.middle(line), top),
        }
    };
    let commands = Element::new("g").child(label(top + LETTERS, "command"));
    Some(commands.children(course.answers().map(command)))
}

fn class(answer: &Answer) -> &'static str {
    match answer.number {
        0 => "command",
        _ => "command no",
    }
}

fn words(answer: &Answer) -> String {
    answer.command.map_or("?".to_string(), |c| c.to_string())
}

/// From bottom to top, with its end at the top.
fn upright(text: Element, middle: usize, top: usize) -> Element {
    let x = middle + LETTERS_UPRIGHT;
    text.with("text-anchor", "end").with(
        "transform",
        format_args!("translate({x} {top}) rotate(-90)"),
    )
}

fn level(text: Element, middle: usize, top: usize) -> Element {
    let text = text.with("text-anchor", "middle");
    text.with("x", middle).with("y", top + LETTERS)
}
