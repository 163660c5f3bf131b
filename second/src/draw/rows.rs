//! The row of a post: its bars, its grants and what it heard.

use super::answers::Answer;
use super::course::{Course, State, Stretch};
use super::element::Element;
use super::layout::{Layout, LABELS_END, LEFT, ROW};
use crate::lines::Command;

/// From the top of a row: where the text stands, each sort of bar with its height, what was heard.
const TEXT: usize = 20;
pub const WAITING: (usize, usize) = (13, 5);
pub const HOLDING: (usize, usize) = (9, 13);
const HEARD: (usize, usize) = (24, 4);

pub fn row(course: &Course, layout: &Layout, post: u8) -> Element {
    let top = layout.row(usize::from(post));
    let own = |(_, a): &(usize, &Answer)| a.command.is_some_and(|c| c.post() == post);
    let heard = course.answers().filter(own).filter(|(_, a)| is_heard(a));
    let grants = course.grants().filter(own);
    let stretches = course.states_of(post);
    Element::of_class("g", "row")
        .child(label(top + TEXT, format_args!("post {post}")))
        .children(heard.map(|(line, _)| tick(layout.middle(line), top)))
        .children(stretches.iter().filter_map(|s| bar(layout, post, top, s)))
        .children(grants.map(|(line, _)| grant(layout.middle(line), top, layout.column)))
}

/// The words beside a row.
pub fn label(y: usize, text: impl std::fmt::Display) -> Element {
    let label = Element::of_class("text", "label");
    label.with("x", LABELS_END).with("y", y).saying(text)
}

/// What lies under every second row.
pub fn bands(course: &Course, layout: &Layout) -> Element {
    let tops = (0..usize::from(course.posts()))
        .step_by(2)
        .map(|post| layout.row(post));
    let band = |top| Element::of_class("rect", "band").at(LEFT, top, layout.plot_width(), ROW);
    Element::new("g").children(tops.map(band))
}

fn bar(layout: &Layout, post: u8, top: usize, stretch: &Stretch<State>) -> Option<Element> {
    let (class, (down, height)) = match stretch.of {
        State::Idle => return None,
        State::Waiting => ("waiting", WAITING),
        State::Holding => ("holding", HOLDING),
    };
    let x = layout.x(stretch.first);
    let width = layout.across(stretch.first, stretch.last);
    let bar = Element::of_class("rect", class).at(x, top + down, width, height);
    in_words(stretch).map(|words| bar.hint(format_args!("post {post} {words}")))
}

/// What a post does in a stretch of lines; nothing is said of an idle one.
pub fn in_words(stretch: &Stretch<State>) -> Option<String> {
    let does = match stretch.of {
        State::Idle => return None,
        State::Waiting => "waits",
        State::Holding => "holds",
    };
    let Stretch { first, last, .. } = stretch;
    Some(if first == last {
        format!("{does} at line {first}")
    } else {
        format!("{does} from line {first} to line {last}")
    })
}

/// A message was accepted by the post of this row.
fn is_heard(answer: &Answer) -> bool {
    matches!(answer.command, Some(Command::Deliver(..))) && answer.number == 0
}

/// The tick of a message heard.
pub fn tick(middle: usize, top: usize) -> Element {
    Element::of_class("rect", "heard").at(middle - 1, top + HEARD.0, 2, HEARD.1)
}

/// A triangle that points at the line's column from above.
pub fn grant(middle: usize, top: usize, column: usize) -> Element {
    let half = (column - 1).min(5);
    let (left, right) = (middle - half, middle + half);
    let (upper, lower) = (top + 1, top + 8);
    Element::of_class("path", "grant").with(
        "d",
        format_args!("M{left} {upper}H{right}L{middle} {lower}Z"),
    )
}
