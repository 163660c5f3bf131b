//! The whole picture.

use super::course::{Course, State};
use super::element::Element;
use super::layout::{Layout, MARGIN};
use super::{axis, legend, rows, strip};

/// The paper has its own colour, so that the picture is the same in light and in dark viewers. What
/// differs in colour differs in shape too.
const STYLE: &str = "
  text { font-family: sans-serif; font-size: 13px; fill: #1d2733 }
  .paper { fill: #ffffff }
  .name { font-size: 20px; font-weight: bold }
  .summary, .legend text { fill: #465364 }
  .label { text-anchor: end }
  .number { text-anchor: middle; font-size: 12px; fill: #465364 }
  .command { font-family: monospace; font-size: 10px; fill: #465364 }
  .command.no { fill: #b3261e }
  .band { fill: #f1f4f7 }
  .grid { stroke: #dbe1e8 }
  .base { stroke: #8794a5 }
  .waiting { fill: #e09f1f }
  .holding { fill: #1c6e8c }
  .grant { fill: #1d2733 }
  .heard { fill: #6b7a8d }
  .over, .refused { fill: #b3261e }
  .places { stroke: #1d2733; stroke-width: 1.5; stroke-dasharray: 5 3 }
";
const MOST_OF_A_NAME: usize = 48;

pub fn picture(name: &str, course: &Course) -> Element {
    let layout = Layout::of(course);
    let (width, height) = (layout.width(), layout.height());
    let name = shortened(name);
    Element::new("svg")
        .with("xmlns", "http://www.w3.org/2000/svg")
        .with("width", width)
        .with("height", height)
        .with("viewBox", format_args!("0 0 {width} {height}"))
        .with("role", "img")
        .with("aria-labelledby", "title desc")
        .child(Element::new("title").with("id", "title").saying(&name))
        .child(Element::new("desc").with("id", "desc").saying(told(course)))
        .child(Element::new("style").saying(STYLE))
        .child(Element::of_class("rect", "paper").at(0, 0, width, height))
        .child(line_of_text("name", 38, &name))
        .child(line_of_text("summary", 60, &summary(course)))
        .child(legend::legend())
        .child(rows::bands(course, &layout))
        .child(axis::grid(&layout))
        .children((0..course.posts()).map(|post| rows::row(course, &layout, post)))
        .child(strip::strip(course, &layout))
        .child(axis::refused(course, &layout))
        .child(axis::numbers(&layout))
        .children(axis::commands(course, &layout))
}

fn line_of_text(class: &str, y: usize, text: &str) -> Element {
    let element = Element::of_class("text", class);
    element.with("x", MARGIN).with("y", y).saying(text)
}

fn shortened(name: &str) -> String {
    match name.char_indices().nth(MOST_OF_A_NAME) {
        Some((end, _)) => format!("{}…", &name[..end]),
        None => name.to_string(),
    }
}

fn summary(course: &Course) -> String {
    format!(
        "{}, {}, {}: {}, {} refused; at the end {} holding and {} waiting",
        counted(usize::from(course.posts()), "post"),
        counted(course.places(), "place"),
        counted(course.lines(), "line"),
        counted(course.grants().count(), "grant"),
        counted(course.refused().count(), "line"),
        course.at_the_end(State::Holding),
        course.at_the_end(State::Waiting),
    )
}

/// The picture in words.
fn told(course: &Course) -> String {
    let mut told = format!(
        "{}. At most {} holding at once.",
        summary(course),
        course.most_holding()
    );
    for post in 0..course.posts() {
        let stretches = course.states_of(post);
        let stretches: Vec<String> = stretches.iter().filter_map(rows::in_words).collect();
        if !stretches.is_empty() {
            told += &format!(" Post {post} {}.", stretches.join(", "));
        }
    }
    told
}

pub fn counted(count: usize, what: &str) -> String {
    let ending = if count == 1 { "" } else { "s" };
    format!("{count} {what}{ending}")
}
