//! The strip below the rows: how many hold after each line, against the places.

use super::course::{Course, Stretch};
use super::element::Element;
use super::layout::{Layout, LEFT};
use super::picture::counted;
use super::rows::label;

/// Text stands this far below the middle of its letters.
const HALF_LETTER: usize = 4;
const TITLE_ABOVE: usize = 10;
const LINE_OF_TEXT: usize = 16;

pub fn strip(course: &Course, layout: &Layout) -> Element {
    let places = course.places();
    let title = Element::of_class("text", "summary")
        .with("x", LEFT)
        .with("y", layout.strip_top() - TITLE_ABOVE)
        .saying("how many hold");
    Element::of_class("g", "strip")
        .child(title)
        .children(
            course
                .holding()
                .iter()
                .flat_map(|s| bars(layout, places, s)),
        )
        .child(across(layout, layout.strip(0), "base"))
        .child(across(layout, layout.strip(places), "places"))
        .children(labels(layout, places))
}

/// The places, and nothing holding where that leaves room for it.
fn labels(layout: &Layout, places: usize) -> Vec<Element> {
    let at = |holding| layout.strip(holding) + HALF_LETTER;
    let mut labels = vec![label(at(places), counted(places, "place"))];
    if at(0) - at(places) >= LINE_OF_TEXT {
        labels.push(label(at(0), 0));
    }
    labels
}

/// Those within the places, and those beyond.
fn bars(layout: &Layout, places: usize, stretch: &Stretch<usize>) -> Vec<Element> {
    let within = bar(layout, "holding", stretch, 0, stretch.of.min(places));
    let beyond = bar(layout, "over", stretch, places, stretch.of);
    within.into_iter().chain(beyond).collect()
}

fn bar(
    layout: &Layout,
    class: &str,
    stretch: &Stretch<usize>,
    above: usize,
    up_to: usize,
) -> Option<Element> {
    let x = layout.x(stretch.first);
    let width = layout.across(stretch.first, stretch.last);
    let is_there = up_to > above;
    is_there.then(|| {
        let height = (up_to - above) * layout.unit;
        Element::of_class("rect", class).at(x, layout.strip(up_to), width, height)
    })
}

fn across(layout: &Layout, y: usize, class: &str) -> Element {
    Element::of_class("path", class).with("d", format_args!("M{LEFT} {y}h{}", layout.plot_width()))
}
