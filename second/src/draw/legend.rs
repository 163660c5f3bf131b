//! What the shapes mean.

use super::axis;
use super::element::Element;
use super::layout::{MARGIN, REFUSED};
use super::rows::{self, HOLDING, WAITING};

/// The top of the legend, as if it were a row.
const TOP: usize = 72;
const TEXT: usize = TOP + 20;
const SAMPLE: usize = 22;
/// The widest letters are hardly wider, and a little room is left over.
const LETTER: usize = 7;
const GAP: usize = 26;

pub fn legend() -> Element {
    let middle_of = |x: usize| x + SAMPLE / 2;
    let bar = |x, class, (down, height)| {
        Element::of_class("rect", class).at(x, TOP + down, SAMPLE, height)
    };
    let mut x = MARGIN;
    let mut legend = Element::of_class("g", "legend");
    let samples: [(&str, &dyn Fn(usize) -> Element); 6] = [
        ("waits", &|x| bar(x, "waiting", WAITING)),
        ("holds", &|x| bar(x, "holding", HOLDING)),
        ("is granted", &|x| rows::grant(middle_of(x), TOP + 9, 6)),
        ("hears a message", &|x| rows::tick(middle_of(x), TOP - 10)),
        ("line refused", &|x| {
            axis::mark(middle_of(x), TOP + 16 - REFUSED / 2)
        }),
        ("places", &|x| places(x)),
    ];
    for (text, sample) in samples {
        let words = Element::new("text")
            .with("x", x + SAMPLE + 6)
            .with("y", TEXT);
        legend = legend.child(sample(x)).child(words.saying(text));
        x += SAMPLE + 6 + text.len() * LETTER + GAP;
    }
    legend
}

fn places(x: usize) -> Element {
    Element::of_class("path", "places").with("d", format_args!("M{x} {}h{SAMPLE}", TOP + 15))
}
