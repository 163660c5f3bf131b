//! What is seen in a picture, from where its shapes stand: columns by the band under post 0, rows
//! by the words beside them, the strip by its two lines.

use crate::xml::Node;

#[derive(Clone, Copy, Debug, PartialEq, Eq)]
pub enum Shown {
    Nothing,
    Waiting,
    Holding,
}

#[derive(Debug, PartialEq, Eq)]
pub struct Seen {
    /// For each line, what each post's row shows.
    pub rows: Vec<Vec<Shown>>,
    /// How many hold by the strip, for each line.
    pub holding: Vec<usize>,
    /// Line and post.
    pub grants: Vec<(usize, usize)>,
    pub heard: Vec<(usize, usize)>,
    pub refused: Vec<usize>,
}

pub fn seen(picture: &Node, lines: usize, places: usize) -> Seen {
    let page = Page::of(picture, lines);
    let mut rows = vec![vec![Shown::Nothing; page.rows.len()]; lines];
    let in_rows = |class| shapes(picture, "row", class);
    for (class, shown) in [("waiting", Shown::Waiting), ("holding", Shown::Holding)] {
        for bar in in_rows(class) {
            let post = page.post(middle_of(bar));
            for line in page.lines_of(bar) {
                assert_eq!(
                    rows[line - 1][post],
                    Shown::Nothing,
                    "two bars in one place"
                );
                rows[line - 1][post] = shown;
            }
        }
    }
    let marks = |class| {
        let place = |mark| (page.line(corner(mark).0), page.post(corner(mark).1));
        sorted(in_rows(class).into_iter().map(place).collect())
    };
    let refused = picture.of_class("rect", "refused").into_iter().skip(1);
    Seen {
        rows,
        holding: holding(picture, &page, lines, places),
        grants: marks("grant"),
        heard: marks("heard"),
        refused: refused.map(|mark| page.line(mark.number("x"))).collect(),
    }
}

/// The commands that are written: line, whether it was done, words.
pub fn commands(picture: &Node, lines: usize) -> Vec<(usize, bool, String)> {
    let page = Page::of(picture, lines);
    let x = |text: &Node| match text.attribute("transform") {
        Some(transform) => {
            let place = transform.strip_prefix("translate(").unwrap();
            place.split_once(' ').unwrap().0.parse().unwrap()
        }
        None => text.number("x"),
    };
    let command = |text: &Node| (page.line(x(text)), !text.has_class("no"), text.text.clone());
    let texts = picture.of_class("text", "command");
    texts.into_iter().map(command).collect()
}

fn sorted<T: Ord>(mut items: Vec<T>) -> Vec<T> {
    items.sort();
    items
}

/// The shapes of this class in the groups of another.
fn shapes<'a>(picture: &'a Node, group: &'a str, class: &'a str) -> Vec<&'a Node> {
    let groups = picture.of_class("g", group);
    let within = groups.into_iter().flat_map(Node::all);
    within.filter(|node| node.has_class(class)).collect()
}

fn holding(picture: &Node, page: &Page, lines: usize, places: usize) -> Vec<usize> {
    let height = |class| corner(shapes(picture, "strip", class)[0]).1;
    let (base, top) = (height("base"), height("places"));
    let unit = (base - top) / places;
    assert_eq!(unit * places, base - top);
    let mut holding = vec![0; lines];
    for (class, bottom) in [("holding", base), ("over", top)] {
        for bar in shapes(picture, "strip", class) {
            assert_eq!(bar.number("y") + bar.number("height"), bottom);
            assert_eq!(bar.number("height") % unit, 0);
            for line in page.lines_of(bar) {
                holding[line - 1] += bar.number("height") / unit;
            }
        }
    }
    holding
}

struct Page {
    left: usize,
    column: usize,
    /// The middle of the words beside each row.
    rows: Vec<usize>,
}

impl Page {
    fn of(picture: &Node, lines: usize) -> Page {
        let band = picture.of_class("rect", "band")[0];
        let column = band.number("width") / lines.max(1);
        assert_eq!(column * lines.max(1), band.number("width"));
        let labels = shapes(picture, "row", "label");
        for (post, label) in labels.iter().enumerate() {
            assert_eq!(label.text, format!("post {post}"));
        }
        Page {
            left: band.number("x"),
            column,
            rows: labels.iter().map(|label| label.number("y") - 5).collect(),
        }
    }

    /// The line in whose column this is.
    fn line(&self, x: usize) -> usize {
        (x - self.left) / self.column + 1
    }

    fn lines_of(&self, bar: &Node) -> std::ops::RangeInclusive<usize> {
        let (x, width) = (bar.number("x") - self.left, bar.number("width"));
        assert_eq!((x % self.column, width % self.column), (0, 0));
        x / self.column + 1..=(x + width) / self.column
    }

    /// The post whose row is nearest.
    fn post(&self, y: usize) -> usize {
        let far = |post: &usize| self.rows[*post].abs_diff(y);
        (0..self.rows.len())
            .min_by_key(far)
            .expect("there is a row")
    }
}

fn middle_of(bar: &Node) -> usize {
    bar.number("y") + bar.number("height") / 2
}

/// The corner of a rectangle, or where a path begins or, if it is a mark, points.
fn corner(node: &Node) -> (usize, usize) {
    let Some(path) = node.attribute("d") else {
        return (node.number("x"), node.number("y"));
    };
    let end = path.split_once('L').map_or(&path[1..], |(_, end)| end);
    let numbers = end.split(|c: char| !c.is_ascii_digit()).map(str::parse);
    let numbers: Vec<usize> = numbers.map_while(Result::ok).collect();
    (numbers[0], numbers[1])
}
