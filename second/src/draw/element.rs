//! Elements of an SVG text: tags are closed, attributes quoted and text escaped by how they are
//! made.

use std::fmt::{self, Display, Formatter, Write};

pub struct Element {
    name: &'static str,
    attributes: Vec<(&'static str, String)>,
    text: String,
    children: Vec<Element>,
}

impl Element {
    pub fn new(name: &'static str) -> Element {
        Element {
            name,
            attributes: Vec::new(),
            text: String::new(),
            children: Vec::new(),
        }
    }

    pub fn of_class(name: &'static str, class: &str) -> Element {
        Element::new(name).with("class", class)
    }

    pub fn with(mut self, attribute: &'static str, value: impl Display) -> Element {
        self.attributes.push((attribute, value.to_string()));
        self
    }

    /// The corner, width and height of a rectangle, or of the page.
    pub fn at(self, x: usize, y: usize, width: usize, height: usize) -> Element {
        let corner = self.with("x", x).with("y", y);
        corner.with("width", width).with("height", height)
    }

    pub fn saying(mut self, text: impl Display) -> Element {
        self.text = text.to_string();
        self
    }

    /// What a viewer shows for a part when it is pointed at.
    pub fn hint(self, text: impl Display) -> Element {
        self.child(Element::new("title").saying(text))
    }

    pub fn child(mut self, child: Element) -> Element {
        self.children.push(child);
        self
    }

    pub fn children(mut self, children: impl IntoIterator<Item = Element>) -> Element {
        self.children.extend(children);
        self
    }

    fn write(&self, f: &mut Formatter, indent: usize) -> fmt::Result {
        write!(f, "{:indent$}<{}", "", self.name)?;
        for (name, value) in &self.attributes {
            write!(f, " {name}=\"{}\"", Escaped(value))?;
        }
        if self.text.is_empty() && self.children.is_empty() {
            return write!(f, "/>");
        }
        write!(f, ">{}", Escaped(&self.text))?;
        for child in &self.children {
            writeln!(f)?;
            child.write(f, indent + 1)?;
        }
        if !self.children.is_empty() {
            write!(f, "\n{:indent$}", "")?;
        }
        write!(f, "</{}>", self.name)
    }
}

impl Display for Element {
    fn fmt(&self, f: &mut Formatter) -> fmt::Result {
        self.write(f, 0)
    }
}

/// Text as it may stand between tags and in quotes.
struct Escaped<'a>(&'a str);

impl Display for Escaped<'_> {
    fn fmt(&self, f: &mut Formatter) -> fmt::Result {
        self.0.chars().try_for_each(|c| match c {
            '&' => f.write_str("&amp;"),
            '<' => f.write_str("&lt;"),
            '>' => f.write_str("&gt;"),
            '"' => f.write_str("&quot;"),
            '\n' => f.write_char(c),
            // XML has no way to write some of these, and reads others as blanks.
            '\0'..='\x1f' | '\u{fffe}' | '\u{ffff}' => f.write_char('\u{fffd}'),
            c => f.write_char(c),
        })
    }
}
