//! A small strict reader of XML, as much of it as the pictures use: one element around all, tags
//! balanced, attributes quoted and no two alike, what has to be escaped escaped.

#[derive(Debug)]
pub struct Node {
    pub name: String,
    pub attributes: Vec<(String, String)>,
    pub text: String,
    pub children: Vec<Node>,
}

impl Node {
    pub fn attribute(&self, name: &str) -> Option<&str> {
        let mut attributes = self.attributes.iter();
        attributes.find(|(n, _)| n == name).map(|(_, v)| v.as_str())
    }

    pub fn has_class(&self, class: &str) -> bool {
        let classes = self.attribute("class").unwrap_or_default();
        classes.split(' ').any(|c| c == class)
    }

    pub fn number(&self, name: &str) -> usize {
        let value = self.attribute(name).unwrap_or_default();
        let number = value.parse();
        number.unwrap_or_else(|_| panic!("{} {name}={value:?}", self.name))
    }

    /// This node and all within it.
    pub fn all(&self) -> Vec<&Node> {
        let within = self.children.iter().flat_map(Node::all);
        std::iter::once(self).chain(within).collect()
    }

    pub fn of_class<'a>(&'a self, name: &'a str, class: &'a str) -> Vec<&'a Node> {
        let is_one = |node: &&Node| node.name == name && node.has_class(class);
        self.all().into_iter().filter(is_one).collect()
    }
}

pub fn read(text: &str) -> Result<Node, String> {
    let mut reader = Reader { rest: text };
    let node = reader.element()?;
    match reader.rest {
        "\n" => Ok(node),
        rest => Err(format!("after the last tag: {rest:?}")),
    }
}

struct Reader<'a> {
    rest: &'a str,
}

impl<'a> Reader<'a> {
    fn element(&mut self) -> Result<Node, String> {
        self.expect("<")?;
        let mut node = Node {
            name: self.name()?,
            attributes: Vec::new(),
            text: String::new(),
            children: Vec::new(),
        };
        while self.skip(" ") {
            let (name, value) = self.attribute()?;
            if node.attribute(&name).is_some() {
                return Err(format!("{name} twice"));
            }
            node.attributes.push((name, value));
        }
        if !self.skip("/>") {
            self.expect(">")?;
            self.inside(&mut node)?;
        }
        Ok(node)
    }

    fn inside(&mut self, node: &mut Node) -> Result<(), String> {
        loop {
            let text = self.until('<');
            node.text += &unescaped(text)?;
            if self.skip("</") {
                self.expect(&node.name)?;
                return self.expect(">");
            }
            node.children.push(self.element()?);
        }
    }

    fn attribute(&mut self) -> Result<(String, String), String> {
        let name = self.name()?;
        self.expect("=\"")?;
        let value = unescaped(self.until('"'))?;
        self.expect("\"")?;
        Ok((name, value))
    }

    fn name(&mut self) -> Result<String, String> {
        let is_of_name = |c: char| c.is_ascii_alphanumeric() || c == '-';
        let end = self.rest.find(|c| !is_of_name(c));
        let (name, rest) = self.rest.split_at(end.unwrap_or(self.rest.len()));
        if !name.starts_with(|c: char| c.is_ascii_alphabetic()) {
            return Err(format!("no name: {:?}", self.beginning()));
        }
        self.rest = rest;
        Ok(name.to_string())
    }

    fn until(&mut self, end: char) -> &'a str {
        let (text, rest) = self
            .rest
            .split_at(self.rest.find(end).unwrap_or(self.rest.len()));
        self.rest = rest;
        text
    }

    fn skip(&mut self, text: &str) -> bool {
        match self.rest.strip_prefix(text) {
            Some(rest) => {
                self.rest = rest;
                true
            }
            None => false,
        }
    }

    fn expect(&mut self, text: &str) -> Result<(), String> {
        match self.skip(text) {
            true => Ok(()),
            false => Err(format!("{text:?} is missing: {:?}", self.beginning())),
        }
    }

    fn beginning(&self) -> String {
        self.rest.chars().take(30).collect()
    }
}

const ENTITIES: [(&str, char); 4] = [("amp;", '&'), ("lt;", '<'), ("gt;", '>'), ("quot;", '"')];

fn unescaped(mut text: &str) -> Result<String, String> {
    let mut plain = String::new();
    while let Some(c) = text.chars().next() {
        text = &text[c.len_utf8()..];
        if c == '&' {
            let found = ENTITIES.iter().find(|(name, _)| text.starts_with(name));
            let (name, meant) = found.ok_or_else(|| format!("no entity: &{text:?}"))?;
            text = &text[name.len()..];
            plain.push(*meant);
        } else if "<>\"".contains(c) || (c.is_control() && c != '\n') {
            return Err(format!("{c:?} is not escaped"));
        } else {
            plain.push(c);
        }
    }
    Ok(plain)
}

#[test]
fn good_texts_are_read() {
    let node =
        read("<a b=\"1 &lt; &quot;2&quot;\" c-d=\"\">x &amp; y<e/>\n<f>z</f></a>\n").unwrap();
    assert_eq!(node.attribute("b"), Some("1 < \"2\""));
    assert_eq!(node.attribute("c-d"), Some(""));
    assert_eq!(node.text, "x & y\n");
    let names: Vec<&str> = node.all().iter().map(|n| n.name.as_str()).collect();
    assert_eq!(names, ["a", "e", "f"]);
}

#[test]
fn bad_texts_are_refused() {
    for bad in [
        "",
        "\n",
        "a\n",
        "<a>\n",
        "<a\n",
        "<a/>",
        "<a/>x\n",
        "<a/><a/>\n",
        "<a></b>\n",
        "<a><b></a></b>\n",
        "<a><b></a>\n",
        "</a>\n",
        "<1/>\n",
        "<a b/>\n",
        "<a b=1/>\n",
        "<a b='1'/>\n",
        "<a b=\"1/>\n",
        "<a b=\"1\"c=\"2\"/>\n",
        "<a b=\"1\" b=\"2\"/>\n",
        "<a b=\"<\"/>\n",
        "<a b=\"&\"/>\n",
        "<a>&</a>\n",
        "<a>&nbsp;</a>\n",
        "<a>></a>\n",
        "<a>\"</a>\n",
        "<a>\x01</a>\n",
        "<a>\r</a>\n",
    ] {
        assert!(read(bad).is_err(), "{bad:?}");
    }
}
