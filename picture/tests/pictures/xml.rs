//! A small reader of XML, as strict as the pictures need: elements, attributes, texts, the four
//! entities that pictures use. Whatever is not well formed gives an error.

/// An element, with the texts directly inside it joined.
#[derive(Clone, Debug, PartialEq)]
pub struct Node {
    pub tag: String,
    pub attributes: Vec<(String, String)>,
    pub text: String,
    pub children: Vec<Node>,
}

impl Node {
    /// An attribute's value; none is the empty text.
    pub fn get(&self, name: &str) -> &str {
        let found = self.attributes.iter().find(|(other, _)| other == name);
        found.map_or("", |(_, value)| value)
    }

    /// An attribute that must be a number.
    pub fn number(&self, name: &str) -> f64 {
        self.get(name).parse().unwrap_or_else(|_| panic!("{name} of {} is no number", self.tag))
    }

    /// The element and all elements inside it, in order.
    pub fn all(&self) -> Vec<&Node> {
        let inside = self.children.iter().flat_map(Node::all);
        [self].into_iter().chain(inside).collect()
    }

    /// Those of them with a tag.
    pub fn tagged(&self, tag: &str) -> Vec<&Node> {
        self.all().into_iter().filter(|node| node.tag == tag).collect()
    }

    /// Those of them with a class.
    pub fn classed(&self, class: &str) -> Vec<&Node> {
        self.all().into_iter().filter(|node| node.get("class") == class).collect()
    }

    /// The texts of those with a tag.
    pub fn texts(&self, tag: &str) -> Vec<&str> {
        self.tagged(tag).into_iter().map(|node| node.text.as_str()).collect()
    }
}

/// The one element that a text is.
pub fn read(text: &str) -> Result<Node, String> {
    let mut rest = text;
    let node = element(&mut rest)?;
    match rest.trim().is_empty() {
        true => Ok(node),
        false => Err(format!("something follows: {:.40}", rest)),
    }
}

/// Takes an expected text away from the front.
fn expect(rest: &mut &str, expected: &str) -> Result<(), String> {
    *rest = rest.strip_prefix(expected).ok_or(format!("no {expected:?} before {:.40}", rest))?;
    Ok(())
}

/// Takes what comes before the first of some characters, which must come.
fn take_until<'a>(rest: &mut &'a str, stops: &[char]) -> Result<&'a str, String> {
    let end = rest.find(stops).ok_or(format!("no end of {:.40}", rest))?;
    let taken = &rest[..end];
    *rest = &rest[end..];
    Ok(taken)
}

fn name(rest: &mut &str) -> Result<String, String> {
    let taken = take_until(rest, &[' ', '=', '/', '>', '<', '"', '\n'])?;
    let in_form = |c: char| c.is_ascii_alphanumeric() || c == '-';
    match !taken.is_empty() && taken.chars().all(in_form) {
        true => Ok(taken.to_string()),
        false => Err(format!("{taken:?} is no name")),
    }
}

fn element(rest: &mut &str) -> Result<Node, String> {
    expect(rest, "<")?;
    let tag = name(rest)?;
    let mut node =
        Node { tag, attributes: attributes(rest)?, text: String::new(), children: vec![] };
    if rest.starts_with("/>") {
        expect(rest, "/>")?;
        return Ok(node);
    }
    expect(rest, ">")?;
    loop {
        node.text += &unescaped(take_until(rest, &['<'])?)?;
        if rest.starts_with("</") {
            expect(rest, &format!("</{}>", node.tag))?;
            node.text = node.text.trim().to_string();
            return Ok(node);
        }
        node.children.push(element(rest)?);
    }
}

/// Attributes, each after one space and none twice.
fn attributes(rest: &mut &str) -> Result<Vec<(String, String)>, String> {
    let mut attributes: Vec<(String, String)> = Vec::new();
    while rest.starts_with(' ') {
        expect(rest, " ")?;
        let name = name(rest)?;
        expect(rest, "=\"")?;
        let value = unescaped(take_until(rest, &['"', '<'])?)?;
        expect(rest, "\"")?;
        if attributes.iter().any(|(other, _)| *other == name) {
            return Err(format!("{name} twice"));
        }
        attributes.push((name, value));
    }
    Ok(attributes)
}

/// A text without entities; no other ampersand and no control character but line ends may be in it.
fn unescaped(text: &str) -> Result<String, String> {
    if text.chars().any(|c| c.is_control() && c != '\n') {
        return Err(format!("a control character in {text:?}"));
    }
    let entities = [("&lt;", "<"), ("&gt;", ">"), ("&quot;", "\"")];
    let bare = entities.iter().fold(text.replace("&amp;", ""), |bare, (e, _)| bare.replace(e, ""));
    if bare.contains('&') {
        return Err(format!("an ampersand in {text:?}"));
    }
    let plain = entities.iter().fold(text.to_string(), |text, (e, plain)| text.replace(e, plain));
    Ok(plain.replace("&amp;", "&"))
}
