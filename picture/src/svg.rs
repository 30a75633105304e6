//! Elements of an SVG text. Tags are closed and texts are escaped here and nowhere else.

use std::fmt::Display;

/// An element: its tag, its attributes, and either a text or other elements inside.
#[derive(Clone, Debug)]
pub struct Element {
    tag: &'static str,
    attributes: Vec<(&'static str, String)>,
    text: String,
    children: Vec<Element>,
}

impl Element {
    pub fn new(tag: &'static str) -> Element {
        Element { tag, attributes: Vec::new(), text: String::new(), children: Vec::new() }
    }

    /// A group of elements of one class.
    pub fn group(class: &'static str) -> Element {
        Element::new("g").with("class", class)
    }

    /// A text at a place.
    pub fn label(x: f64, y: f64, text: &str) -> Element {
        Element::new("text").at("x", x).at("y", y).saying(text)
    }

    pub fn with(mut self, name: &'static str, value: impl Display) -> Element {
        self.attributes.push((name, value.to_string()));
        self
    }

    /// An attribute that is a length or a place.
    pub fn at(self, name: &'static str, value: f64) -> Element {
        self.with(name, short(value))
    }

    /// Moves the element to the right and down.
    pub fn moved(self, right: f64, down: f64) -> Element {
        let place = format!("translate({} {})", short(right), short(down));
        self.with("transform", place)
    }

    pub fn saying(mut self, text: &str) -> Element {
        self.text = text.to_string();
        self
    }

    pub fn holding(mut self, children: impl IntoIterator<Item = Element>) -> Element {
        self.children.extend(children);
        self
    }

    /// The element as text, a line for each element inside.
    pub fn written(&self) -> String {
        let mut attributes = String::new();
        for (name, value) in &self.attributes {
            attributes += &format!(" {name}=\"{}\"", escaped(value));
        }
        let children: String = self.children.iter().map(Element::written).collect();
        let inside = escaped(&self.text) + if children.is_empty() { "" } else { "\n" } + &children;
        match inside.is_empty() {
            true => format!("<{}{attributes}/>\n", self.tag),
            false => format!("<{0}{attributes}>{inside}</{0}>\n", self.tag),
        }
    }
}

/// A length with one decimal at most, so that a picture is the same text everywhere.
pub fn short(length: f64) -> String {
    // Adding 0 makes 0 of a minus 0.
    format!("{}", (length * 10.0).round() / 10.0 + 0.0)
}

/// A text without the characters that have a meaning in XML, and without those that XML forbids.
fn escaped(text: &str) -> String {
    text.chars().map(escaped_character).collect()
}

fn escaped_character(character: char) -> String {
    match character {
        '&' => "&amp;".into(),
        '<' => "&lt;".into(),
        '>' => "&gt;".into(),
        '"' => "&quot;".into(),
        control if control.is_control() => "\u{fffd}".into(),
        other => other.into(),
    }
}
