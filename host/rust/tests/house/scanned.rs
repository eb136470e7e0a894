//! A picture's elements, scanned from its XML.

use std::collections::HashMap;

#[derive(Clone, Debug, Default)]
pub struct Element {
    pub name: String,
    pub attributes: HashMap<String, String>,
    pub text: String,
    /// The title of what it stands in.
    pub note: String,
}

impl Element {
    pub fn number(&self, attribute: &str) -> f64 {
        self.attributes[attribute].parse().expect(attribute)
    }
}

/// The elements in the order in which they end. Panics where the XML is not well formed.
pub fn scan(xml: &str) -> Vec<Element> {
    let (mut open, mut done) = (Vec::<Element>::new(), Vec::new());
    let mut rest = xml;
    while let Some((text, after)) = rest.split_once('<') {
        match open.last_mut() {
            Some(element) => element.text += &unescaped(text),
            None => assert_eq!(text, "", "text before the picture"),
        }
        let (tag, after) = after.split_once('>').expect("a tag ends");
        rest = after;
        if let Some(name) = tag.strip_prefix('/') {
            let element = open.pop().expect("a tag was opened");
            assert_eq!(element.name, name);
            close(element, &mut open, &mut done);
        } else if let Some(tag) = tag.strip_suffix('/') {
            close(opened(tag), &mut open, &mut done);
        } else {
            open.push(opened(tag));
        }
        assert!(!open.is_empty() || rest == "\n", "something follows the picture");
    }
    assert!(open.is_empty(), "a tag is left open");
    done
}

/// An element ends: a title is the note of what it stands in.
fn close(mut element: Element, open: &mut [Element], done: &mut Vec<Element>) {
    if let Some(around) = open.last_mut() {
        if element.name == "title" {
            around.note = element.text;
            return;
        }
        element.note.clone_from(&around.note);
    }
    done.push(element);
}

fn opened(tag: &str) -> Element {
    let (name, mut rest) = tag.split_once(' ').unwrap_or((tag, ""));
    assert!(name.bytes().all(|byte| byte.is_ascii_lowercase()), "{name}");
    let mut element = Element { name: name.to_owned(), ..Element::default() };
    while !rest.is_empty() {
        let (key, after) = rest.split_once("=\"").expect("an attribute has a value");
        let (value, after) = after.split_once('"').expect("a value ends");
        let before = element.attributes.insert(key.to_owned(), unescaped(value));
        assert!(before.is_none(), "{key} is given twice");
        rest = after.strip_prefix(' ').unwrap_or(after);
    }
    element
}

fn unescaped(text: &str) -> String {
    let mut parts = text.split('&');
    let mut unescaped = parts.next().unwrap_or("").to_owned();
    for part in parts {
        let (entity, rest) = part.split_once(';').expect("an entity ends");
        unescaped += match entity {
            "amp" => "&",
            "lt" => "<",
            "gt" => ">",
            _ => panic!("{entity} is no entity"),
        };
        unescaped += rest;
    }
    assert!(!unescaped.contains(|character: char| character.is_control() && character != '\n'));
    unescaped
}
