//! Pictures taken apart.

// each test file uses a part
#![allow(dead_code)]

use std::collections::HashMap;

pub const BLACK: &str = "#000000";
pub const GREY: &str = "#999999";
pub const BLUE: &str = "#0072B2";
pub const ORANGE: &str = "#E69F00";
pub const VERMILLION: &str = "#D55E00";

#[derive(Debug)]
pub struct Element {
    pub name: String,
    pub attributes: HashMap<String, String>,
    pub text: String,
}

impl Element {
    pub fn is(&self, attribute: &str, value: &str) -> bool {
        self.attributes.get(attribute).map(String::as_str) == Some(value)
    }

    pub fn number(&self, attribute: &str) -> f64 {
        self.attributes[attribute].parse().unwrap()
    }

    /// The points of a polyline or polygon.
    pub fn points(&self) -> Vec<(f64, f64)> {
        let pair = |pair: &str| {
            let (x, y) = pair.split_once(',').unwrap();
            (x.parse().unwrap(), y.parse().unwrap())
        };
        let points = self.attributes["points"].split_whitespace();
        points.map(pair).collect()
    }
}

pub struct Picture {
    pub elements: Vec<Element>,
}

impl Picture {
    /// Well-formed, without a value that is no number, every label on the page and clear of others.
    pub fn sound(svg: &str) -> Picture {
        assert!(!svg.contains("NaN") && !svg.contains("inf"), "{svg}");
        let picture = Picture {
            elements: elements(svg),
        };
        picture.labels_are_clear();
        picture
    }

    pub fn all(&self, name: &str, attribute: &str, value: &str) -> Vec<&Element> {
        let all = self.elements.iter();
        all.filter(|element| element.name == name && element.is(attribute, value))
            .collect()
    }

    pub fn texts(&self) -> Vec<&Element> {
        let all = self.elements.iter();
        all.filter(|element| element.name == "text").collect()
    }

    pub fn says(&self, text: &str) -> bool {
        self.texts().iter().any(|label| label.text == text)
    }

    /// Where a tick's label stands, the first of this text and anchor.
    pub fn label(&self, anchor: &str, text: &str) -> &Element {
        let labels = self.all("text", "text-anchor", anchor);
        let label = labels.into_iter().find(|label| label.text == text);
        label.unwrap_or_else(|| panic!("no label {text:?}"))
    }

    fn labels_are_clear(&self) {
        let page = &self.elements[0];
        let (width, height) = (page.number("width"), page.number("height"));
        assert!(page.is("viewBox", &format!("0 0 {width} {height}")));
        let boxes: Vec<Box> = self.texts().into_iter().map(Box::of).collect();
        for (place, label) in boxes.iter().enumerate() {
            assert!(
                label.left >= 0.0 && label.right <= width,
                "{label:?} of {width}"
            );
            assert!(
                label.top >= 0.0 && label.bottom <= height,
                "{label:?} of {height}"
            );
            let over = boxes[place + 1..].iter().find(|other| label.meets(other));
            assert!(over.is_none(), "{label:?} meets {over:?}");
        }
    }
}

/// The room that a label takes, at the widths of DejaVu Sans.
#[derive(Debug)]
#[allow(dead_code)]
struct Box {
    text: String,
    left: f64,
    right: f64,
    top: f64,
    bottom: f64,
}

impl Box {
    fn of(label: &Element) -> Box {
        let em = label.number("font-size");
        let width = 0.58 * em * label.text.chars().count() as f64;
        let left = match label.attributes["text-anchor"].as_str() {
            "start" => 0.0,
            "middle" => -width / 2.0,
            _ => -width,
        };
        let baseline = match label.attributes["dy"].as_str() {
            "0.76em" => 0.76 * em,
            "0.5ex" => 0.27 * em,
            _ => -0.27 * em,
        };
        let (x, y) = (label.number("x"), label.number("y"));
        let (top, bottom) = (baseline - 0.76 * em, baseline + 0.24 * em);
        let upwards = label.attributes.contains_key("transform");
        let (left, right, top, bottom) = if upwards {
            (top, bottom, -left - width, -left)
        } else {
            (left, left + width, top, bottom)
        };
        Box {
            text: label.text.clone(),
            left: x + left,
            right: x + right,
            top: y + top,
            bottom: y + bottom,
        }
    }

    fn meets(&self, other: &Box) -> bool {
        let across = self.left < other.right && other.left < self.right;
        let up = self.top < other.bottom && other.top < self.bottom;
        across && up
    }
}

/// The elements of a well-formed text in order.
fn elements(svg: &str) -> Vec<Element> {
    assert!(svg.starts_with("<svg ") && svg.ends_with("</svg>\n"));
    let (mut elements, mut open): (Vec<Element>, Vec<usize>) = (vec![], vec![]);
    for piece in svg.split('<').skip(1) {
        let (tag, text) = piece.split_once('>').expect("a tag ends");
        if let Some(name) = tag.strip_prefix('/') {
            let last = open.pop().expect("something is open");
            assert_eq!(elements[last].name, name);
            assert_eq!(text.trim(), "");
            continue;
        }
        if !tag.ends_with('/') {
            open.push(elements.len());
        }
        elements.push(element(tag.trim_end_matches('/'), text));
    }
    assert!(open.is_empty(), "all is closed");
    elements
}

fn element(tag: &str, text: &str) -> Element {
    let (name, mut rest) = tag.split_once(' ').expect("every element has attributes");
    let mut attributes = HashMap::new();
    while let Some((key, value)) = rest.split_once("=\"") {
        let (value, behind) = value.split_once('"').expect("a value ends");
        let twice = attributes.insert(key.trim().into(), unescaped(value));
        assert_eq!(twice, None);
        rest = behind;
    }
    assert_eq!(rest.trim(), "");
    Element {
        name: name.into(),
        attributes,
        text: unescaped(text.trim()),
    }
}

fn unescaped(text: &str) -> String {
    assert!(
        !text.contains(|letter: char| letter.is_control()),
        "{text:?}"
    );
    let mut pieces = text.split('&');
    let mut plain = pieces.next().unwrap_or_default().to_string();
    for piece in pieces {
        let (entity, rest) = piece.split_once(';').expect("an entity ends");
        plain.push(match entity {
            "amp" => '&',
            "lt" => '<',
            "gt" => '>',
            "quot" => '"',
            "apos" => '\'',
            other => panic!("&{other};"),
        });
        plain.push_str(rest);
    }
    plain
}
