//! SVG, an element at a time.

/// The fonts of all text. Their characters are less wide than [`ADVANCE`] of their size.
const FONTS: &str = "DejaVu Sans Mono, Menlo, Consolas, monospace";
const ADVANCE: f64 = 0.62;

/// The size of text, but for the title.
const SIZE: f64 = 11.0;
const TITLE_SIZE: f64 = 16.0;

/// Half the height of a digit.
const HALF: f64 = 0.36 * SIZE;

/// How wide a text is at most. A character beyond ASCII may be as wide as it is high.
pub fn width(text: &str) -> f64 {
    text.chars().map(|character| if character.is_ascii() { ADVANCE * SIZE } else { SIZE }).sum()
}

/// Which part of a text stands at its place.
#[derive(Clone, Copy, Debug, PartialEq, Eq)]
pub enum Anchor {
    Start,
    Middle,
    End,
}

impl Anchor {
    const fn name(self) -> &'static str {
        match self {
            Self::Start => "start",
            Self::Middle => "middle",
            Self::End => "end",
        }
    }
}

/// A rectangle.
#[derive(Clone, Copy, Debug)]
pub struct Area {
    pub x: f64,
    pub y: f64,
    pub width: f64,
    pub height: f64,
}

#[derive(Debug, Default)]
pub struct Svg {
    body: String,
}

impl Svg {
    /// The whole picture, with a title.
    pub fn whole(&self, title: &str, width: f64, height: f64) -> String {
        let (title, body) = (escaped(title), &self.body);
        format!(
            "<svg xmlns=\"http://www.w3.org/2000/svg\" width=\"{width:.0}\" height=\"{height:.0}\" \
             viewBox=\"0 0 {width:.0} {height:.0}\" font-family=\"{FONTS}\" font-size=\"{SIZE}\">\n\
             <title>{title}</title>\n\
             <rect width=\"100%\" height=\"100%\" fill=\"#ffffff\"/>\n{body}</svg>\n"
        )
    }

    /// What is drawn within has a note, which shows when it is pointed at.
    pub fn noted(&mut self, note: &str, draw: impl FnOnce(&mut Self)) {
        self.body += &format!("<g><title>{}</title>", escaped(note));
        draw(self);
        self.body += "</g>\n";
    }

    pub fn line(&mut self, from: (f64, f64), to: (f64, f64), colour: &str) {
        let ((x1, y1), (x2, y2)) = (from, to);
        self.body += &format!(
            "<line x1=\"{x1:.1}\" y1=\"{y1:.1}\" x2=\"{x2:.1}\" y2=\"{y2:.1}\" \
             stroke=\"{colour}\"/>\n"
        );
    }

    /// A filled rectangle with a rim.
    pub fn area(&mut self, area: Area, fill: &str, rim: &str) {
        let Area { x, y, width, height } = area;
        self.body += &format!(
            "<rect x=\"{x:.1}\" y=\"{y:.1}\" width=\"{width:.1}\" height=\"{height:.1}\" \
             fill=\"{fill}\" stroke=\"{rim}\"/>"
        );
    }

    pub fn title(&mut self, x: f64, y: f64, text: &str) {
        let text = escaped(text);
        self.body += &format!(
            "<text x=\"{x:.1}\" y=\"{y:.1}\" font-size=\"{TITLE_SIZE}\" font-weight=\"bold\">{text}\
             </text>\n"
        );
    }

    /// A text whose middle line is at `y`.
    pub fn text(&mut self, (x, y): (f64, f64), anchor: Anchor, ink: &str, text: &str) {
        let (y, anchor, text) = (y + HALF, anchor.name(), escaped(text));
        self.body += &format!(
            "<text x=\"{x:.1}\" y=\"{y:.1}\" text-anchor=\"{anchor}\" fill=\"{ink}\">{text}</text>"
        );
    }

    /// A text that is read upwards, whose middle line is at `x`.
    pub fn upright(&mut self, (x, y): (f64, f64), anchor: Anchor, ink: &str, text: &str) {
        let (x, anchor, text) = (x + HALF, anchor.name(), escaped(text));
        self.body += &format!(
            "<text x=\"{x:.1}\" y=\"{y:.1}\" transform=\"rotate(-90 {x:.1} {y:.1})\" \
             text-anchor=\"{anchor}\" fill=\"{ink}\">{text}</text>"
        );
    }
}

/// A text as XML has it; what XML cannot have is replaced.
fn escaped(text: &str) -> String {
    let mut escaped = String::new();
    for character in text.chars() {
        match character {
            '&' => escaped += "&amp;",
            '<' => escaped += "&lt;",
            '>' => escaped += "&gt;",
            '\u{fffe}' | '\u{ffff}' => escaped.push('\u{fffd}'),
            _ => escaped.push(character),
        }
    }
    escaped
}
