//! The few shapes of SVG that the plot is drawn with.
use std::fmt::Write;

/// Dark, for text and marks.
pub const INK: &str = "#222222";
/// For what should stand back.
pub const FAINT: &str = "#d5d5d5";

/// How a text stands to its place.
#[derive(Clone, Copy)]
pub enum Anchor {
    /// It starts there.
    Start,
    /// Its middle is there.
    Middle,
    /// It ends there.
    End,
}

/// A text's looks.
#[derive(Clone, Copy)]
pub struct Font {
    /// The size, in pixels.
    pub size: u32,
    /// Whether it is bold.
    pub bold: bool,
    /// The colour.
    pub colour: &'static str,
}

/// A drawing, as it grows.
pub struct Drawing {
    shapes: String,
    width: f64,
    height: f64,
}

/// The text with the signs replaced that have a meaning in XML.
fn escaped(text: &str) -> String {
    text.replace('&', "&amp;").replace('<', "&lt;").replace('>', "&gt;").replace('"', "&quot;")
}

impl Drawing {
    /// A white sheet, so that it can be read on any background.
    pub fn new(width: f64, height: f64) -> Drawing {
        let mut drawing = Drawing { shapes: String::new(), width, height };
        drawing.bar((0.0, 0.0), (width, height), "#ffffff");
        drawing
    }

    fn add(&mut self, shape: &str) {
        self.shapes.push_str("  ");
        self.shapes.push_str(shape);
        self.shapes.push('\n');
    }

    /// A filled rectangle between two corners.
    pub fn bar(&mut self, (x1, y1): (f64, f64), (x2, y2): (f64, f64), colour: &str) {
        let (x, y, width, height) = (x1.min(x2), y1.min(y2), (x1 - x2).abs(), (y1 - y2).abs());
        self.add(&format!(r#"<rect x="{x:.1}" y="{y:.1}" width="{width:.1}" height="{height:.1}" fill="{colour}"/>"#));
    }

    /// A line between two places.
    pub fn line(&mut self, (x1, y1): (f64, f64), (x2, y2): (f64, f64), (colour, width): (&str, f64)) {
        let places = format!(r#"x1="{x1:.1}" y1="{y1:.1}" x2="{x2:.1}" y2="{y2:.1}""#);
        self.add(&format!(r#"<line {places} stroke="{colour}" stroke-width="{width}"/>"#));
    }

    /// A dot.
    pub fn dot(&mut self, (x, y): (f64, f64), radius: f64, colour: &str) {
        self.add(&format!(
            r##"<circle cx="{x:.1}" cy="{y:.1}" r="{radius}" fill="{colour}" stroke="#ffffff" stroke-width="1"/>"##
        ));
    }

    /// A line of text.
    pub fn text(&mut self, (x, y): (f64, f64), anchor: Anchor, font: Font, text: &str) {
        let anchor = match anchor {
            Anchor::Start => "start",
            Anchor::Middle => "middle",
            Anchor::End => "end",
        };
        let weight = if font.bold { r#" font-weight="bold""# } else { "" };
        let (size, colour, text) = (font.size, font.colour, escaped(text));
        let looks = format!(r#"font-size="{size}"{weight} fill="{colour}" text-anchor="{anchor}""#);
        self.add(&format!(r#"<text x="{x:.1}" y="{y:.1}" {looks}>{text}</text>"#));
    }

    /// The whole file. The title is what a reader who cannot see it is told.
    pub fn finish(self, title: &str) -> String {
        let Drawing { shapes, width, height } = self;
        let mut file = String::new();
        let size = format!(r#"width="{width}" height="{height}" viewBox="0 0 {width} {height}""#);
        let font = r#"font-family="Helvetica, Arial, 'DejaVu Sans', sans-serif""#;
        let _ = writeln!(file, r#"<svg xmlns="http://www.w3.org/2000/svg" {size} {font} role="img">"#);
        let _ = writeln!(file, "  <title>{}</title>", escaped(title));
        file + &shapes + "</svg>\n"
    }
}
