//! What a person sees: the tables, and a plot that is well-formed and whose words do not run into one another.
use bench::kinds::Kind;
use bench::options::{Command, Options, parse};
use bench::page::{document, text};
use bench::plot::draw;
use bench::ratios::{Outcome, Spread};
use bench::table::thousands;

fn outcomes() -> Vec<Outcome> {
    let mut outcomes = Vec::new();
    for degree in [16, 64] {
        for (place, size) in [300, 10_000, 1_000_000].into_iter().enumerate() {
            for (at, kind) in Kind::ALL.into_iter().enumerate() {
                let median = 0.6 + 0.1 * (place + at) as f64;
                let ratio = Spread::of(&[median / 1.2, median, 1.3 * median]).filter(|_| kind != Kind::Check);
                let crate_nanoseconds = ratio.map(|_| 100.0);
                outcomes.push(Outcome {
                    degree,
                    size,
                    kind,
                    crate_nanoseconds,
                    library_nanoseconds: 100.0 * median,
                    ratio,
                });
            }
        }
    }
    outcomes
}

fn options(words: &[&str]) -> Options {
    let words: Vec<String> = words.iter().map(|word| word.to_string()).collect();
    match parse(&words) {
        Ok(Command::Measure(options)) => options,
        other => panic!("{words:?} is read as {other:?}"),
    }
}

struct Element {
    name: String,
    attributes: Vec<(String, String)>,
    text: String,
}

impl Element {
    fn value(&self, name: &str) -> Option<&str> {
        self.attributes.iter().find(|(own, _)| own == name).map(|(_, value)| value.as_str())
    }

    fn number(&self, name: &str) -> f64 {
        self.value(name).and_then(|value| value.parse().ok()).expect("a number")
    }
}

/// A tag that opens an element. Panics where an attribute is not well-formed.
fn opened(tag: &str) -> Element {
    let (name, mut rest) = tag.split_once(' ').unwrap_or((tag, ""));
    let mut attributes = Vec::new();
    while let Some((attribute, behind)) = rest.split_once("=\"") {
        let (value, behind) = behind.split_once('"').expect("a value ends");
        attributes.push((attribute.trim().to_string(), value.to_string()));
        rest = behind;
    }
    assert!(rest.trim().is_empty(), "{tag}");
    Element { name: name.to_string(), attributes, text: String::new() }
}

/// The elements of a drawing. Panics where the XML is not well-formed.
fn elements(mut xml: &str) -> Vec<Element> {
    let (mut open, mut elements) = (Vec::new(), Vec::new());
    while let Some(start) = xml.find('<') {
        let end = start + xml[start..].find('>').expect("a tag ends");
        let (text, tag) = (&xml[..start], &xml[start + 1..end]);
        assert!(!text.contains('>') && !tag.contains('<'), "{tag}");
        xml = &xml[end + 1..];
        if let Some(name) = tag.strip_prefix('/') {
            let element: Element = open.pop().expect("a tag was opened");
            assert_eq!(name, element.name);
            elements.push(Element { text: text.trim().to_string(), ..element });
        } else if let Some(tag) = tag.strip_suffix('/') {
            elements.push(opened(tag));
        } else {
            open.push(opened(tag));
        }
    }
    assert!(open.is_empty() && xml.trim().is_empty());
    elements
}

/// Left, top, right and bottom of a text, by a width of 0.62 of its size for each sign, which is that of a wide font.
fn edges(text: &Element) -> [f64; 4] {
    let (x, y, size) = (text.number("x"), text.number("y"), text.number("font-size"));
    let width = 0.62 * size * text.text.chars().count() as f64;
    let left = match text.value("text-anchor") {
        Some("middle") => x - width / 2.0,
        Some("end") => x - width,
        _ => x,
    };
    [left, y - 0.75 * size, left + width, y + 0.2 * size]
}

#[test]
fn the_plot_is_well_formed_and_its_words_stay_apart() {
    let elements = elements(&draw(&outcomes(), 21));
    let texts: Vec<_> = elements.iter().filter(|element| element.name == "text").collect();
    assert!(texts.len() > 2 * (7 * 3 + 7));
    for (at, one) in texts.iter().enumerate() {
        let [left, top, right, bottom] = edges(one);
        assert!(left >= 0.0 && right <= 900.0 && top >= 0.0 && bottom <= 640.0, "{} is outside", one.text);
        for other in &texts[at + 1..] {
            let [x1, y1, x2, y2] = edges(other);
            let apart = right <= x1 || x2 <= left || bottom <= y1 || y2 <= top;
            assert!(apart, "{} runs into {}", one.text, other.text);
        }
    }
}

#[test]
fn a_plot_of_little_or_nothing_is_well_formed_too() {
    assert!(!elements(&draw(&[], 1)).is_empty());
    assert!(!elements(&draw(&outcomes()[..1], 1)).is_empty());
}

#[test]
fn both_tables_have_a_row_for_each_outcome() {
    let plain = text(&outcomes(), &options(&[]));
    let row = "    300  get, hit                    100         60.0   0.60    0.55–0.69   0.50–0.78     1.2  met\n";
    assert!(plain.contains(row), "{plain}");
    let markdown = text(&outcomes(), &options(&["--markdown"]));
    assert!(
        markdown.contains("| 10,000 | get, hit | 100 | 70.0 | 0.70 | 0.64–0.80 | 0.58–0.91 | 1.0 | met |\n"),
        "{markdown}"
    );
    assert!(markdown.contains("| 1,000,000 | check, per cell | – | 150 | – | – | – | – | |\n"), "{markdown}");
    assert_eq!(markdown.lines().filter(|line| line.starts_with("| ")).count(), 2 * (1 + 3 * 8));
}

#[test]
fn the_page_names_its_plot_and_the_command_that_made_it() {
    let part = options(&["--rounds", "9", "--only", "get", "--quick", "--degrees", "16,64", "--docs", "elsewhere"]);
    let page = document(&outcomes(), &part, "performance.svg");
    assert!(page.contains("](performance.svg)"));
    assert!(page.contains(" -- --docs docs --quick --only get_hit,get_miss --rounds 9\n"), "{page}");
}

#[test]
fn thousands_stand_apart() {
    let texts = [0, 999, 1_000, 1_000_000].map(thousands);
    assert_eq!(texts, ["0", "999", "1,000", "1,000,000"]);
}
