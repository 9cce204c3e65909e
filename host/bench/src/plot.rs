//! The ratios as a drawing: a panel for each degree, in it a group for each operation, in that a bar for each size.
use crate::kinds::Kind;
use crate::ratios::{Outcome, Spread};
use crate::svg::{Anchor, Drawing, FAINT, Font, INK};
use crate::table::thousands;

const WIDTH: f64 = 900.0;
const LEFT: f64 = 56.0;
const RIGHT: f64 = WIDTH - 16.0;

/// Where the first panel starts, how far it is to the next, and how high the scale in each is.
const PANELS: f64 = 98.0;
const PANEL: f64 = 268.0;
const SCALE: f64 = 178.0;

const TITLE: Font = Font { size: 18, bold: true, colour: INK };
const HEAD: Font = Font { size: 14, bold: true, colour: INK };
const PLAIN: Font = Font { size: 12, bold: false, colour: INK };
const FIGURE: Font = Font { size: 11, bold: false, colour: INK };
const MISSED: Font = Font { size: 11, bold: true, colour: "#b00020" };

/// A colour for each size, which the colour-blind can tell apart.
const COLOURS: [&str; 6] = ["#56b4e9", "#e69f00", "#009e73", "#cc79a7", "#0072b2", "#d55e00"];

/// Numbers for the scale, the most important first: one is left out where it would stand too close to another.
const TICKS: [f64; 19] =
    [1.0, 0.5, 2.0, 4.0, 0.25, 8.0, 0.1, 0.7, 1.4, 3.0, 16.0, 0.05, 0.8, 1.2, 0.6, 1.7, 2.5, 6.0, 0.9];

/// How far two numbers of the scale have to be apart.
const APART: f64 = 15.0;

/// The logarithmic scale, which all panels share.
struct Axis {
    lowest: f64,
    highest: f64,
}

impl Axis {
    /// A scale that has room for every ratio with its spread, and for a half and two.
    fn around(outcomes: &[Outcome]) -> Axis {
        let mut axis = Axis { lowest: 0.5, highest: 2.0 };
        for Spread { lower, upper, .. } in outcomes.iter().filter_map(|outcome| outcome.ratio) {
            axis.lowest = axis.lowest.min(lower);
            axis.highest = axis.highest.max(upper);
        }
        Axis { lowest: axis.lowest / 1.05, highest: axis.highest * 1.05 }
    }

    /// How far below the top of the scale a ratio stands.
    fn down(&self, ratio: f64) -> f64 {
        SCALE * (self.highest / ratio).ln() / (self.highest / self.lowest).ln()
    }

    /// The numbers that are written beside the scale.
    fn ticks(&self) -> Vec<f64> {
        let mut ticks: Vec<f64> = Vec::new();
        for tick in TICKS.into_iter().filter(|tick| (self.lowest..=self.highest).contains(tick)) {
            if ticks.iter().all(|other| (self.down(*other) - self.down(tick)).abs() >= APART) {
                ticks.push(tick);
            }
        }
        ticks
    }
}

/// The different things that some outcomes have, in the order in which they come.
fn different<T: PartialEq>(outcomes: &[Outcome], of: impl Fn(&Outcome) -> T) -> Vec<T> {
    let mut seen = Vec::new();
    for thing in outcomes.iter().map(of) {
        if !seen.contains(&thing) {
            seen.push(thing);
        }
    }
    seen
}

/// What all panels have in common.
struct Plot {
    drawing: Drawing,
    axis: Axis,
    sizes: Vec<usize>,
    kinds: Vec<Kind>,
}

impl Plot {
    /// The title, and what the colours and marks mean.
    fn legend(&mut self, rounds: usize) {
        let drawing = &mut self.drawing;
        drawing.text((LEFT, 28.0), Anchor::Start, TITLE, "Time of the proved library divided by that of rpds 1.2.1");
        let meaning = format!(
            "Below 1 the library is faster. Bars: medians of {rounds} rounds. Whiskers: the middle half of the rounds."
        );
        drawing.text((LEFT, 48.0), Anchor::Start, PLAIN, &meaning);
        let mut x = LEFT;
        for (size, colour) in self.sizes.iter().zip(COLOURS.iter().cycle()) {
            let name = format!("{} entries", thousands(*size));
            drawing.bar((x, 60.0), (x + 12.0, 72.0), colour);
            drawing.text((x + 18.0, 71.0), Anchor::Start, PLAIN, &name);
            x += 40.0 + 7.0 * name.len() as f64;
        }
        drawing.line((x, 66.0), (x + 22.0, 66.0), (INK, 2.0));
        drawing.text((x + 28.0, 71.0), Anchor::Start, PLAIN, "target");
        drawing.text((x + 84.0, 71.0), Anchor::Start, MISSED, "figure: target missed");
    }

    /// The scale of a panel, with a line across for each number.
    fn scale(&mut self, top: f64) {
        for tick in self.axis.ticks() {
            let y = top + self.axis.down(tick);
            let stroke = if tick == 1.0 { (INK, 1.5) } else { (FAINT, 1.0) };
            self.drawing.line((LEFT, y), (RIGHT, y), stroke);
            self.drawing.text((LEFT - 8.0, y + 4.0), Anchor::End, FIGURE, &tick.to_string());
        }
    }

    /// One ratio: a bar from 1 to the median, the whisker, the target, and the median as a figure below the scale.
    fn ratio(&mut self, outcome: &Outcome, ratio: Spread, (x, top): (f64, f64), colour: &str) {
        let y = |ratio: f64| top + self.axis.down(ratio);
        let drawing = &mut self.drawing;
        drawing.bar((x - 8.0, y(1.0)), (x + 8.0, y(ratio.median)), colour);
        drawing.line((x, y(ratio.lower)), (x, y(ratio.upper)), (INK, 1.0));
        for end in [ratio.lower, ratio.upper] {
            drawing.line((x - 3.0, y(end)), (x + 3.0, y(end)), (INK, 1.0));
        }
        drawing.dot((x, y(ratio.median)), 4.0, colour);
        if let Some(target) = outcome.target() {
            drawing.line((x - 11.0, y(target)), (x + 11.0, y(target)), (INK, 2.0));
        }
        let font = if outcome.met() == Some(false) { MISSED } else { FIGURE };
        drawing.text((x, top + SCALE + 16.0), Anchor::Middle, font, &format!("{:.2}", ratio.median));
    }

    /// A group's name below it, in two lines where it has two parts.
    fn group_name(&mut self, kind: Kind, (x, top): (f64, f64)) {
        for (line, part) in kind.title().split(", ").enumerate() {
            let y = top + SCALE + 34.0 + 15.0 * line as f64;
            self.drawing.text((x, y), Anchor::Middle, PLAIN, part);
        }
    }

    fn panel(&mut self, degree: u64, outcomes: &[Outcome], top: f64) {
        self.drawing.text((LEFT, top), Anchor::Start, HEAD, &format!("Degree {degree}"));
        let top = top + 12.0;
        self.scale(top);
        let group = (RIGHT - LEFT) / self.kinds.len() as f64;
        let column = (0.9 * group / self.sizes.len() as f64).min(34.0);
        for (place, kind) in self.kinds.clone().into_iter().enumerate() {
            let middle = LEFT + group * (place as f64 + 0.5);
            self.group_name(kind, (middle, top));
            for (place, size) in self.sizes.clone().into_iter().enumerate() {
                let x = middle + column * (place as f64 - 0.5 * (self.sizes.len() as f64 - 1.0));
                let found =
                    outcomes.iter().find(|found| (found.degree, found.kind, found.size) == (degree, kind, size));
                if let Some((outcome, ratio)) = found.and_then(|outcome| Some((outcome, outcome.ratio?))) {
                    self.ratio(outcome, ratio, (x, top), COLOURS[place % COLOURS.len()]);
                }
            }
        }
    }
}

/// Draws every ratio; what the crate has nothing like is left out.
pub fn draw(outcomes: &[Outcome], rounds: usize) -> String {
    let outcomes: Vec<Outcome> = outcomes.iter().copied().filter(|outcome| outcome.ratio.is_some()).collect();
    let degrees = different(&outcomes, |outcome| outcome.degree);
    let mut plot = Plot {
        drawing: Drawing::new(WIDTH, PANELS + PANEL * degrees.len() as f64),
        axis: Axis::around(&outcomes),
        sizes: different(&outcomes, |outcome| outcome.size),
        kinds: different(&outcomes, |outcome| outcome.kind),
    };
    plot.legend(rounds);
    for (place, degree) in degrees.iter().enumerate() {
        plot.panel(*degree, &outcomes, PANELS + 10.0 + PANEL * place as f64);
    }
    plot.drawing
        .finish("The proved library's time divided by that of the crate rpds 1.2.1, by operation, size and degree")
}
