//! The plot of the cost of a whole run: milliseconds over samples per plane, both axes logarithmic.

use std::fmt::Write;

use restoration::CHANNELS;

use super::Times;

const WIDTH: f64 = 760.0;
const HEIGHT: f64 = 520.0;
const LEFT: f64 = 80.0;
const RIGHT: f64 = 730.0;
const TOP: f64 = 50.0;
const BOTTOM: f64 = 450.0;

/// The ends of the axes.
const AREAS: (f64, f64) = (2e3, 4e7);
const POWERS: std::ops::RangeInclusive<i32> = -1..=4;

const BLACK: &str = "#000000";
const GREY: &str = "#d0d0d0";
const TITLE: &str = "Gabor-like pass and three iterations, from start to result";

/// A curve's name and colour, and the position of labels, which keeps them off the rising line.
struct Style {
    name: &'static str,
    colour: &'static str,
    anchor: &'static str,
    label: (f64, f64),
}

const RUST: Style = Style {
    name: "original Rust",
    colour: "#b3541e",
    anchor: "end",
    label: (-6.0, -7.0),
};
const OURS: Style = Style {
    name: "proved library",
    colour: "#0b6e4f",
    anchor: "start",
    label: (7.0, 15.0),
};

pub fn svg(costs: &[(u32, Times)]) -> String {
    let mut svg = Svg(format!(
        "<svg xmlns=\"http://www.w3.org/2000/svg\" viewBox=\"0 0 {WIDTH} {HEIGHT}\" \
         font-family=\"sans-serif\" font-size=\"13\">\n\
         <rect width=\"{WIDTH}\" height=\"{HEIGHT}\" fill=\"#ffffff\"/>\n"
    ));
    svg.label((WIDTH / 2.0, TOP - 22.0), "middle", BLACK, TITLE);
    svg.axes(costs);
    svg.curve(&RUST, costs, |times| times.theirs);
    svg.curve(&OURS, costs, |times| times.ours);
    svg.0 + "</svg>\n"
}

/// The horizontal position of an area.
fn x(area: f64) -> f64 {
    let part = (area / AREAS.0).ln() / (AREAS.1 / AREAS.0).ln();
    LEFT + part * (RIGHT - LEFT)
}

/// The vertical position of a time.
fn y(milliseconds: f64) -> f64 {
    let (least, most) = (f64::from(*POWERS.start()), f64::from(*POWERS.end()));
    let part = (milliseconds.log10() - least) / (most - least);
    BOTTOM - part * (BOTTOM - TOP)
}

fn area(side: u32) -> f64 {
    f64::from(side) * f64::from(side)
}

struct Svg(String);

impl Svg {
    fn add(&mut self, element: std::fmt::Arguments) {
        writeln!(self.0, "{element}").expect("writing to a string does not fail");
    }

    fn label(&mut self, (x, y): (f64, f64), anchor: &str, colour: &str, text: &str) {
        self.add(format_args!(
            "<text x=\"{x:.1}\" y=\"{y:.1}\" text-anchor=\"{anchor}\" fill=\"{colour}\">{text}</text>"
        ));
    }

    fn line(&mut self, from: (f64, f64), to: (f64, f64), colour: &str) {
        self.add(format_args!(
            "<line x1=\"{:.1}\" y1=\"{:.1}\" x2=\"{:.1}\" y2=\"{:.1}\" stroke=\"{colour}\"/>",
            from.0, from.1, to.0, to.1
        ));
    }

    /// One line per power of ten of milliseconds, and one per picture.
    fn axes(&mut self, costs: &[(u32, Times)]) {
        for power in POWERS {
            let (milliseconds, places) = (10f64.powi(power), usize::from(power < 0));
            let y = y(milliseconds);
            self.line((LEFT, y), (RIGHT, y), GREY);
            let text = format!("{milliseconds:.places$}");
            self.label((LEFT - 8.0, y + 4.0), "end", BLACK, &text);
        }
        for &(side, _) in costs {
            let x = x(area(side));
            self.line((x, TOP), (x, BOTTOM), GREY);
            self.label((x, BOTTOM + 20.0), "middle", BLACK, &format!("{side}²"));
        }
        let middle = (LEFT + RIGHT) / 2.0;
        let text = "samples per plane; at each point ns per sample of the three planes";
        self.label((middle, BOTTOM + 48.0), "middle", BLACK, text);
        self.label((LEFT - 8.0, TOP - 14.0), "end", BLACK, "ms");
    }

    /// A line through the costs, with its name in the middle and ns per sample at each point.
    fn curve(&mut self, style: &Style, costs: &[(u32, Times)], cost: fn(&Times) -> f64) {
        let Style {
            name,
            colour,
            anchor,
            label,
        } = *style;
        let points: Vec<(f64, f64)> = costs
            .iter()
            .map(|(side, times)| (x(area(*side)), y(cost(times) / 1e6)))
            .collect();
        for pair in points.windows(2) {
            self.line(pair[0], pair[1], colour);
        }
        for ((side, times), &(x, y)) in costs.iter().zip(&points) {
            self.add(format_args!(
                "<circle cx=\"{x:.1}\" cy=\"{y:.1}\" r=\"3.5\" fill=\"{colour}\"/>"
            ));
            let text = format!("{:.1}", cost(times) / (CHANNELS as f64 * area(*side)));
            self.label((x + label.0, y + label.1), anchor, colour, &text);
        }
        let (x, y) = points[points.len() / 2];
        self.label((x + 4.0 * label.0, y + 4.0 * label.1), anchor, colour, name);
    }
}
