//! A plain picture, as SVG text: lines of a time over a size, like microseconds a step over live nogoods. Its colours follow the reader's light or dark page; where
//! that is not known they are those of a light one.

/// A line of the picture: its class in the style, its label in the legend, and its points from left to right.
pub struct Series<'a> {
    pub class: &'a str,
    pub label: &'a str,
    pub points: Vec<(f64, f64)>,
}

/// The picture, and the frame in it that the axes are on, in pixels.
const WIDTH: f64 = 760.0;
const HEIGHT: f64 = 430.0;
const LEFT: f64 = 70.0;
const RIGHT: f64 = 730.0;
const TOP: f64 = 52.0;
const BOTTOM: f64 = 370.0;

const STYLE: &str = "\
text { font: 13px sans-serif; fill: #24292f } .title { font-size: 15px; font-weight: bold } .up { text-anchor: end } .across { text-anchor: middle }
.paper { fill: #ffffff } .grid { stroke: #d8dee4 } .axis { stroke: #57606a } polyline { fill: none; stroke-width: 2 }
.before { stroke: #c2410c; stroke-dasharray: 7 4 } .after { stroke: #1d4ed8 } .unverified { stroke: #15803d; stroke-dasharray: 2 3 } .other { stroke: #7c3aed; stroke-dasharray: 1 5 }
.before-dot { fill: #c2410c } .after-dot { fill: #1d4ed8 } .unverified-dot { fill: #15803d } .other-dot { fill: #7c3aed }
@media (prefers-color-scheme: dark) {
text { fill: #e6edf3 } .paper { fill: #0d1117 } .grid { stroke: #30363d } .axis { stroke: #8b949e }
.before { stroke: #fb923c } .after { stroke: #60a5fa } .unverified { stroke: #4ade80 } .other { stroke: #c4b5fd }
.before-dot { fill: #fb923c } .after-dot { fill: #60a5fa } .unverified-dot { fill: #4ade80 } .other-dot { fill: #c4b5fd }
}
";

/// What is written about the picture, over it and below it.
pub struct Labels {
    pub about: &'static str,
    pub title: &'static str,
    pub across: &'static str,
}

/// An axis: its marks with their numbers, and where the last one is.
pub struct Axis {
    marks: Vec<(f64, String)>,
    end: f64,
}

impl Axis {
    /// From 0 past the largest number, with about eight marks or fewer at round numbers.
    pub fn to(largest: f64) -> Axis {
        let rough = (largest / 8.0).max(1e-3);
        let power = 10f64.powf(rough.log10().floor());
        let step = [1.0, 2.0, 5.0, 10.0].map(|times| times * power).into_iter().find(|step| *step >= rough).unwrap_or(rough);
        let end = step * (largest / step).ceil().max(1.0);
        let marks = (0..=(end / step).round() as usize).map(|count| count as f64 * step);
        Axis { marks: marks.map(|mark| (mark, number(mark))).collect(), end }
    }

    /// From one power of ten to another, with a mark at each. A point's place is its power less the first.
    pub fn powers(from: i32, to: i32) -> Axis {
        let marks = (from..=to).map(|power| (f64::from(power - from), power_text(power)));
        Axis { marks: marks.collect(), end: f64::from(to - from) }
    }
}

/// The two axes.
struct Frame {
    across: Axis,
    up: Axis,
}

impl Frame {
    fn x(&self, number: f64) -> f64 {
        LEFT + number / self.across.end * (RIGHT - LEFT)
    }

    fn y(&self, number: f64) -> f64 {
        BOTTOM - number / self.up.end * (BOTTOM - TOP)
    }
}

/// The text of the picture of microseconds a step. A line without points is left out.
pub fn draw(series: &[Series]) -> String {
    let points = || series.iter().flat_map(|series| &series.points);
    let across = Axis::to(points().map(|point| point.0).fold(0.0, f64::max));
    let labels = Labels {
        about: "Time a step against live nogoods",
        title: "Microseconds a step",
        across: "live nogoods at the end of the refutation",
    };
    draw_in(series, &labels, across, Axis::to(points().map(|point| point.1).fold(0.0, f64::max)))
}

/// The text of a picture with these axes.
pub fn draw_in(series: &[Series], labels: &Labels, across: Axis, up: Axis) -> String {
    let frame = Frame { across, up };
    let shown = || series.iter().filter(|series| !series.points.is_empty());
    let mut text = format!(
        "<svg xmlns=\"http://www.w3.org/2000/svg\" viewBox=\"0 0 {WIDTH} {HEIGHT}\" width=\"{WIDTH}\" height=\"{HEIGHT}\" role=\"img\">\n\
         <title>{}</title>\n<style>\n{STYLE}</style>\n\
         <rect class=\"paper\" width=\"{WIDTH}\" height=\"{HEIGHT}\" rx=\"8\"/>\n",
        labels.about
    );
    text += &label(LEFT, 30.0, "title", labels.title);
    text += &axes(&frame, labels.across);
    // the grid is not to run through the legend
    text += &format!(
        "<rect class=\"paper\" x=\"{}\" y=\"{}\" width=\"190\" height=\"{}\"/>\n",
        LEFT + 8.0,
        TOP + 8.0,
        6 + 22 * shown().count()
    );
    for (place, series) in shown().enumerate() {
        text += &line(&frame, series);
        text += &legend(place, series);
    }
    text + "</svg>\n"
}

/// Both axes with their marks and numbers, and the grid across.
fn axes(frame: &Frame, across: &str) -> String {
    let mut text = String::new();
    for (mark, told) in &frame.up.marks {
        let y = frame.y(*mark);
        text += &stroke(if *mark == 0.0 { "axis" } else { "grid" }, [(LEFT, y), (RIGHT, y)]);
        text += &label(LEFT - 10.0, y + 4.5, "up", told);
    }
    for (mark, told) in &frame.across.marks {
        let x = frame.x(*mark);
        text += &stroke("axis", [(x, BOTTOM), (x, BOTTOM + 6.0)]);
        text += &label(x, BOTTOM + 22.0, "across", told);
    }
    text + &label((LEFT + RIGHT) / 2.0, BOTTOM + 46.0, "across", across)
}

/// A line with a dot at each point.
fn line(frame: &Frame, series: &Series) -> String {
    let points: Vec<(f64, f64)> = series.points.iter().map(|point| (frame.x(point.0), frame.y(point.1))).collect();
    let corners: Vec<String> = points.iter().map(|(x, y)| format!("{x:.1},{y:.1}")).collect();
    let mut text = format!("<polyline class=\"{}\" points=\"{}\"/>\n", series.class, corners.join(" "));
    points.iter().for_each(|&(x, y)| text += &dot(series.class, x, y));
    text
}

/// The label of a line, with a piece of it, in the upper left.
fn legend(place: usize, series: &Series) -> String {
    let y = TOP + 22.0 + 22.0 * place as f64;
    let from = LEFT + 18.0;
    let piece = format!("<polyline class=\"{}\" points=\"{from},{y} {},{y}\"/>\n", series.class, from + 44.0);
    piece + &dot(series.class, from + 22.0, y) + &label(from + 54.0, y + 4.5, "legend", series.label)
}

fn dot(class: &str, x: f64, y: f64) -> String {
    format!("<circle class=\"{class}-dot\" cx=\"{x:.1}\" cy=\"{y:.1}\" r=\"3.5\"/>\n")
}

fn stroke(class: &str, [from, to]: [(f64, f64); 2]) -> String {
    format!("<line class=\"{class}\" x1=\"{:.1}\" y1=\"{:.1}\" x2=\"{:.1}\" y2=\"{:.1}\"/>\n", from.0, from.1, to.0, to.1)
}

fn label(x: f64, y: f64, class: &str, words: &str) -> String {
    format!("<text class=\"{class}\" x=\"{x:.1}\" y=\"{y:.1}\">{words}</text>\n")
}

/// A number with a comma after the thousands, or with a place after the point where it is not whole.
fn number(number: f64) -> String {
    let whole = number.trunc() as u64;
    match (whole / 1_000, number.fract() > 1e-6) {
        (0, false) => format!("{whole}"),
        (0, true) => format!("{number:.1}"),
        (thousands, _) => format!("{thousands},{:03}", whole % 1_000),
    }
}

/// A power of ten, small ones as a decimal fraction.
fn power_text(power: i32) -> String {
    match power {
        0.. => number(10f64.powi(power)),
        _ => format!("0.{}1", "0".repeat(power.unsigned_abs() as usize - 1)),
    }
}

#[cfg(test)]
mod tests {
    use super::*;

    #[test]
    fn round_marks() {
        let told = |axis: Axis| axis.marks.into_iter().map(|(_, told)| told).collect::<Vec<_>>().join(" ");
        let marks = |largest| told(Axis::to(largest));
        assert_eq!(told(Axis::powers(-2, 4)), "0.01 0.1 1 10 100 1,000 10,000");
        assert_eq!(marks(2_408.0), "0 500 1,000 1,500 2,000 2,500");
        assert_eq!(marks(13.4), "0 2 4 6 8 10 12 14");
        assert_eq!(marks(2.3), "0 0.5 1 1.5 2 2.5");
    }

    #[test]
    fn a_line_without_points_is_left_out() {
        let line = |class, points| Series { class, label: class, points };
        let text = draw(&[line("before", vec![]), line("after", vec![(100.0, 1.0), (200.0, 2.0)])]);
        assert!(!text.contains("<polyline class=\"before\""));
        assert_eq!(text.matches("<polyline class=\"after\"").count(), 2);
        assert_eq!(text.matches("<circle").count(), 3);
    }
}
