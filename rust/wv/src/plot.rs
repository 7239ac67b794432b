//! Draws proof size against proving time, as an SVG image.

mod labels;

use crate::cost::{Family, Measured, FAMILIES};
use labels::{Scene, RADIUS, SIZE};

const WIDTH: f64 = 900.0;
const HEIGHT: f64 = 560.0;
/// The frame: left, top, right, bottom.
const FRAME: [f64; 4] = [84.0, 56.0, 600.0, 490.0];

const COLOURS: [&str; 4] = ["#0b6e99", "#c1502e", "#3d7a3d", "#7b4fa0"];
const DASHES: [&str; 3] = ["none", "6 4", "2 3"];

/// A logarithmic axis from one power or half of ten to another.
struct Axis {
    low: f64,
    high: f64,
    from: f64,
    to: f64,
}

impl Axis {
    /// Covers all values, from 1, 2 or 5 times a power of ten to another.
    fn covering(values: impl Iterator<Item = f64> + Clone, from: f64, to: f64) -> Axis {
        let least = values.clone().fold(f64::MAX, f64::min);
        let most = values.fold(f64::MIN, f64::max);
        let low = steps().rev().find(|&step| step < least);
        let high = steps().find(|&step| step > most);
        Axis {
            low: low.unwrap_or(least),
            high: high.unwrap_or(most),
            from,
            to,
        }
    }

    fn place(&self, value: f64) -> f64 {
        let part = (value / self.low).ln() / (self.high / self.low).ln();
        self.from + part * (self.to - self.from)
    }

    fn ticks(&self) -> impl Iterator<Item = f64> + '_ {
        steps().filter(|&step| step >= self.low * 0.999 && step <= self.high * 1.001)
    }
}

/// 1, 2 and 5 times each power of ten.
fn steps() -> impl DoubleEndedIterator<Item = f64> {
    (-4..9).flat_map(|power| [1.0, 2.0, 5.0].map(|digit| digit * 10_f64.powi(power)))
}

/// The image. There must be data.
pub fn svg(data: &[Measured], machine: &str) -> String {
    let [left, top, right, bottom] = FRAME;
    let times = Axis::covering(data.iter().map(|row| row.prove), left, right);
    let sizes = Axis::covering(data.iter().map(|row| row.bytes as f64), bottom, top);
    let mut image = head();
    image += &grid(&times, &sizes);
    let circuits = circuits(data);
    let mut lines = vec![];
    for (circuit, colour) in circuits.iter().zip(COLOURS.iter().cycle()) {
        for (family, dash) in FAMILIES.iter().zip(DASHES) {
            let rows = rows_of(data, circuit, family);
            lines.push(Line::of(&rows, colour, dash, &times, &sizes));
        }
    }
    image += &drawn(&lines);
    image += &legend(&circuits);
    image += &text(left, HEIGHT - 12.0, "start", 11, &escaped(machine));
    image + "</svg>\n"
}

fn head() -> String {
    format!(
        "<svg xmlns=\"http://www.w3.org/2000/svg\" viewBox=\"0 0 {WIDTH} {HEIGHT}\" \
         font-family=\"sans-serif\">\n\
         <rect width=\"{WIDTH}\" height=\"{HEIGHT}\" fill=\"white\"/>\n"
    ) + &text(
        FRAME[0],
        32.0,
        "start",
        17,
        "Proof size against the time to prove",
    )
}

/// Text in black; `anchor` is start, middle or end.
fn text(x: f64, y: f64, anchor: &str, size: u32, content: &str) -> String {
    format!(
        "<text x=\"{x:.1}\" y=\"{y:.1}\" text-anchor=\"{anchor}\" \
         font-size=\"{size}\" fill=\"#222\">{content}</text>\n"
    )
}

fn escaped(content: &str) -> String {
    let content = content.replace('&', "&amp;");
    content.replace('<', "&lt;").replace('>', "&gt;")
}

fn grid(times: &Axis, sizes: &Axis) -> String {
    let [left, top, right, bottom] = FRAME;
    let mut image = String::new();
    for tick in times.ticks() {
        let x = times.place(tick);
        image += &stroke([x, top, x, bottom], "#ddd", 1.0, "none");
        image += &text(x, bottom + 18.0, "middle", 12, &number(tick));
    }
    for tick in sizes.ticks() {
        let y = sizes.place(tick);
        image += &stroke([left, y, right, y], "#ddd", 1.0, "none");
        image += &text(left - 8.0, y + 4.0, "end", 12, &number(tick));
    }
    let middle = (left + right) / 2.0;
    image += &text(middle, bottom + 40.0, "middle", 13, "milliseconds to prove");
    image += &text(left - 8.0, top - 14.0, "end", 13, "bytes");
    image
}

/// Thousands apart, and no zeros at the end.
fn number(value: f64) -> String {
    if value < 1.0 {
        return format!("{value:.4}").trim_end_matches('0').into();
    }
    let digits = format!("{value:.0}");
    let mut shown = String::new();
    for (place, digit) in digits.chars().enumerate() {
        if place > 0 && (digits.len() - place) % 3 == 0 {
            shown.push(',');
        }
        shown.push(digit);
    }
    shown
}

fn stroke(ends: [f64; 4], colour: &str, width: f64, dash: &str) -> String {
    let [x1, y1, x2, y2] = ends;
    format!(
        "<line x1=\"{x1:.1}\" y1=\"{y1:.1}\" x2=\"{x2:.1}\" y2=\"{y2:.1}\" \
         stroke=\"{colour}\" stroke-width=\"{width}\" stroke-dasharray=\"{dash}\"/>\n"
    )
}

/// The circuits' names, each once.
fn circuits(data: &[Measured]) -> Vec<String> {
    let mut names: Vec<String> = vec![];
    for row in data {
        if !names.contains(&row.circuit) {
            names.push(row.circuit.clone());
        }
    }
    names
}

/// The rows of a family, by rising n.
fn rows_of<'a>(data: &'a [Measured], circuit: &str, family: &Family) -> Vec<&'a Measured> {
    let members = family.members.iter();
    let row_of = |member| {
        let is_it = move |row: &&Measured| row.circuit == circuit && row.counts == member;
        data.iter().find(is_it)
    };
    members.filter_map(|&member| row_of(member)).collect()
}

/// The points of a family, with n beside them, and a line through them.
struct Line {
    points: Vec<([f64; 2], String)>,
    colour: &'static str,
    dash: &'static str,
}

impl Line {
    fn of(
        rows: &[&Measured],
        colour: &'static str,
        dash: &'static str,
        times: &Axis,
        sizes: &Axis,
    ) -> Line {
        let place = |row: &Measured| [times.place(row.prove), sizes.place(row.bytes as f64)];
        let points = rows
            .iter()
            .map(|row| (place(row), row.counts.n.to_string()));
        Line {
            points: points.collect(),
            colour,
            dash,
        }
    }

    fn segments(&self) -> Vec<labels::Segment> {
        let pairs = self.points.windows(2);
        pairs.map(|pair| [pair[0].0, pair[1].0]).collect()
    }
}

/// All lines and points, then the labels, each where it hides least.
fn drawn(lines: &[Line]) -> String {
    let all = || lines.iter().flat_map(|line| line.points.iter());
    let mut scene = Scene {
        points: all().map(|(place, _)| *place).collect(),
        lines: lines.iter().flat_map(Line::segments).collect(),
        labels: vec![],
        frame: FRAME,
    };
    let [mut image, mut numbers] = [String::new(), String::new()];
    for line in lines {
        for [[x1, y1], [x2, y2]] in line.segments() {
            image += &stroke([x1, y1, x2, y2], line.colour, 1.5, line.dash);
        }
        for (place, n) in &line.points {
            let ([x, y], colour) = (place, line.colour);
            image += &format!(
                "<circle cx=\"{x:.1}\" cy=\"{y:.1}\" r=\"{RADIUS}\" fill=\"{colour}\"/>\n"
            );
            let [x, y] = scene.place(*place, n);
            numbers += &text(x, y + 0.375 * SIZE, "middle", SIZE as u32, n);
        }
    }
    image + &numbers
}

fn legend(circuits: &[String]) -> String {
    let x = FRAME[2] + 24.0;
    let mut y = FRAME[1] + 10.0;
    let mut image = String::new();
    for (circuit, colour) in circuits.iter().zip(COLOURS.iter().cycle()) {
        image += &stroke([x, y - 4.0, x + 30.0, y - 4.0], colour, 4.0, "none");
        image += &text(x + 38.0, y, "start", 13, &escaped(circuit));
        y += 22.0;
    }
    y += 10.0;
    for (family, dash) in FAMILIES.iter().zip(DASHES) {
        image += &stroke([x, y - 4.0, x + 30.0, y - 4.0], "#222", 1.5, dash);
        image += &text(x + 38.0, y, "start", 13, family.name);
        y += 22.0;
    }
    image + &text(x, y + 10.0, "start", 13, "a point's number: n parties")
}

#[cfg(test)]
mod tests {
    use super::*;

    fn some_data() -> Vec<Measured> {
        let members = FAMILIES.iter().flat_map(|family| family.members);
        let of = |circuit: &str, factor: usize| {
            let row = |counts: &_, place: usize| Measured {
                circuit: circuit.into(),
                counts: *counts,
                bytes: 3000 * factor * (place + 1),
                prove: (place + 1) as f64 * factor as f64 / 3.0,
                check: 1.0,
            };
            let rows = members.clone().enumerate();
            rows.map(|(place, counts)| row(counts, place))
                .collect::<Vec<_>>()
        };
        [of("a<b", 1), of("c", 7)].concat()
    }

    #[test]
    fn each_row_is_a_point_inside_the_frame() {
        let image = svg(&some_data(), "a test & more");
        assert_eq!(image.matches("<circle").count(), 32);
        let [left, top, right, bottom] = FRAME;
        for circle in image.lines().filter(|line| line.starts_with("<circle")) {
            let value = |name: &str| -> f64 {
                let rest = circle.split(&format!("{name}=\"")).nth(1).unwrap();
                rest.split('"').next().unwrap().parse().unwrap()
            };
            assert!((left..=right).contains(&value("cx")), "{circle}");
            assert!((top..=bottom).contains(&value("cy")), "{circle}");
        }
        assert!(image.contains("a&lt;b") && image.contains("a test &amp; more"));
    }

    /// The quickest proof is one of the first circuit, the slowest one of the second.
    #[test]
    fn each_circuit_has_its_colour() {
        let image = svg(&some_data(), "a test");
        let circles = image.lines().filter(|line| line.starts_with("<circle"));
        let mut circles: Vec<&str> = circles.collect();
        circles.sort_by(|one, other| value(one, "cx").total_cmp(&value(other, "cx")));
        let [first, last] = [circles[0], circles[circles.len() - 1]];
        assert!(first.contains(COLOURS[0]), "{first}");
        assert!(last.contains(COLOURS[1]), "{last}");
    }

    /// The labels of points, as rectangles.
    fn labels_of(image: &str) -> Vec<labels::Rect> {
        let lines = image.lines().filter(|line| {
            line.starts_with("<text") && line.contains("\"middle\" font-size=\"11\"")
        });
        let rect = |line: &str| {
            let place = |name| value(line, name);
            let text = line.split(['>', '<']).nth(2).expect("a text");
            labels::around([place("x"), place("y") - 0.375 * SIZE], text)
        };
        lines.map(rect).collect()
    }

    fn value(line: &str, name: &str) -> f64 {
        let rest = line.split(&format!(" {name}=\"")).nth(1).expect(name);
        rest.split('"').next().unwrap().parse().expect("a number")
    }

    /// No label lies on another one or on a point, also in the image of `docs/cost.md`.
    #[test]
    fn labels_can_be_read() {
        let text = include_str!("../../../docs/proof-cost.txt");
        let readme = crate::cost::read_data(text).expect("data");
        for data in [readme, some_data()] {
            let image = svg(&data, "a test");
            let labels = labels_of(&image);
            assert_eq!(labels.len(), data.len());
            for (place, label) in labels.iter().enumerate() {
                let others = &labels[place + 1..];
                assert!(!others.iter().any(|other| labels::meet(*label, *other)));
            }
            for circle in image.lines().filter(|line| line.starts_with("<circle")) {
                let [x, y] = ["cx", "cy"].map(|name| value(circle, name));
                let point = [x - RADIUS, y - RADIUS, x + RADIUS, y + RADIUS];
                let hidden = labels.iter().any(|label| labels::meet(*label, point));
                assert!(!hidden, "{circle}");
            }
        }
    }

    #[test]
    fn numbers_are_short() {
        for (value, shown) in [(0.05, "0.05"), (2.0, "2"), (5000.0, "5,000")] {
            assert_eq!(number(value), shown);
        }
        assert_eq!(number(1_000_000.0), "1,000,000");
    }

    #[test]
    fn an_axis_goes_from_end_to_end() {
        let axis = Axis::covering([3.0, 40.0].into_iter(), 0.0, 100.0);
        assert_eq!((axis.low, axis.high), (2.0, 50.0));
        assert!(axis.place(2.0).abs() < 1e-9);
        assert!((axis.place(10.0) - 50.0).abs() < 1e-9);
        let ticks: Vec<f64> = axis.ticks().collect();
        assert_eq!(ticks.len(), 5);
    }
}
