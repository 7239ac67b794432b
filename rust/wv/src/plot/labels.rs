//! Where the labels of points go, so that each can be read.

/// The font size of a label.
pub const SIZE: f64 = 11.0;
/// The radius of a point.
pub const RADIUS: f64 = 4.0;

/// A rectangle: left, top, right, bottom.
pub type Rect = [f64; 4];
/// A line from one place to another.
pub type Segment = [[f64; 2]; 2];

/// What labels keep clear of.
#[derive(Default)]
pub struct Scene {
    pub points: Vec<[f64; 2]>,
    pub lines: Vec<Segment>,
    pub labels: Vec<Rect>,
    pub frame: Rect,
}

/// The eight directions, the best one first.
const DIRECTIONS: [[f64; 2]; 8] = [
    [0.8, -0.8],
    [0.0, -1.0],
    [-0.8, -0.8],
    [1.0, 0.0],
    [-1.0, 0.0],
    [0.8, 0.8],
    [0.0, 1.0],
    [-0.8, 0.8],
];
/// How far the middle of a label is from its point.
const DISTANCES: [f64; 4] = [12.0, 15.0, 19.0, 24.0];

/// The rectangle of a text around its middle. A digit is some 0.64 of the font size
/// wide and 0.75 high.
pub fn around(middle: [f64; 2], text: &str) -> Rect {
    let [x, y] = middle;
    let half = [0.32 * SIZE * text.len() as f64, 0.375 * SIZE];
    [x - half[0], y - half[1], x + half[0], y + half[1]]
}

impl Scene {
    /// Finds the middle of a point's label, and keeps the label.
    pub fn place(&mut self, point: [f64; 2], text: &str) -> [f64; 2] {
        let all = DISTANCES.iter().flat_map(|&distance| {
            let at = move |[dx, dy]: [f64; 2]| [point[0] + distance * dx, point[1] + distance * dy];
            DIRECTIONS.map(at)
        });
        let costs = all.map(|middle| (self.cost(around(middle, text)), middle));
        let best = costs.reduce(|best, next| if next.0 < best.0 { next } else { best });
        let (_, middle) = best.expect("there are directions");
        self.labels.push(around(middle, text));
        middle
    }

    /// What a label here would hide, the worst weighing most.
    fn cost(&self, label: Rect) -> u32 {
        let [left, top, right, bottom] = self.frame;
        let [l, t, r, b] = label;
        let outside = l < left || t < top || r > right || b > bottom;
        let wide = grown(label, 1.5);
        let labels = self.labels.iter().filter(|other| meet(wide, **other));
        let points = self.points.iter().filter(|point| {
            let [x, y] = **point;
            meet(wide, [x - RADIUS, y - RADIUS, x + RADIUS, y + RADIUS])
        });
        let lines = self.lines.iter().filter(|line| crosses(wide, **line));
        let count = |number: usize| number as u32;
        1000 * u32::from(outside)
            + 100 * count(labels.count() + points.count())
            + count(lines.count())
    }
}

fn grown(rect: Rect, by: f64) -> Rect {
    [rect[0] - by, rect[1] - by, rect[2] + by, rect[3] + by]
}

/// Have the two a place in common?
pub fn meet(a: Rect, b: Rect) -> bool {
    a[0] < b[2] && b[0] < a[2] && a[1] < b[3] && b[1] < a[3]
}

/// Does the line go through the rectangle?
pub fn crosses(rect: Rect, line: Segment) -> bool {
    let [[x1, y1], [x2, y2]] = line;
    let (mut from, mut to) = (0.0_f64, 1.0_f64);
    for (start, along, low, high) in [
        (x1, x2 - x1, rect[0], rect[2]),
        (y1, y2 - y1, rect[1], rect[3]),
    ] {
        if along == 0.0 {
            if start < low || start > high {
                return false;
            }
            continue;
        }
        let [a, b] = [(low - start) / along, (high - start) / along];
        from = from.max(a.min(b));
        to = to.min(a.max(b));
    }
    from < to
}

#[cfg(test)]
mod tests {
    use super::*;

    #[test]
    fn lines_through_a_rectangle() {
        let rect = [0.0, 0.0, 10.0, 10.0];
        assert!(crosses(rect, [[-5.0, 5.0], [15.0, 5.0]]));
        assert!(crosses(rect, [[5.0, -5.0], [5.0, 15.0]]));
        assert!(crosses(rect, [[-1.0, 4.0], [4.0, -1.0]]));
        assert!(!crosses(rect, [[-5.0, 4.0], [4.0, -5.0]]));
        assert!(!crosses(rect, [[-5.0, 11.0], [15.0, 11.0]]));
        assert!(!crosses(rect, [[12.0, 5.0], [15.0, 5.0]]));
    }

    /// Points that lie close together have labels that do not meet.
    #[test]
    fn a_crowd() {
        let points: Vec<[f64; 2]> = (0..6)
            .map(|place| [50.0 + 2.0 * f64::from(place), 50.0])
            .collect();
        let mut scene = Scene {
            points: points.clone(),
            frame: [0.0, 0.0, 100.0, 100.0],
            ..Scene::default()
        };
        for point in points {
            scene.place(point, "16");
        }
        for (place, label) in scene.labels.iter().enumerate() {
            let others = &scene.labels[place + 1..];
            assert!(!others.iter().any(|other| meet(*label, *other)), "{place}");
        }
    }
}
