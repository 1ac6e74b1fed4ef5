//! A picture of the levels of a cage: a panel for each, seen obliquely from
//! above, every triangle shaded by how it lies to the light, the border drawn
//! thicker, and creases in another colour.
//!
//! All sizes are in tenths of a pixel, so that whole numbers are fine enough.
//! Only sums, products, quotients and square roots are used, which come out
//! the same on every machine.

use std::collections::BTreeMap;
use std::fmt::Write;

use ryebadger::{Cage, Refined, MARKER};

/// A panel's width and height, and the part of it that its drawing fills.
const PANEL: [f64; 2] = [4_800.0, 3_300.0];
const FILLED: f64 = 0.88;
const CAPTION: f64 = 420.0;

/// The width of level 0's lines; finer levels have finer ones.
const LINE: f64 = 7.0;

/// The seat is turned by 24 degrees and seen from 48 degrees up: so high that
/// no triangle of it hides another. Cosine and sine, sine and cosine.
const TURN: [f64; 2] = [0.9135, 0.4067];
const UP: [f64; 2] = [0.7431, 0.6691];

/// Where the light comes from.
const LIGHT: [f64; 3] = [-0.48, -0.36, 0.8];

/// The colours of the border and of creases.
const BORDER: &str = "#c2542d";
const CREASE: &str = "#7b2d6b";

/// From the darkest triangle to the lightest, in so many steps.
const DARK: [f64; 3] = [58.0, 88.0, 110.0];
const BRIGHT: [f64; 3] = [240.0, 246.0, 247.0];
const SHADES: f64 = 40.0;

type Point = [f64; 3];

/// The picture of all levels, two panels beside each other.
pub fn svg(refined: &Refined) -> String {
    let cage = refined.level(0).unwrap_or_default();
    let is_creased = cage.crease_table().iter().any(|&number| number > 0);
    let seam = if is_creased { " with a seam" } else { "" };
    let rows = refined.levels().count().div_ceil(2) as f64;
    let (width, height) = (2.0 * PANEL[0], rows * (PANEL[1] + CAPTION));
    let (pixels, lines) = (width / 10.0, height / 10.0);
    let mut text = format!(
        r##"<svg xmlns="http://www.w3.org/2000/svg" viewBox="0 0 {width} {height}" width="{pixels}" height="{lines}">
<title>A cage{seam} and its first three levels</title>
<rect width="100%" height="100%" fill="#fbfaf7"/>
"##
    );
    let view = View::of(cage);
    for (number, level) in refined.levels().enumerate() {
        let (column, row) = ((number % 2) as f64, (number / 2) as f64);
        let (x, y) = (column * PANEL[0], row * (PANEL[1] + CAPTION));
        text += &format!("<g transform=\"translate({x} {y})\">\n");
        text += &triangles(level, &view, LINE / (number + 1) as f64);
        text += &edge_lines(level, &view, CREASE, |h| is_crease(level, h));
        text += &edge_lines(level, &view, BORDER, |h| level.twin[h] == MARKER);
        text += &caption(number, level);
        text += "</g>\n";
    }
    text + "</svg>\n"
}

fn triangles(level: Cage<'_>, view: &View, line: f64) -> String {
    let mut text = format!(
        r##"<g stroke="#1d3a4f" stroke-opacity=".55" stroke-width="{line:.1}" stroke-linejoin="round">
"##
    );
    for (shade, outlines) in shaded_outlines(level, view) {
        text += &format!("<path fill=\"{}\" d=\"{outlines}\"/>\n", colour(shade));
    }
    text + "</g>\n"
}

/// A line for each of these halfedges.
fn edge_lines(
    level: Cage<'_>,
    view: &View,
    colour: &str,
    is_drawn: impl Fn(usize) -> bool,
) -> String {
    let mut lines = String::new();
    for h in (0..level.twin.len()).filter(|&h| is_drawn(h)) {
        let next = if h % 3 == 2 { h - 2 } else { h + 1 };
        let ends = [h, next].map(|h| view.place(point(level, level.vert[h])));
        let [[x, y], [to_x, to_y]] = ends;
        // Writing to a String cannot fail.
        let _ = write!(lines, "M{x} {y}l{} {}", to_x - x, to_y - y);
    }
    format!(
        r##"<path fill="none" stroke="{colour}" stroke-width="18" stroke-linecap="round" d="{lines}"/>
"##
    )
}

/// Whether this halfedge is the higher one of an edge with a number above 0.
fn is_crease(level: Cage<'_>, h: usize) -> bool {
    let number = level.crease_table()[level.edge[h] as usize];
    number > 0 && level.twin[h] < h as u32
}

fn caption(number: usize, level: Cage<'_>) -> String {
    let (middle, base) = (PANEL[0] / 2.0, PANEL[1] + CAPTION / 2.0);
    let (h, v) = (level.twin.len(), level.points.len() / 3);
    format!(
        r##"<text x="{middle}" y="{base}" text-anchor="middle" fill="#1d3a4f" font-family="sans-serif" font-size="170">level {number}: H {h}, V {v}</text>
"##
    )
}

/// The outlines of the triangles of each shade.
fn shaded_outlines(level: Cage<'_>, view: &View) -> BTreeMap<u32, String> {
    let mut by_shade: BTreeMap<u32, String> = BTreeMap::new();
    for corners in level.vert.chunks_exact(3) {
        let corners = [corners[0], corners[1], corners[2]].map(|vertex| point(level, vertex));
        let outlines = by_shade.entry(shade(corners)).or_default();
        let [[ax, ay], [bx, by], [cx, cy]] = corners.map(|corner| view.place(corner));
        let (b, c) = ((bx - ax, by - ay), (cx - bx, cy - by));
        let _ = write!(outlines, "M{ax} {ay}l{} {} {} {}z", b.0, b.1, c.0, c.1);
    }
    by_shade
}

fn point(level: Cage<'_>, vertex: u32) -> Point {
    let first = 3 * vertex as usize;
    [0, 1, 2].map(|axis| f64::from(level.points[first + axis]))
}

/// How light a triangle is, by the angle between its normal and the light.
fn shade([a, b, c]: [Point; 3]) -> u32 {
    let (p, q) = (minus(b, a), minus(c, a));
    let normal = [
        p[1] * q[2] - p[2] * q[1],
        p[2] * q[0] - p[0] * q[2],
        p[0] * q[1] - p[1] * q[0],
    ];
    let length = dot(normal, normal).sqrt().max(1.0);
    // A seat lies flat, so the range is narrowed to what its slopes take up.
    let facing = (dot(normal, LIGHT) / length - 0.35) / 0.65;
    (facing.clamp(0.0, 1.0) * SHADES).round() as u32
}

fn colour(shade: u32) -> String {
    let part = f64::from(shade) / SHADES;
    let [red, green, blue] =
        [0, 1, 2].map(|at| (DARK[at] + part * (BRIGHT[at] - DARK[at])).round() as u8);
    format!("#{red:02x}{green:02x}{blue:02x}")
}

fn minus(a: Point, b: Point) -> Point {
    [a[0] - b[0], a[1] - b[1], a[2] - b[2]]
}

fn dot(a: Point, b: Point) -> f64 {
    a[0] * b[0] + a[1] * b[1] + a[2] * b[2]
}

/// The view that puts the cage in the middle of a panel.
struct View {
    scale: f64,
    middle: [f64; 2],
}

impl View {
    fn of(cage: Cage<'_>) -> View {
        let flat: Vec<[f64; 2]> = cage
            .points
            .chunks_exact(3)
            .map(|point| flattened([point[0], point[1], point[2]].map(f64::from)))
            .collect();
        let [across, along] = [0, 1].map(|axis| {
            let places = flat.iter().map(|place| place[axis]);
            let low = places.clone().fold(f64::INFINITY, f64::min);
            (low, places.fold(f64::NEG_INFINITY, f64::max))
        });
        let size = |(low, high): (f64, f64)| (high - low).max(1.0);
        View {
            scale: FILLED * (PANEL[0] / size(across)).min(PANEL[1] / size(along)),
            middle: [across, along].map(|(low, high)| (low + high) / 2.0),
        }
    }

    /// Where a point is drawn in its panel.
    fn place(&self, point: Point) -> [i32; 2] {
        let flat = flattened(point);
        [0, 1].map(|axis| {
            let from_middle = (flat[axis] - self.middle[axis]) * self.scale;
            (PANEL[axis] / 2.0 + from_middle).round() as i32
        })
    }
}

/// A point as it is seen: across, and down.
fn flattened([x, y, z]: Point) -> [f64; 2] {
    let (across, away) = (TURN[0] * x - TURN[1] * y, TURN[1] * x + TURN[0] * y);
    [across, -(UP[0] * away + UP[1] * z)]
}
