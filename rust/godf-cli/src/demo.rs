//! Floors made on the spot: a lattice of triangles, cut along the boundary of a shape and smoothed.

use crate::{arguments::Demo, text::OwnedFloor};
use godf::{BoundaryMode, MOST_POINTS};
use std::collections::HashMap;

type Point = [f64; 2];

/// The most points that a demo is asked for: more than are solved.
pub const MOST_ASKED: usize = 4 * MOST_POINTS;
/// The fewest, so that every demo keeps its shape.
pub const LEAST_ASKED: usize = 200;

/// A demo: its shape, below 0 inside and about the distance from its boundary; its sizes; and how it is solved.
pub struct Scene {
    pub name: &'static str,
    /// How far the shape reaches from the origin in x and in y.
    reach: Point,
    shape: fn(Point) -> f64,
    size: fn(Point) -> f64,
    pub points: usize,
    pub boundary: BoundaryMode,
    pub adaptive: f64,
}

/// By the root alone, which is the same on every machine, so that a demo is.
fn length(x: f64, y: f64) -> f64 {
    (x * x + y * y).sqrt()
}

fn circle([x, y]: Point, [cx, cy]: Point, radius: f64) -> f64 {
    length(x - cx, y - cy) - radius
}

/// A rectangle with round corners, by its middle and the half of its sides.
fn rounded([x, y]: Point, [cx, cy]: Point, [w, h]: Point, radius: f64) -> f64 {
    let (u, v) = ((x - cx).abs() - (w - radius), (y - cy).abs() - (h - radius));
    length(u.max(0.0), v.max(0.0)) + u.max(v).min(0.0) - radius
}

/// Both shapes, with the inner corners between them filled round.
fn joined(a: f64, b: f64, fillet: f64) -> f64 {
    let h = (fillet - (a - b).abs()).max(0.0) / fillet;
    a.min(b) - h * h * fillet / 4.0
}

const HOLE: (Point, f64) = ([0.28, 0.06], 0.34);

fn plate(p: Point) -> f64 {
    rounded(p, [0.0; 2], [1.5, 0.95], 0.4).max(-circle(p, HOLE.0, HOLE.1))
}

/// The buildings in the yard.
fn buildings(p: Point) -> f64 {
    rounded(p, [-1.35, -0.55], [0.62, 0.38], 0.12)
        .min(rounded(p, [0.75, 0.85], [0.34, 0.6], 0.12))
        .min(circle(p, [0.45, -0.7], 0.36))
}

fn yard(p: Point) -> f64 {
    let ground = joined(
        rounded(p, [0.0, -0.5], [2.4, 1.1], 0.35),
        rounded(p, [0.6, 0.4], [1.2, 1.5], 0.5),
        0.5,
    );
    ground.max(-buildings(p))
}

impl Demo {
    pub fn scene(self) -> Scene {
        match self {
            Self::Disk => Scene {
                name: "disk",
                reach: [1.0, 1.0],
                shape: |p| circle(p, [0.0; 2], 1.0),
                size: |_| 1.0,
                points: 600,
                boundary: BoundaryMode::Tangent,
                adaptive: 0.25,
            },
            // finer quads round the hole
            Self::Plate => Scene {
                name: "plate",
                reach: [1.5, 0.95],
                shape: plate,
                size: |p| 1.0 + 0.5 * circle(p, HOLE.0, HOLE.1).max(0.0),
                points: 600,
                boundary: BoundaryMode::Tangent,
                adaptive: 0.2,
            },
            // finer quads along the walls
            Self::Yard => Scene {
                name: "yard",
                reach: [2.4, 1.9],
                shape: yard,
                size: |p| 1.0 + 0.3 * buildings(p).max(0.0),
                points: 3000,
                boundary: BoundaryMode::Tangent,
                adaptive: 0.2,
            },
        }
    }
}

/// How far along the side from a to b the boundary lies.
fn crossing(shape: fn(Point) -> f64, a: Point, b: Point) -> f64 {
    let (mut low, mut high) = (0.0, 1.0);
    let inside = shape(a) < 0.0;
    for _ in 0..40 {
        let middle = 0.5 * (low + high);
        if (shape(between(a, b, middle)) < 0.0) == inside {
            low = middle;
        } else {
            high = middle;
        }
    }
    0.5 * (low + high)
}

fn between(a: Point, b: Point, t: f64) -> Point {
    [a[0] + t * (b[0] - a[0]), a[1] + t * (b[1] - a[1])]
}

fn far(a: Point, b: Point) -> f64 {
    length(a[0] - b[0], a[1] - b[1])
}

/// A lattice over a shape: positions, values of the shape there, and triangles.
struct Lattice {
    shape: fn(Point) -> f64,
    at: Vec<Point>,
    value: Vec<f64>,
    triangles: Vec<[usize; 3]>,
}

impl Lattice {
    fn over(scene: &Scene, step: f64) -> Self {
        let rise = step * 0.75f64.sqrt();
        let (columns, rows) = (
            (scene.reach[0] / step) as usize + 2,
            (scene.reach[1] / rise) as usize + 2,
        );
        let (w, h) = (2 * columns + 1, 2 * rows + 1);
        let place = |k: usize| {
            let (i, j) = ((k % w) as f64 - columns as f64, (k / w) as f64 - rows as f64);
            let shift = if k / w % 2 == 0 { -0.25 } else { 0.25 };
            [step * (i + shift), rise * j]
        };
        let at: Vec<Point> = (0..w * h).map(place).collect();
        let mut triangles = vec![];
        for j in 0..h - 1 {
            for i in 0..w - 1 {
                let [a, b, c, d] = [j * w + i, j * w + i + 1, (j + 1) * w + i + 1, (j + 1) * w + i];
                let halves = if j % 2 == 0 {
                    [[a, b, d], [b, c, d]]
                } else {
                    [[a, b, c], [a, c, d]]
                };
                triangles.extend(halves);
            }
        }
        let value = at.iter().map(|&p| (scene.shape)(p)).collect();
        Self {
            shape: scene.shape,
            at,
            value,
            triangles,
        }
    }

    fn crosses(&self, a: usize, b: usize) -> bool {
        self.value[a] * self.value[b] < 0.0
    }

    /// Points close to the boundary move onto it, so that no piece that is cut off is thin.
    fn snap(&mut self) {
        const CLOSE: f64 = 0.35;
        let mut nearest: HashMap<usize, (f64, Point)> = HashMap::new();
        for t in &self.triangles {
            for k in 0..3 {
                let (a, b) = (t[k], t[(k + 1) % 3]);
                if !self.crosses(a, b) {
                    continue;
                }
                let part = crossing(self.shape, self.at[a], self.at[b]);
                let to = between(self.at[a], self.at[b], part);
                for (v, part) in [(a, part), (b, 1.0 - part)] {
                    let best = nearest.get(&v).map_or(CLOSE, |best| best.0);
                    if part < best {
                        nearest.insert(v, (part, to));
                    }
                }
            }
        }
        for (v, (_, to)) in nearest {
            (self.at[v], self.value[v]) = (to, 0.0);
        }
    }

    /// The triangles and parts of triangles inside the shape.
    fn cut(mut self) -> (Vec<Point>, Vec<[usize; 3]>) {
        let mut cuts: HashMap<(usize, usize), usize> = HashMap::new();
        let mut kept = vec![];
        for t in std::mem::take(&mut self.triangles) {
            let middle = [0, 1].map(|i| t.iter().map(|&v| self.at[v][i]).sum::<f64>() / 3.0);
            if t.iter().all(|&v| self.value[v] == 0.0) && (self.shape)(middle) >= 0.0 {
                continue;
            }
            let mut rim = vec![];
            for k in 0..3 {
                let (a, b) = (t[k], t[(k + 1) % 3]);
                if self.value[a] <= 0.0 {
                    rim.push(a);
                }
                if self.crosses(a, b) {
                    let (a, b) = (a.min(b), a.max(b));
                    let to = between(self.at[a], self.at[b], crossing(self.shape, self.at[a], self.at[b]));
                    rim.push(*cuts.entry((a, b)).or_insert_with(|| {
                        self.at.push(to);
                        self.at.len() - 1
                    }));
                }
            }
            match rim[..] {
                [a, b, c] => kept.push([a, b, c]),
                [a, b, c, d] if far(self.at[a], self.at[c]) < far(self.at[b], self.at[d]) => {
                    kept.extend([[a, b, c], [a, c, d]]);
                }
                [a, b, c, d] => kept.extend([[a, b, d], [b, c, d]]),
                _ => {}
            }
        }
        // only the points that are used, in the order of the lattice
        let mut used = vec![false; self.at.len()];
        kept.iter().flatten().for_each(|&v| used[v] = true);
        let mut names = vec![0; self.at.len()];
        let mut points = vec![];
        for (v, name) in names.iter_mut().enumerate().filter(|(v, _)| used[*v]) {
            *name = points.len();
            points.push(self.at[v]);
        }
        (points, kept.iter().map(|t| t.map(|v| names[v])).collect())
    }
}

/// The neighbours of each point; of a point on the boundary those along it, and true.
fn neighbours(points: usize, triangles: &[[usize; 3]]) -> Vec<(bool, Vec<usize>)> {
    let mut sides: HashMap<(usize, usize), usize> = HashMap::new();
    for t in triangles {
        for k in 0..3 {
            let (a, b) = (t[k], t[(k + 1) % 3]);
            *sides.entry((a.min(b), a.max(b))).or_insert(0) += 1;
        }
    }
    // in an order that does not hang on the map's
    let mut sides: Vec<((usize, usize), usize)> = sides.into_iter().collect();
    sides.sort_unstable();
    let mut near = vec![(false, vec![]); points];
    for &((a, b), times) in &sides {
        if times == 1 {
            near[a].0 = true;
            near[b].0 = true;
        }
    }
    for ((a, b), times) in sides {
        for (v, other) in [(a, b), (b, a)] {
            if times == 1 || !near[v].0 {
                near[v].1.push(other);
            }
        }
    }
    near
}

/// Moves each point towards the middle of its neighbours, and those of the boundary back onto it.
fn smooth(shape: fn(Point) -> f64, points: &mut [Point], triangles: &[[usize; 3]]) {
    const TURNS: usize = 6;
    let near = neighbours(points.len(), triangles);
    for _ in 0..TURNS {
        for (v, (rim, near)) in near.iter().enumerate() {
            let mean = [0, 1].map(|i| near.iter().map(|&o| points[o][i]).sum::<f64>() / near.len() as f64);
            let mut p = between(points[v], mean, 0.5);
            if *rim {
                for _ in 0..3 {
                    p = onto(shape, p);
                }
            }
            points[v] = p;
        }
    }
}

/// The angle at b of the corner a b c.
fn angle(a: Point, b: Point, c: Point) -> f64 {
    let (u, v) = ([a[0] - b[0], a[1] - b[1]], [c[0] - b[0], c[1] - b[1]]);
    (u[0] * v[1] - u[1] * v[0]).abs().atan2(u[0] * v[0] + u[1] * v[1])
}

/// Takes the other diagonal of two triangles where the angles that look at theirs add to more than a half turn.
fn flip(points: &[Point], triangles: &mut [[usize; 3]]) {
    let mut across: HashMap<(usize, usize), (usize, usize)> = HashMap::new();
    for (k, t) in triangles.iter().enumerate() {
        for i in 0..3 {
            across.insert((t[i], t[(i + 1) % 3]), (k, t[(i + 2) % 3]));
        }
    }
    let mut moved = vec![false; triangles.len()];
    for k in 0..triangles.len() {
        for i in 0..3 {
            let [a, b, c] = [0, 1, 2].map(|j| triangles[k][(i + j) % 3]);
            let Some(&(l, d)) = across.get(&(b, a)) else { continue };
            if moved[k] || moved[l] || across.get(&(a, b)) != Some(&(k, c)) {
                continue;
            }
            let seen = |v: usize| angle(points[a], points[v], points[b]);
            if seen(c) + seen(d) > std::f64::consts::PI + 1e-9 {
                (triangles[k], triangles[l]) = ([d, c, a], [c, d, b]);
                (moved[k], moved[l]) = (true, true);
            }
        }
    }
}

/// One of Newton's steps towards the boundary.
fn onto(shape: fn(Point) -> f64, p: Point) -> Point {
    const SMALL: f64 = 1e-6;
    let value = shape(p);
    let slope = [
        (shape([p[0] + SMALL, p[1]]) - shape([p[0] - SMALL, p[1]])) / (2.0 * SMALL),
        (shape([p[0], p[1] + SMALL]) - shape([p[0], p[1] - SMALL])) / (2.0 * SMALL),
    ];
    let square = slope[0] * slope[0] + slope[1] * slope[1];
    [p[0] - value * slope[0] / square, p[1] - value * slope[1] / square]
}

impl Scene {
    /// The floor, with at most `asked` points and nearly as many.
    pub fn floor(&self, asked: usize) -> OwnedFloor {
        let make = |step: f64| {
            let mut lattice = Lattice::over(self, step);
            lattice.snap();
            lattice.cut()
        };
        let mut step = (self.reach[0] * self.reach[1] * 4.0 / asked as f64).sqrt();
        let mut best = make(step);
        for _ in 0..12 {
            let count = best.0.len() as f64;
            if best.0.len() <= asked && count >= 0.98 * asked as f64 {
                break;
            }
            step *= (count / (0.99 * asked as f64)).sqrt();
            best = make(step);
        }
        while best.0.len() > asked {
            step *= 1.005;
            best = make(step);
        }
        let (mut points, mut triangles) = best;
        for _ in 0..5 {
            smooth(self.shape, &mut points, &triangles);
            flip(&points, &mut triangles);
        }
        OwnedFloor {
            sizes: points.iter().map(|&p| (self.size)(p)).collect(),
            points: points.iter().map(|p| [p[0], p[1], 0.0]).collect(),
            triangles: triangles.iter().map(|t| t.map(|v| v as u32)).collect(),
            name: self.name.to_string(),
            ..OwnedFloor::default()
        }
    }
}

#[cfg(test)]
mod tests {
    use super::*;

    /// The least and the greatest angle of all triangles, in degrees; both NaN or below 0 where one is turned over.
    fn angles(floor: &OwnedFloor) -> (f64, f64) {
        let mut all = vec![];
        for t in &floor.triangles {
            let p = t.map(|v| floor.points[v as usize]);
            for k in 0..3 {
                let [a, b, c] = [p[k], p[(k + 1) % 3], p[(k + 2) % 3]];
                let (u, v) = ([b[0] - a[0], b[1] - a[1]], [c[0] - a[0], c[1] - a[1]]);
                all.push(
                    (u[0] * v[1] - u[1] * v[0])
                        .atan2(u[0] * v[0] + u[1] * v[1])
                        .to_degrees(),
                );
            }
        }
        all.sort_by(f64::total_cmp);
        (all[0], all[all.len() - 1])
    }

    #[test]
    fn floors_are_well_shaped() {
        for demo in [Demo::Disk, Demo::Plate, Demo::Yard] {
            let scene = demo.scene();
            for asked in [LEAST_ASKED, scene.points, 5000] {
                let floor = scene.floor(asked);
                let (n, (least, most)) = (floor.points.len(), angles(&floor));
                println!(
                    "{} {n} of {asked}, {} triangles: {least:.1} to {most:.1}",
                    scene.name,
                    floor.triangles.len()
                );
                assert!(n <= asked && n * 5 >= asked * 4, "{} {asked}: {n}", scene.name);
                assert!(
                    least > 15.0 && most < 140.0,
                    "{} {asked}: {least} to {most}",
                    scene.name
                );
                assert!(floor.sizes.iter().all(|s| *s > 0.0));
            }
        }
    }

    #[test]
    fn floors_are_the_same_each_time() {
        assert_eq!(Demo::Plate.scene().floor(700), Demo::Plate.scene().floor(700));
    }
}
