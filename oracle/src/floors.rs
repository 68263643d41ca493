//! Floors of many kinds, good and damaged: grids with jitter, random triangulations, plates with holes, thin strips, disks, several
//! components, sides in many triangles, triangles twice, closed floors, any corners at all; either winding, any numbering, any scale.

use crate::random::Random;

#[derive(Clone)]
pub struct Floor {
    pub points: Vec<[f64; 3]>,
    pub tris: Vec<[u32; 3]>,
}

/// A grid of w by h points, one apart, two triangles a square.
pub fn grid(w: usize, h: usize) -> Floor {
    let points = (0..w * h).map(|k| [(k % w) as f64, (k / w) as f64, 0.0]).collect();
    let mut tris = vec![];
    for j in 0..h - 1 {
        for i in 0..w - 1 {
            let [a, b, c, d] = [j * w + i, j * w + i + 1, (j + 1) * w + i + 1, (j + 1) * w + i].map(|v| v as u32);
            tris.extend([[a, b, c], [a, c, d]]);
        }
    }
    Floor { points, tris }
}

/// A grid whose last row and column go round to the first: as many points, and no boundary.
pub fn wrapped(w: usize, h: usize) -> Floor {
    let mut floor = Floor {
        points: grid(w, h).points,
        tris: vec![],
    };
    for y in 0..h {
        for x in 0..w {
            let at = |x: usize, y: usize| ((y % h) * w + x % w) as u32;
            let [a, b, c, d] = [at(x, y), at(x + 1, y), at(x + 1, y + 1), at(x, y + 1)];
            floor.tris.extend([[a, b, c], [a, c, d]]);
        }
    }
    floor
}

/// Rings of sectors round a middle point, or round a hole.
pub fn disk(rings: usize, sectors: usize, hole: bool) -> Floor {
    let mut floor = Floor {
        points: vec![],
        tris: vec![],
    };
    for ring in 0..=rings {
        for sector in 0..sectors {
            let turn = std::f64::consts::TAU * sector as f64 / sectors as f64;
            let radius = 0.35 + ring as f64;
            floor.points.push([radius * turn.cos(), radius * turn.sin(), 0.0]);
        }
    }
    for ring in 0..rings {
        for sector in 0..sectors {
            let next = (sector + 1) % sectors;
            let at = |ring: usize, sector: usize| (ring * sectors + sector) as u32;
            let [a, b, c, d] = [
                at(ring, sector),
                at(ring + 1, sector),
                at(ring + 1, next),
                at(ring, next),
            ];
            floor.tris.extend([[a, b, c], [a, c, d]]);
        }
    }
    if !hole {
        let middle = floor.points.len() as u32;
        floor.points.push([0.0; 3]);
        floor
            .tris
            .extend((0..sectors).map(|s| [middle, s as u32, ((s + 1) % sectors) as u32]));
    }
    floor
}

/// A square, points put into random triangles of it, and random diagonals turned.
fn triangulation(r: &mut Random, most: usize) -> Floor {
    let n = 4 + r.below(most);
    let mut floor = grid(2, 2);
    while floor.points.len() < n {
        let k = r.below(floor.tris.len());
        let [a, b, c] = floor.tris[k];
        let (u, v) = (r.between(0.1, 0.6), r.between(0.1, 0.9));
        let at = |i: usize| {
            let [p, q, s] = [a, b, c].map(|v| floor.points[v as usize][i]);
            u * p + (1.0 - u) * (v * q + (1.0 - v) * s)
        };
        let point = [at(0), at(1), 0.0];
        let m = floor.points.len() as u32;
        floor.points.push(point);
        floor.tris[k] = [a, b, m];
        floor.tris.extend([[b, c, m], [c, a, m]]);
    }
    for _ in 0..2 * n {
        turn_diagonal(r, &mut floor);
    }
    floor
}

fn area(p: &[[f64; 3]], [a, b, c]: [u32; 3]) -> f64 {
    let [a, b, c] = [a, b, c].map(|v| p[v as usize]);
    (b[0] - a[0]) * (c[1] - a[1]) - (b[1] - a[1]) * (c[0] - a[0])
}

fn turn_diagonal(r: &mut Random, floor: &mut Floor) {
    let k = r.below(floor.tris.len());
    let [a, b, c] = floor.tris[k];
    let other = floor
        .tris
        .iter()
        .position(|t| (0..3).any(|i| t[i] == c && t[(i + 1) % 3] == b));
    if let Some(l) = other {
        let Some(&d) = floor.tris[l].iter().find(|&&v| v != b && v != c) else {
            return;
        };
        let (first, second) = ([a, b, d], [a, d, c]);
        if area(&floor.points, first) > 1e-3 && area(&floor.points, second) > 1e-3 {
            floor.tris[k] = first;
            floor.tris[l] = second;
        }
    }
}

fn jitter(r: &mut Random, floor: &mut Floor, by: f64) {
    for p in &mut floor.points {
        *p = [p[0] + r.between(-by, by), p[1] + r.between(-by, by), p[2]];
    }
}

/// Any corners at all, but no corner twice.
fn soup(r: &mut Random) -> Floor {
    let (n, t) = (3 + r.below(6), 1 + r.below(8));
    let points = (0..n).map(|_| [r.unit(), r.unit(), 0.0]).collect();
    let mut tris = vec![];
    while tris.len() < t {
        let [a, b, c] = [r.below(n), r.below(n), r.below(n)].map(|v| v as u32);
        if a != b && b != c && c != a {
            tris.push([a, b, c]);
        }
    }
    Floor { points, tris }
}

/// Both floors, the second beside the first.
fn joined(mut one: Floor, two: Floor) -> Floor {
    let n = one.points.len() as u32;
    let right = one.points.iter().fold(0.0, |x, p| p[0].max(x)) + 1.0;
    let left = two.points.iter().fold(0.0, |x, p| p[0].min(x));
    one.points
        .extend(two.points.iter().map(|p| [p[0] + right - left, p[1], p[2]]));
    one.tris.extend(two.tris.iter().map(|t| t.map(|v| v + n)));
    one
}

impl Floor {
    /// Leaves out the points that no triangle uses.
    pub fn compact(&mut self) {
        let mut names = vec![u32::MAX; self.points.len()];
        let mut kept = vec![];
        for t in &mut self.tris {
            for v in t {
                let name = &mut names[*v as usize];
                if *name == u32::MAX {
                    *name = kept.len() as u32;
                    kept.push(self.points[*v as usize]);
                }
                *v = *name;
            }
        }
        self.points = kept;
    }
}

fn shuffled(r: &mut Random, n: usize) -> Vec<usize> {
    let mut order: Vec<usize> = (0..n).collect();
    for i in (1..n).rev() {
        order.swap(i, r.below(i + 1));
    }
    order
}

/// Other numbers for the points, another order of the triangles, other first corners, either winding.
fn renamed(r: &mut Random, floor: &Floor) -> Floor {
    let names = shuffled(r, floor.points.len());
    let mut points = floor.points.clone();
    for (old, &new) in names.iter().enumerate() {
        points[new] = floor.points[old];
    }
    let order = shuffled(r, floor.tris.len());
    let windings = r.below(3);
    let tris = order.iter().map(|&k| {
        let mut t = floor.tris[k].map(|v| names[v as usize] as u32);
        t.rotate_left(r.below(3));
        if windings == 1 || (windings == 2 && r.one_in(2)) {
            t.swap(1, 2);
        }
        t
    });
    let tris = tris.collect();
    Floor { points, tris }
}

/// Scaled, turned and moved: mostly by little, now and then to the ends of the format.
fn placed(r: &mut Random, floor: &mut Floor) {
    let scale = match r.below(12) {
        0 => r.scale(-3.0, 3.0),
        1 => r.scale(-8.0, 8.0),
        2 => r.scale(-162.0, 154.0),
        _ => 1.0,
    };
    let turn = if r.one_in(3) { r.between(0.0, 6.3) } else { 0.0 };
    let (sin, cos) = turn.sin_cos();
    let (x, y) = if r.one_in(4) {
        (scale * r.between(-9.0, 9.0), scale * r.between(-9.0, 9.0))
    } else {
        (0.0, 0.0)
    };
    for p in &mut floor.points {
        *p = [
            scale * (cos * p[0] - sin * p[1]) + x,
            scale * (sin * p[0] + cos * p[1]) + y,
            p[2],
        ];
    }
    if r.one_in(5) {
        floor.points.iter_mut().for_each(|p| p[2] = r.any());
    }
}

fn good(r: &mut Random, most: usize) -> Floor {
    let side = |r: &mut Random| 2 + r.below(((most as f64).sqrt() as usize).max(2));
    match r.below(8) {
        0 => grid(2, 2),
        1 => triangulation(r, most),
        2 => {
            // a plate with holes
            let mut floor = grid(side(r) + 1, side(r) + 1);
            for _ in 0..1 + r.below(3) {
                let k = r.below(floor.tris.len() / 2);
                floor.tris.drain(2 * k..2 * k + 2);
                if floor.tris.len() < 4 {
                    break;
                }
            }
            floor.compact();
            floor
        }
        3 => {
            let mut floor = grid(2 + r.below(most / 2), 2);
            let thin = r.scale(-6.0, 0.0);
            floor.points.iter_mut().for_each(|p| p[1] *= thin);
            // columns of very different widths
            if r.one_in(2) {
                let columns = floor.points.len() / 2;
                let mut x = 0.0;
                for i in 0..columns {
                    floor.points[i][0] = x;
                    floor.points[columns + i][0] = x;
                    x += r.scale(-5.0, 0.0);
                }
            }
            floor
        }
        4 => disk(1 + r.below(2), 3 + r.below(5), r.one_in(2)),
        _ => {
            let mut floor = grid(side(r), side(r));
            let by = r.pick(&[0.0, 0.0, 0.1, 0.3]);
            jitter(r, &mut floor, by);
            floor
        }
    }
}

/// Damages that a pass accepts: sides in three triangles, triangles twice, a corner moved.
fn damage(r: &mut Random, floor: &mut Floor) {
    let t = floor.tris[r.below(floor.tris.len())];
    match r.below(4) {
        0 => floor.tris.push(t),
        1 => floor.tris.extend(floor.tris.clone()),
        2 => {
            let m = floor.points.len() as u32;
            floor.points.push([r.between(-1.0, 3.0), r.between(-1.0, 3.0), 0.0]);
            floor.tris.push([t[0], t[1], m]);
        }
        _ => {
            let k = r.below(floor.points.len());
            floor.points[k][r.below(2)] += r.between(-2.0, 2.0);
        }
    }
}

/// A floor of about so many points at most, and its points before they were scaled, turned and moved.
pub fn floor(r: &mut Random, most: usize) -> (Floor, Vec<[f64; 3]>) {
    let mut floor = match r.below(12) {
        0 => soup(r),
        1 => joined(good(r, most / 2), good(r, most / 2)),
        2 => wrapped(3 + r.below(2), 3 + r.below(2)),
        3 => grid(2, 2),
        _ => good(r, most),
    };
    if r.one_in(12) {
        floor.tris.truncate(1);
    }
    if r.one_in(6) {
        damage(r, &mut floor);
    }
    floor.compact();
    if r.one_in(2) {
        floor = renamed(r, &floor);
    }
    let before = floor.points.clone();
    placed(r, &mut floor);
    (floor, before)
}
