//! Other triangulations of a grid's cells: random diagonals, and Delaunay by Lawson's edge flips. Triangles come in pairs, a b c and
//! a c d of the cell a b c d, counter-clockwise.

use oracle::random::Random;
use std::collections::HashMap;

/// Two angles count as more than pi together where the sine of their sum is below this. Rounding makes far less of a sum of exactly
/// pi, so that the edge between four vertices on one circle is not flipped back and forth.
const SLACK: f64 = -1e-9;

fn cross(u: [f64; 2], v: [f64; 2]) -> f64 {
    u[0] * v[1] - u[1] * v[0]
}

fn dot(u: [f64; 2], v: [f64; 2]) -> f64 {
    u[0] * v[0] + u[1] * v[1]
}

/// The sine and the cosine of the angle between two vectors.
fn angle(u: [f64; 2], v: [f64; 2]) -> (f64, f64) {
    let lengths = (dot(u, u) * dot(v, v)).sqrt();
    (cross(u, v) / lengths, dot(u, v) / lengths)
}

/// The corner of a triangle that is not on this edge.
fn opposite(tri: [u32; 3], a: u32, b: u32) -> u32 {
    tri.into_iter().find(|&v| v != a && v != b).expect("three corners")
}

fn edges([a, b, c]: [u32; 3]) -> [(u32, u32); 3] {
    [(a, b), (b, c), (c, a)]
}

/// Cuts a cell along its other diagonal.
fn turn(cell: &mut [[u32; 3]]) {
    let ([a, b, c], d) = (cell[0], cell[1][2]);
    cell.copy_from_slice(&[[a, b, d], [b, c, d]]);
}

/// The other diagonal in about half of the cells.
pub fn turn_some(tris: &mut [[u32; 3]], mut r: Random) {
    for cell in tris.chunks_exact_mut(2) {
        if r.one_in(2) {
            turn(cell);
        }
    }
}

/// The diagonal that lies inside, in every cell: a cell need not be convex.
fn cut_inside(tris: &mut [[u32; 3]], vector: &impl Fn(u32, u32) -> [f64; 2]) {
    let counter_clockwise = |&[a, b, c]: &[u32; 3]| cross(vector(a, b), vector(a, c)) > 0.0;
    for cell in tris.chunks_exact_mut(2) {
        if !cell.iter().all(counter_clockwise) {
            turn(cell);
        }
    }
}

/// While the two angles opposite an edge add to more than pi, the edge is replaced by the other diagonal of its two triangles. Boundary
/// edges stay. This ends, since no triangulation comes twice.
fn flip_edges(tris: &mut [[u32; 3]], vector: &impl Fn(u32, u32) -> [f64; 2]) {
    let mut left_of: HashMap<(u32, u32), usize> = HashMap::new();
    let mut open: Vec<(u32, u32)> = vec![];
    for (t, &tri) in tris.iter().enumerate() {
        left_of.extend(edges(tri).map(|edge| (edge, t)));
        open.extend(edges(tri));
    }
    while let Some((a, b)) = open.pop() {
        let (Some(&s), Some(&t)) = (left_of.get(&(a, b)), left_of.get(&(b, a))) else {
            // flipped before, or on the boundary
            continue;
        };
        let (c, d) = (opposite(tris[s], a, b), opposite(tris[t], a, b));
        let (sin_c, cos_c) = angle(vector(c, a), vector(c, b));
        let (sin_d, cos_d) = angle(vector(d, b), vector(d, a));
        if sin_c * cos_d + cos_c * sin_d >= SLACK {
            continue;
        }
        left_of.remove(&(a, b));
        left_of.remove(&(b, a));
        for (at, tri) in [(s, [a, d, c]), (t, [d, b, c])] {
            tris[at] = tri;
            left_of.extend(edges(tri).map(|edge| (edge, at)));
        }
        open.extend([(a, d), (d, b), (b, c), (c, a)]);
    }
}

/// The Delaunay triangulation of the same vertices and the same boundary. `vector` leads from one vertex to another.
pub fn make_delaunay(tris: &mut [[u32; 3]], vector: impl Fn(u32, u32) -> [f64; 2]) {
    cut_inside(tris, &vector);
    flip_edges(tris, &vector);
}
