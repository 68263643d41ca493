//! Calls of godf_vertex_lists and godf_vertex_product, sound and damaged, and what include/godf.h says of any of them: the inputs and
//! the model of products.rs.

use crate::{floors, godf::Factors, random::Random, reference::Pair};

const MOST_VERTICES: usize = 60;
/// Of a floor, about.
const MOST_POINTS: usize = 48;

/// Edge numbers and the counts of entries are below this.
const NUMBERS: u128 = 1 << 32;

type Ends = Vec<(usize, usize)>;

/// Two different vertices of the first n.
fn two(r: &mut Random, n: usize) -> (usize, usize) {
    let a = r.below(n);
    (a, (a + 1 + r.below(n - 1)) % n)
}

fn some(r: &mut Random, n: usize, count: usize) -> Ends {
    (0..count).map(|_| two(r, n)).collect()
}

/// The sides of a floor, lower end first, in the order first met.
fn sides(r: &mut Random) -> (usize, Ends) {
    let (floor, _) = floors::floor(r, MOST_POINTS);
    let mut sides: Ends = vec![];
    for t in &floor.tris {
        let [a, b, c] = t.map(|v| v as usize);
        for (u, v) in [(a, b), (b, c), (c, a)] {
            let side = (u.min(v), u.max(v));
            if u != v && !sides.contains(&side) {
                sides.push(side);
            }
        }
    }
    (floor.points.len(), sides)
}

/// So many vertices, and edges of some shape between them.
fn graph(r: &mut Random) -> (usize, Ends) {
    let n = 2 + r.below(MOST_VERTICES - 1);
    let (hub, few) = (r.below(n), 2 + r.below(n.min(6) - 1));
    let ends = match r.below(8) {
        0 => return (r.below(MOST_VERTICES + 1), vec![]),
        1 | 2 => return sides(r),
        // every edge at one vertex
        3 => (0..n).filter(|&v| v != hub).map(|v| (hub, v)).collect(),
        4 => (1..n).map(|v| (v - 1, v)).collect(),
        // among the first vertices alone, many times over, so that the others are isolated
        5 => {
            let count = r.below(40);
            some(r, few, count)
        }
        // each edge twice
        6 => {
            let count = r.below(n);
            some(r, n, count).iter().flat_map(|&edge| [edge; 2]).collect()
        }
        _ => {
            let count = r.below(3 * n);
            some(r, n, count)
        }
    };
    (n, ends)
}

const KINDS: usize = 8;

/// A number of a kind: plain, zero, whole, of any size, with a special one now and then, subnormal, huge, or of any of these.
fn number(r: &mut Random, kind: usize) -> f64 {
    match kind {
        0 => r.between(-10.0, 10.0),
        1 => r.pick(&[0.0, -0.0, 1.0, -1.0]),
        // few of them, so that sums cancel
        2 => r.below(7) as f64 - 3.0,
        3 => r.sign() * r.scale(-300.0, 300.0),
        4 if r.one_in(12) => r.any(),
        4 => r.between(-1.0, 1.0),
        5 => r.sign() * f64::from_bits(r.bits() >> (12 + r.below(52))),
        6 => r.sign() * r.near_one(&[f64::MAX, 1.7e308, 1e200, 1.4e154], 2),
        _ => {
            let kind = r.below(KINDS - 1);
            number(r, kind)
        }
    }
}

fn numbers(r: &mut Random, kind: usize, count: usize) -> Vec<f64> {
    (0..count).map(|_| number(r, kind)).collect()
}

/// Up to three numbers more, which a call is not to read.
fn with_spare(r: &mut Random, mut of: Vec<f64>) -> Vec<f64> {
    of.resize(of.len() + r.below(4), f64::NAN);
    of
}

/// A matrix and a vector, without lists.
pub fn factors(r: &mut Random) -> Factors {
    let (n, mut ends) = graph(r);
    if r.one_in(2) {
        for edge in &mut ends {
            *edge = if r.one_in(2) { (edge.1, edge.0) } else { *edge };
        }
    }
    let common = r.below(KINDS);
    let kinds = [0; 3].map(|_| if r.one_in(3) { r.below(KINDS) } else { common });
    let mut off = numbers(r, kinds[1], 2 * ends.len());
    // each second entry takes back the one before it
    if r.one_in(4) {
        for pair in off.chunks_exact_mut(4) {
            pair.copy_within(..2, 2);
            pair[2..].iter_mut().for_each(|z| *z = -*z);
        }
    }
    let x = numbers(r, kinds[2], 2 * n);
    Factors {
        diagonal: numbers(r, kinds[0], n),
        off: with_spare(r, off),
        from: ends.iter().map(|edge| edge.0 as u32).collect(),
        to: ends.iter().map(|edge| edge.1 as u32).collect(),
        lists: vec![],
        x: with_spare(r, x),
    }
}

/// A call of godf_vertex_lists, and how many numbers it is lent.
pub struct ListsCall {
    pub n: usize,
    pub from: Vec<u32>,
    pub to: Vec<u32>,
    pub room: usize,
}

impl ListsCall {
    /// A sound call, with spare room.
    pub fn of(r: &mut Random, of: &Factors) -> Self {
        let mut call = Self {
            n: of.diagonal.len(),
            from: of.from.clone(),
            to: of.to.clone(),
            room: 0,
        };
        call.room = call.least() as usize + r.below(8);
        call
    }

    /// The least room.
    pub fn least(&self) -> u128 {
        self.n as u128 + 1 + 2 * self.from.len() as u128
    }

    fn refused(&self) -> bool {
        let is_edge = |(&a, &b): (&u32, &u32)| a != b && (a as usize) < self.n && (b as usize) < self.n;
        self.from.len() != self.to.len()
            || (self.room as u128) < self.least()
            || 2 * self.from.len() as u128 >= NUMBERS
            || !self.from.iter().zip(&self.to).all(is_edge)
    }

    /// What is to be written: the beginnings, and the edges at each vertex in rising order. None where the call is refused.
    pub fn expected(&self) -> Option<Vec<u32>> {
        if self.refused() {
            return None;
        }
        let (mut begins, mut entries) = (vec![0], vec![]);
        for v in 0..self.n as u32 {
            let at_v = |e: &u32| [self.from[*e as usize], self.to[*e as usize]].contains(&v);
            entries.extend((0..self.from.len() as u32).filter(at_v));
            begins.push(entries.len() as u32);
        }
        begins.append(&mut entries);
        Some(begins)
    }
}

/// A call of godf_vertex_product.
#[derive(Clone)]
pub struct ProductCall {
    pub of: Factors,
    pub vertex: usize,
}

fn pair(of: &[f64], at: usize) -> Option<Pair> {
    let whole = of.chunks_exact(2).nth(at)?;
    Some([whole[0], whole[1]])
}

fn times(a: Pair, b: Pair) -> Pair {
    [a[0] * b[0] - a[1] * b[1], a[0] * b[1] + a[1] * b[0]]
}

/// The sum of the terms of a product, from the first to the last.
pub fn sum(terms: &[Pair]) -> Pair {
    let sum = terms.iter().copied().reduce(|a, b| [a[0] + b[0], a[1] + b[1]]);
    sum.expect("the diagonal's term")
}

impl ProductCall {
    fn n(&self) -> usize {
        self.of.diagonal.len()
    }

    fn list_number(&self, at: usize) -> Option<usize> {
        self.of.lists.get(at).map(|&k| k as usize)
    }

    /// Where the numbers of the vertex's edges stand in the lists.
    fn run(&self) -> Option<std::ops::Range<usize>> {
        let begin = self.list_number(self.vertex)?;
        let end = self.list_number(self.vertex.checked_add(1)?)?;
        let run = self.n() + 1 + begin..self.n() + 1 + end;
        (begin <= end && run.end <= self.of.lists.len()).then_some(run)
    }

    /// What an edge adds at the vertex is the product of these two.
    fn pairs(&self, edge: usize) -> Option<[Pair; 2]> {
        let (a, b) = (*self.of.from.get(edge)? as usize, *self.of.to.get(edge)? as usize);
        let [re, im] = pair(&self.of.off, edge)?;
        if a == self.vertex {
            Some([[re, im], pair(&self.of.x, b)?])
        } else {
            Some([[re, -im], pair(&self.of.x, a)?])
        }
    }

    /// What adds up to the product: the diagonal's term, and each edge's by this multiplication. None where the call is refused.
    pub fn terms_by(&self, times: fn(Pair, Pair) -> Pair) -> Option<Vec<Pair>> {
        let diagonal = self.of.diagonal.get(self.vertex)?;
        let mut terms = vec![pair(&self.of.x, self.vertex)?.map(|part| part * diagonal)];
        for &edge in &self.of.lists[self.run()?] {
            let [entry, x] = self.pairs(edge as usize)?;
            terms.push(times(entry, x));
        }
        Some(terms)
    }

    pub fn terms(&self) -> Option<Vec<Pair>> {
        self.terms_by(times)
    }

    /// What is to be written. None where the call is refused.
    pub fn expected(&self) -> Option<Pair> {
        self.terms().map(|terms| sum(&terms))
    }

    /// The edges at the vertex.
    fn edges(&self) -> Vec<usize> {
        let run = self.run().expect("a sound call");
        self.of.lists[run].iter().map(|&e| e as usize).collect()
    }

    /// One of these edges.
    fn edge(&self, r: &mut Random) -> Option<usize> {
        let edges = self.edges();
        (!edges.is_empty()).then(|| r.pick(&edges))
    }

    /// The end of an edge that the product at the vertex reads, and the other.
    fn ends(&mut self, edge: usize) -> [&mut u32; 2] {
        let (a, b) = (&mut self.of.from[edge], &mut self.of.to[edge]);
        if *a as usize == self.vertex {
            [b, a]
        } else {
            [a, b]
        }
    }

    /// How many edges, and how many vertices, the product at the vertex cannot do without.
    fn least(&mut self) -> [usize; 2] {
        let edges = self.edges();
        let vertices = edges.iter().map(|&e| *self.ends(e)[0] as usize + 1).max();
        [
            edges.iter().max().map_or(0, |e| e + 1),
            vertices.unwrap_or(0).max(self.vertex + 1),
        ]
    }
}

/// What changes a sound call, by its name. A fault that finds nothing to change leaves the call as it is.
pub type Fault<Call> = (&'static str, fn(&mut Random, &mut Call));

/// Gives one end of an edge another number.
fn change(r: &mut Random, c: &mut ListsCall, to: usize) {
    let ends = if r.one_in(2) { &mut c.from } else { &mut c.to };
    if !ends.is_empty() {
        let e = r.below(ends.len());
        ends[e] = to as u32;
    }
}

pub const LISTS_FAULTS: [Fault<ListsCall>; 13] = [
    ("room as asked", |_, c| c.room = c.least() as usize),
    ("room one short", |_, c| c.room = c.least() as usize - 1),
    ("room short", |r, c| c.room = r.below(c.least() as usize)),
    ("room overflows", |r, c| {
        let ends = 2 * c.from.len();
        c.n = usize::MAX - r.pick(&[0, 1, ends, ends + 1]);
    }),
    ("an end is n", |r, c| change(r, c, c.n)),
    ("an end is past n", |r, c| {
        let far = r.pick(&[c.n + 1, u32::MAX as usize]);
        change(r, c, far);
    }),
    ("an end is the last vertex", |r, c| change(r, c, c.n.saturating_sub(1))),
    ("equal ends", |r, c| {
        if !c.from.is_empty() {
            let e = r.below(c.from.len());
            c.to[e] = c.from[e];
        }
    }),
    ("from shorter", |_, c| c.from.truncate(c.from.len().saturating_sub(1))),
    ("to shorter", |_, c| c.to.truncate(c.to.len().saturating_sub(1))),
    ("from longer", |_, c| c.from.push(0)),
    ("n one less", |_, c| c.n = c.n.saturating_sub(1)),
    ("n one more", |_, c| {
        c.n += 1;
        c.room += 1;
    }),
];

/// Gives one entry of the vertex's list another number.
fn change_entry(r: &mut Random, c: &mut ProductCall, to: u32) {
    let run = c.run().expect("a sound call");
    if !run.is_empty() {
        c.of.lists[run.start + r.below(run.len())] = to;
    }
}

pub const PRODUCT_FAULTS: [Fault<ProductCall>; 28] = [
    ("vertex n", |_, c| c.vertex = c.n()),
    ("vertex past n", |r, c| {
        c.vertex = r.pick(&[c.n() + 1, 1 << 32, usize::MAX, usize::MAX - 1]);
    }),
    ("last vertex", |_, c| c.vertex = c.n() - 1),
    ("x ends before the vertex", |r, c| {
        c.of.x.truncate(2 * c.vertex + r.below(2))
    }),
    ("x ends behind the vertex", |r, c| {
        c.of.x.truncate(2 * c.vertex + 2 + r.below(2))
    }),
    ("x ends before an end", |r, c| {
        if let Some(e) = c.edge(r) {
            let end = *c.ends(e)[0] as usize;
            c.of.x.truncate(2 * end + r.below(2));
        }
    }),
    ("x ends behind the last end", |r, c| {
        let [_, vertices] = c.least();
        c.of.x.truncate(2 * vertices + r.below(2));
    }),
    ("off ends before an edge", |r, c| {
        if let Some(e) = c.edge(r) {
            c.of.off.truncate(2 * e + r.below(2));
        }
    }),
    ("off ends behind the last edge", |r, c| {
        let [edges, _] = c.least();
        c.of.off.truncate(2 * edges + r.below(2));
    }),
    ("from ends before an edge", |r, c| {
        if let Some(e) = c.edge(r) {
            c.of.from.truncate(e);
        }
    }),
    ("from ends behind the last edge", |_, c| {
        let [edges, _] = c.least();
        c.of.from.truncate(edges);
    }),
    ("to ends before an edge", |r, c| {
        if let Some(e) = c.edge(r) {
            c.of.to.truncate(e);
        }
    }),
    ("to ends behind the last edge", |_, c| {
        let [edges, _] = c.least();
        c.of.to.truncate(edges);
    }),
    ("lists end among the beginnings", |r, c| {
        let room = r.pick(&[0, c.vertex, c.vertex + 1, c.vertex + 2, c.n()]);
        c.of.lists.truncate(room.min(c.n()));
    }),
    ("lists end behind the beginnings", |_, c| c.of.lists.truncate(c.n() + 1)),
    ("lists end before the last entry", |_, c| {
        let end = c.run().expect("a sound call").end;
        c.of.lists.truncate(end - 1);
    }),
    ("lists end behind the last entry", |_, c| {
        let end = c.run().expect("a sound call").end;
        c.of.lists.truncate(end);
    }),
    ("n one less", |_, c| c.of.diagonal.truncate(c.n() - 1)),
    ("n one more", |_, c| c.of.diagonal.push(1.0)),
    ("begin above end", |r, c| {
        let end = c.of.lists[c.vertex + 1];
        c.of.lists[c.vertex] = r.pick(&[end + 1, u32::MAX]);
    }),
    ("begin at end", |_, c| c.of.lists[c.vertex] = c.of.lists[c.vertex + 1]),
    ("end past the lists", |r, c| {
        let entries = (c.of.lists.len() - c.n() - 1) as u32;
        c.of.lists[c.vertex + 1] = r.pick(&[entries + 1, u32::MAX]);
    }),
    ("end at the end of the lists", |_, c| {
        c.of.lists[c.vertex + 1] = (c.of.lists.len() - c.n() - 1) as u32;
    }),
    ("an entry is no edge", |r, c| {
        let none = r.pick(&[c.of.from.len() as u32, u32::MAX]);
        change_entry(r, c, none);
    }),
    ("an entry is any edge", |r, c| {
        let any = r.below(c.of.from.len().max(1)) as u32;
        change_entry(r, c, any);
    }),
    ("an end past x", |r, c| {
        if let Some(e) = c.edge(r) {
            let end = r.pick(&[c.of.x.len() as u32 / 2, u32::MAX]);
            *c.ends(e)[0] = end;
        }
    }),
    ("an end at the end of x", |r, c| {
        if let Some(e) = c.edge(r) {
            let end = c.of.x.len() as u32 / 2 - 1;
            *c.ends(e)[0] = end;
        }
    }),
    // where `from` is the vertex, it is read: then the edge is taken for one that ends here
    ("the vertex's own end past x", |r, c| {
        if let Some(e) = c.edge(r) {
            *c.ends(e)[1] = u32::MAX;
        }
    }),
];
