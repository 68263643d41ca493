//! Linear systems on both sides: the Rust's conjugate_gradient, and layers_conjugate_gradient of liblinear_layers.a; the Rust's product,
//! and godf_vertex_product of libgodf.a.

use crate::time::{seconds, Run, Table};
use oracle::{
    godf::{vertex_lists, vertex_product, Factors},
    reference::System,
    PLATFORM,
};

#[allow(improper_ctypes)]
extern "C" {
    fn layers_conjugate_gradient(
        work: *mut f64,
        length: usize,
        n: usize,
        from: *const u32,
        edges: usize,
        to: *const u32,
        ends: usize,
        numbers: *mut u32,
        words: usize,
        tolerance: f64,
        most: usize,
    ) -> bool;
}

/// A system in the slices that our solver takes.
struct Lent {
    work: Vec<f64>,
    from: Vec<u32>,
    to: Vec<u32>,
    numbers: Vec<u32>,
    n: usize,
}

impl Lent {
    fn new(s: &System) -> Self {
        let (n, m) = (s.diagonal.len(), s.ends.len());
        let mut work = vec![0.0; 10 * n + 6 * m];
        work[..n].copy_from_slice(&s.diagonal);
        for (e, z) in s.off.iter().enumerate() {
            (work[n + e], work[n + m + e]) = (z[0], z[1]);
        }
        for (i, z) in s.rhs.iter().enumerate() {
            (work[3 * n + 6 * m + i], work[4 * n + 6 * m + i]) = (z[0], z[1]);
        }
        let ends = |k: fn(&(usize, usize)) -> usize| s.ends.iter().map(|e| k(e) as u32).collect();
        Self {
            work,
            from: ends(|e| e.0),
            to: ends(|e| e.1),
            numbers: vec![0; 2 * n + 1 + 6 * m],
            n,
        }
    }

    fn solve(&mut self, tolerance: f64, most: usize) {
        let m = self.from.len();
        // SAFETY: each pointer goes with the length of its own slice
        let made = unsafe {
            layers_conjugate_gradient(
                self.work.as_mut_ptr(),
                self.work.len(),
                self.n,
                self.from.as_ptr(),
                m,
                self.to.as_ptr(),
                m,
                self.numbers.as_mut_ptr(),
                self.numbers.len(),
                tolerance,
                most,
            )
        };
        assert!(
            made,
            "the slices have not the form that layers_conjugate_gradient asks for"
        );
    }

    fn x(&self, i: usize) -> [f64; 2] {
        let at = self.n + 6 * self.from.len() + i;
        [self.work[at], self.work[at + self.n]]
    }
}

/// Solves a system on both sides to its own tolerance, compares the iterates bit by bit, and returns the count of iterations.
fn compared(s: &System) -> usize {
    let (x, count) = (PLATFORM.conjugate_gradient)(s).expect("an iterate");
    let mut lent = Lent::new(s);
    lent.solve(s.tolerance, s.most);
    let equal = |i: usize| x[i].map(f64::to_bits) == lent.x(i).map(f64::to_bits);
    assert!(
        (0..x.len()).all(equal),
        "an iterate of ours has other bits than the Rust's"
    );
    count
}

/// A row for one iteration. `turns` iterations are timed, less a call that makes none: what is set up before the first is left out.
pub fn iteration(table: &mut Table, kind: &str, name: &str, s: &System, turns: usize) {
    let name = format!("{name}: {} iterations, same bits", compared(s));
    let of = |most: usize| System {
        tolerance: 0.0,
        most,
        ..s.clone()
    };
    let (many, none) = (of(turns), of(0));
    let mut lent = Lent::new(s);
    let start = lent.work.clone();
    let mut solve = |most: usize| {
        lent.work.copy_from_slice(&start);
        seconds(|| lent.solve(0.0, most))
    };
    let ours = || Run {
        whole: solve(turns),
        rest: solve(0),
    };
    let theirs = || Run {
        whole: (PLATFORM.time_conjugate_gradient)(&many),
        rest: (PLATFORM.time_conjugate_gradient)(&none),
    };
    table.row_of_runs(kind, &name, turns, ours, theirs);
}

fn factors(s: &System) -> Factors {
    let ends = |k: fn(&(usize, usize)) -> usize| -> Vec<u32> { s.ends.iter().map(|e| k(e) as u32).collect() };
    let (n, from, to) = (s.diagonal.len(), ends(|e| e.0), ends(|e| e.1));
    let mut lists = vec![0; n + 1 + 2 * from.len()];
    assert_eq!(vertex_lists(n, &from, &to, &mut lists), 0, "lists of a floor's edges");
    Factors {
        diagonal: s.diagonal.clone(),
        off: s.off.concat(),
        from,
        to,
        lists,
        x: s.rhs.concat(),
    }
}

/// A row for a whole product, a call for each vertex on one thread. The lists are built before.
pub fn product(table: &mut Table, kind: &str, name: &str, s: &System) {
    let factors = factors(s);
    let equal = |(v, z): (usize, &[f64; 2])| vertex_product(&factors, v).1.map(f64::to_bits) == z.map(f64::to_bits);
    assert!(
        (PLATFORM.apply)(s).iter().enumerate().all(equal),
        "a product of ours has other bits than the Rust's"
    );
    let all = || {
        for v in 0..s.diagonal.len() {
            std::hint::black_box(vertex_product(&factors, v));
        }
    };
    table.row(kind, name, 1, || seconds(all), || (PLATFORM.time_apply)(s));
}
