//! The product by vertex beside a plain loop over the edges, spread over threads, and refused.

mod common;

use common::{same, Random};
use godf::{vertex_lists, vertex_product, Matrix};

const MATRICES: usize = 2000;
const SEED: u64 = 14;

type Pair = [f64; 2];

/// A matrix and a vector.
struct System {
    diagonal: Vec<f64>,
    off: Vec<Pair>,
    ends: Vec<(usize, usize)>,
    rhs: Vec<Pair>,
}

/// A number of any size, infinities and NaN too.
fn any(r: &mut Random) -> f64 {
    f64::from_bits(r.bits())
}

/// A matrix and a vector of up to 40 vertices, of any numbers or of plain ones.
fn system(r: &mut Random) -> System {
    let n = 1 + r.below(40);
    let edges = if n < 2 { 0 } else { r.below(4 * n) };
    let wild = r.one_in(4);
    let number = |r: &mut Random| if wild { any(r) } else { r.between(-1.0, 1.0) };
    let pairs = |r: &mut Random, count: usize| (0..count).map(|_| [number(r), number(r)]).collect();
    System {
        off: pairs(r, edges),
        rhs: pairs(r, n),
        diagonal: (0..n).map(|_| r.between(-1.0, 1.0)).collect(),
        ends: (0..edges).map(|_| two(r, n)).collect(),
    }
}

/// Two different vertices.
fn two(r: &mut Random, n: usize) -> (usize, usize) {
    let a = r.below(n);
    (a, (a + 1 + r.below(n - 1)) % n)
}

fn systems() -> impl Iterator<Item = System> {
    let mut r = Random::new(SEED);
    (0..MATRICES).map(move |_| system(&mut r))
}

/// The two ends of each edge.
fn ends_of(s: &System) -> (Vec<u32>, Vec<u32>) {
    s.ends.iter().map(|&(a, b)| (a as u32, b as u32)).unzip()
}

fn matrix_of<'a>(s: &'a System, from: &'a [u32], to: &'a [u32]) -> Matrix<'a> {
    Matrix {
        diagonal: &s.diagonal,
        off: &s.off,
        from,
        to,
    }
}

fn plus_product(sum: &mut Pair, a: Pair, b: Pair) {
    sum[0] += a[0] * b[0] - a[1] * b[1];
    sum[1] += a[0] * b[1] + a[1] * b[0];
}

/// The whole product, edge by edge.
fn by_edges(s: &System) -> Vec<Pair> {
    let scaled = |(x, d): (&Pair, &f64)| x.map(|part| part * d);
    let mut sums: Vec<Pair> = s.rhs.iter().zip(&s.diagonal).map(scaled).collect();
    for (&(a, b), &[re, im]) in s.ends.iter().zip(&s.off) {
        plus_product(&mut sums[a], [re, im], s.rhs[b]);
        plus_product(&mut sums[b], [re, -im], s.rhs[a]);
    }
    sums
}

fn same_pairs(a: &[Pair], b: &[Pair]) -> bool {
    let (a, b) = (a.as_flattened(), b.as_flattened());
    a.len() == b.len() && a.iter().zip(b).all(|(&a, &b)| same(a, b))
}

#[test]
fn products() {
    let (mut edges, mut not_finite) = (0, 0);
    for (i, s) in systems().enumerate() {
        let (from, to) = ends_of(&s);
        let matrix = matrix_of(&s, &from, &to);
        let lists = vertex_lists(s.diagonal.len(), &from, &to).expect("lists");
        let product: Option<Vec<Pair>> = (0..s.diagonal.len())
            .map(|vertex| vertex_product(matrix, &lists, &s.rhs, vertex))
            .collect();
        let product = product.expect("a product");
        assert!(same_pairs(&product, &by_edges(&s)), "matrix {i}, by edges");
        edges += from.len();
        not_finite += product.as_flattened().iter().filter(|part| !part.is_finite()).count();
    }
    assert!(edges > 10 * MATRICES && not_finite > MATRICES);
}

#[test]
fn lists() {
    for (i, s) in systems().enumerate() {
        let (n, edges) = (s.diagonal.len(), s.ends.len());
        let (from, to) = ends_of(&s);
        let lists = vertex_lists(n, &from, &to).expect("lists");
        assert_eq!((lists[0], lists[n] as usize), (0, 2 * edges), "matrix {i}");
        let entries = &lists[n + 1..];
        assert_eq!(entries.len(), 2 * edges, "matrix {i}");
        for v in 0..n {
            let list = &entries[lists[v] as usize..lists[v + 1] as usize];
            let at_v = |&e: &usize| s.ends[e].0 == v || s.ends[e].1 == v;
            let expected: Vec<u32> = (0..edges).filter(at_v).map(|e| e as u32).collect();
            assert_eq!(list, expected, "vertex {v} of matrix {i}");
        }
    }
}

/// Two threads, each with every second vertex.
#[test]
fn two_threads() {
    for (i, s) in systems().take(200).enumerate() {
        let n = s.diagonal.len();
        let (from, to) = ends_of(&s);
        let matrix = matrix_of(&s, &from, &to);
        let lists = vertex_lists(n, &from, &to).expect("lists");
        let half = |first: usize| -> Vec<Pair> {
            let vertices = (first..n).step_by(2);
            let product = vertices.map(|vertex| vertex_product(matrix, &lists, &s.rhs, vertex));
            product.collect::<Option<_>>().expect("a product")
        };
        let [even, odd] = std::thread::scope(|scope| {
            let other = scope.spawn(|| half(1));
            [half(0), other.join().expect("a thread")]
        });
        let product: Vec<Pair> = (0..n)
            .map(|v| if v % 2 == 0 { even[v / 2] } else { odd[v / 2] })
            .collect();
        assert!(same_pairs(&product, &by_edges(&s)), "matrix {i}");
    }
}

#[test]
fn refused_lists() {
    assert_eq!(vertex_lists(0, &[], &[]), Some(vec![0]));
    assert_eq!(vertex_lists(2, &[0], &[1]), Some(vec![0, 1, 2, 0, 0]));
    assert_eq!(vertex_lists(2, &[0], &[]), None);
    assert_eq!(vertex_lists(2, &[], &[0]), None);
    assert_eq!(vertex_lists(2, &[0], &[2]), None);
    assert_eq!(vertex_lists(2, &[2], &[0]), None);
    assert_eq!(vertex_lists(2, &[0, 1], &[1, 1]), None);
    assert_eq!(vertex_lists(0, &[0], &[1]), None);
    assert_eq!(vertex_lists(usize::MAX, &[0], &[1]), None);
}

#[test]
fn refused_products() {
    let (from, to) = ([0, 2], [1, 1]);
    let matrix = Matrix {
        diagonal: &[1.0, 2.0, 3.0],
        off: &[[1.0, 1.0], [0.5, 0.0]],
        from: &from,
        to: &to,
    };
    let x = [[1.0, 0.0], [2.0, 0.0], [4.0, 0.0]];
    let lists = vertex_lists(3, &from, &to).expect("lists");
    let at = |matrix, lists: &[u32], x: &[Pair]| [0, 1, 2].map(|v| vertex_product(matrix, lists, x, v).is_some());
    assert_eq!(vertex_product(matrix, &lists, &x, 1), Some([7.0, -1.0]));
    assert_eq!(at(matrix, &lists, &x), [true; 3]);
    assert_eq!(vertex_product(matrix, &lists, &x, 3), None);
    assert_eq!(vertex_product(matrix, &lists, &x, usize::MAX), None);
    // without the last entry, which is vertex 2's; then without the last beginning
    assert_eq!(at(matrix, &lists[..7], &x), [true, true, false]);
    assert_eq!(at(matrix, &lists[..3], &x), [false; 3]);
    assert_eq!(at(matrix, &[], &x), [false; 3]);
    assert_eq!(at(matrix, &lists, &x[..2]), [true, false, false]);
    assert_eq!(at(matrix, &lists, &[]), [false; 3]);
    let with = |matrix| at(matrix, &lists, &x);
    let Matrix { diagonal, off, .. } = matrix;
    assert_eq!(
        with(Matrix {
            off: &off[..1],
            ..matrix
        }),
        [true, false, false]
    );
    assert_eq!(
        with(Matrix {
            from: &from[..1],
            ..matrix
        }),
        [true, false, false]
    );
    assert_eq!(with(Matrix { to: &to[..1], ..matrix }), [true, false, false]);
    assert_eq!(
        with(Matrix {
            diagonal: &diagonal[..0],
            ..matrix
        }),
        [false; 3]
    );
}
