//! The product by vertex beside the reference's own product.

use godf::{vertex_lists, vertex_product, Matrix};
use oracle::{outcome::same, random::Random, reference::System, BOUND};

const MATRICES: usize = 2000;
const SEED: u64 = 14;

/// A matrix and a vector of up to 40 vertices, of any numbers or of plain ones.
fn system(r: &mut Random) -> System {
    let n = 1 + r.below(40);
    let edges = if n < 2 { 0 } else { r.below(4 * n) };
    let wild = r.one_in(4);
    let number = |r: &mut Random| if wild { r.any() } else { r.between(-1.0, 1.0) };
    let pairs = |r: &mut Random, count: usize| (0..count).map(|_| [number(r), number(r)]).collect();
    System {
        off: pairs(r, edges),
        rhs: pairs(r, n),
        diagonal: (0..n).map(|_| r.between(-1.0, 1.0)).collect(),
        ends: (0..edges).map(|_| two(r, n)).collect(),
        tolerance: 0.0,
        most: 0,
    }
}

/// Two different vertices.
fn two(r: &mut Random, n: usize) -> (usize, usize) {
    let a = r.below(n);
    (a, (a + 1 + r.below(n - 1)) % n)
}

#[test]
fn products() {
    let mut r = Random::new(SEED);
    let (mut edges, mut not_finite) = (0, 0);
    for i in 0..MATRICES {
        let s = system(&mut r);
        let (from, to): (Vec<u32>, Vec<u32>) = s.ends.iter().map(|&(a, b)| (a as u32, b as u32)).unzip();
        let matrix = Matrix {
            diagonal: &s.diagonal,
            off: &s.off,
            from: &from,
            to: &to,
        };
        let lists = vertex_lists(s.diagonal.len(), &from, &to).expect("lists");
        for (vertex, wanted) in (BOUND.apply)(&s).into_iter().enumerate() {
            let product = vertex_product(matrix, &lists, &s.rhs, vertex).expect("a product");
            for (part, wanted) in product.into_iter().zip(wanted) {
                assert!(same(part, wanted), "vertex {vertex} of matrix {i}");
                not_finite += usize::from(!part.is_finite());
            }
        }
        edges += from.len();
    }
    assert!(edges > 10 * MATRICES && not_finite > MATRICES);
}
