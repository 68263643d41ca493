//! The product of a Hermitian matrix and a vector, one vertex at a time.

use crate::{ffi, mode::in_default_mode};

/// A Hermitian matrix, borrowed: a row and a column for each vertex, and a complex entry for each edge. A complex number is `[re, im]`.
#[derive(Clone, Copy, Debug, PartialEq)]
pub struct Matrix<'a> {
    /// The diagonal, which is real: a number for each vertex.
    pub diagonal: &'a [f64],
    /// The entry of each edge, in row `from` and column `to`; its conjugate is in row `to` and column `from`.
    pub off: &'a [[f64; 2]],
    /// One end of each edge.
    pub from: &'a [u32],
    /// The other end.
    pub to: &'a [u32],
}

/// The lists of the edges at each vertex, for [`vertex_product`]. They depend only on the edges: build them once.
///
/// With n vertices, the first n + 1 numbers are the offset of each vertex's list and the number of all entries. Then come the lists; each
/// has the numbers of the edges that have an end at its vertex, in increasing order.
///
/// `None` if `from` and `to` differ in length, an end is no vertex, the two ends of an edge are the same vertex, or there are 2^31 edges or
/// more.
///
/// ```
/// let lists = godf::vertex_lists(4, &[0, 2, 1], &[1, 1, 0]).expect("edges between different vertices");
/// assert_eq!(lists, [0, 2, 5, 6, 6, /* of vertex 0 */ 0, 2, /* of 1 */ 0, 1, 2, /* of 2 */ 1]);
/// assert_eq!(godf::vertex_lists(4, &[0, 2], &[1, 2]), None);
/// ```
pub fn vertex_lists(vertices: usize, from: &[u32], to: &[u32]) -> Option<Vec<u32>> {
    let entries = from.len().checked_mul(2)?;
    let mut lists = vec![0; vertices.checked_add(1)?.checked_add(entries)?];
    // SAFETY: each pointer goes with the length of its own slice; the lists are borrowed for writing
    let refused = unsafe {
        ffi::godf_vertex_lists(
            vertices,
            from.as_ptr(),
            from.len(),
            to.as_ptr(),
            to.len(),
            lists.as_mut_ptr(),
            lists.len(),
        )
    };
    (refused == 0).then_some(lists)
}

/// The product of a matrix and the vector `x` at one vertex, by the matrix's [`vertex_lists`].
///
/// It starts with the diagonal term and adds the terms of the vertex's edges in the order of their numbers; each operation is rounded once.
/// The solver's own product has the same bits, so vertices can be spread over threads in any way:
///
/// ```
/// use godf::{vertex_lists, vertex_product, Matrix};
/// let matrix = Matrix { diagonal: &[2.0, 3.0], off: &[[0.0, 1.0]], from: &[0], to: &[1] };
/// let lists = vertex_lists(2, matrix.from, matrix.to).expect("edges between different vertices");
/// let x = [[1.0, 0.0], [0.0, 1.0]];
/// let at = |vertex| vertex_product(matrix, &lists, &x, vertex);
/// let product = std::thread::scope(|scope| {
///     let first = scope.spawn(|| at(0));
///     [first.join().expect("a thread"), at(1)]
/// });
/// assert_eq!(product, [Some([1.0, 0.0]), Some([0.0, 2.0])]);
/// assert_eq!(at(2), None);
/// ```
///
/// `None` if the vertex is not on the diagonal or not in `x`, or if the lists point outside the lists, the edges or `x`. Lists of other
/// edges give `None` or a sum of other terms.
pub fn vertex_product(matrix: Matrix, lists: &[u32], x: &[[f64; 2]], vertex: usize) -> Option<[f64; 2]> {
    let off = matrix.off.as_flattened();
    let x = x.as_flattened();
    let [mut re, mut im] = [0.0; 2];
    // SAFETY: each pointer goes with the length of its own slice
    let refused = in_default_mode(|| unsafe {
        ffi::godf_vertex_product(
            matrix.diagonal.as_ptr(),
            matrix.diagonal.len(),
            off.as_ptr(),
            off.len(),
            matrix.from.as_ptr(),
            matrix.from.len(),
            matrix.to.as_ptr(),
            matrix.to.len(),
            lists.as_ptr(),
            lists.len(),
            x.as_ptr(),
            x.len(),
            vertex,
            &mut re,
            &mut im,
        )
    });
    (refused == 0).then_some([re, im])
}
