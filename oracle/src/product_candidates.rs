//! What products.rs compares: libgodf.a, the model, and both spoilt on purpose, each in one thing that a port could get wrong.

use crate::{
    godf::{self, MARK, MARK_U32},
    product_calls::{sum, ListsCall, ProductCall},
    reference::Pair,
};

/// The two calls. Each gives its code, and what it was lent, which held marks before.
#[derive(Clone, Copy)]
pub struct Candidate {
    pub lists: fn(&ListsCall) -> (u32, Vec<u32>),
    pub product: fn(&ProductCall) -> (u32, Pair),
}

/// The numbers written, if any, and marks to the end.
pub fn filled(front: Option<Vec<u32>>, room: usize) -> Vec<u32> {
    let mut all = front.unwrap_or_default();
    all.resize(room, MARK_U32);
    all
}

fn lists(call: &ListsCall) -> (u32, Vec<u32>) {
    let mut lists = filled(None, call.room);
    let code = godf::vertex_lists(call.n, &call.from, &call.to, &mut lists);
    (code, lists)
}

fn product(call: &ProductCall) -> (u32, Pair) {
    godf::vertex_product(&call.of, call.vertex)
}

/// The code, and the sum of the terms, or marks where there are none.
fn summed(terms: Option<Vec<Pair>>) -> (u32, Pair) {
    (u32::from(terms.is_none()), terms.map_or([MARK; 2], |terms| sum(&terms)))
}

/// libgodf.a.
pub const GODF: Candidate = Candidate { lists, product };

const MODEL: Candidate = Candidate {
    lists: |c| {
        let expected = c.expected();
        (u32::from(expected.is_none()), filled(expected, c.room))
    },
    product: |c| summed(c.terms()),
};

/// What is spoilt below, as it is.
pub const RIGHT: [(&str, Candidate); 2] = [("godf", GODF), ("model", MODEL)];

/// These lists, beside libgodf.a's product.
const fn with_lists(lists: fn(&ListsCall) -> (u32, Vec<u32>)) -> Candidate {
    Candidate { lists, ..GODF }
}

/// This product, beside libgodf.a's lists.
const fn with_product(product: fn(&ProductCall) -> (u32, Pair)) -> Candidate {
    Candidate { product, ..GODF }
}

/// The lists of a call that is not refused, spoilt.
fn written(call: &ListsCall, spoil: fn(&ListsCall, &mut [u32])) -> (u32, Vec<u32>) {
    let (code, mut lists) = lists(call);
    if code == 0 {
        spoil(call, &mut lists);
    }
    (code, lists)
}

/// Spoils the list of each vertex.
fn each(call: &ListsCall, lists: &mut [u32], spoil: fn(&mut [u32])) {
    let (begins, entries) = lists.split_at_mut(call.n + 1);
    for run in begins.windows(2) {
        spoil(&mut entries[run[0] as usize..run[1] as usize]);
    }
}

/// The product of another call.
fn changed(call: &ProductCall, change: fn(&mut ProductCall)) -> (u32, Pair) {
    let mut call = call.clone();
    change(&mut call);
    product(&call)
}

/// The sum of spoilt terms: the diagonal's, then the edges'.
fn terms(call: &ProductCall, spoil: fn(&mut Vec<Pair>)) -> (u32, Pair) {
    let mut terms = call.terms();
    terms.iter_mut().for_each(spoil);
    summed(terms)
}

/// The product of a call that is not refused, spoilt.
fn answered(call: &ProductCall, spoil: fn(&mut Pair)) -> (u32, Pair) {
    let (code, mut answer) = product(call);
    if code == 0 {
        spoil(&mut answer);
    }
    (code, answer)
}

/// A complex product with two operations rounded at once.
fn fused(a: Pair, b: Pair) -> Pair {
    [a[0].mul_add(b[0], -(a[1] * b[1])), a[0].mul_add(b[1], a[1] * b[0])]
}

pub const SPOILT: [(&str, Candidate); 18] = [
    (
        "lists_falling",
        with_lists(|c| written(c, |c, lists| each(c, lists, |list| list.reverse()))),
    ),
    (
        "lists_edge_twice",
        with_lists(|c| {
            written(c, |c, lists| {
                each(c, lists, |list| {
                    if let [first, second, ..] = list {
                        *second = *first
                    }
                })
            })
        }),
    ),
    // each list starts where it should end
    (
        "lists_starts_moved",
        with_lists(|c| written(c, |c, lists| lists.copy_within(1..=c.n, 0))),
    ),
    (
        "lists_written_behind",
        with_lists(|c| {
            written(c, |c, lists| {
                let behind = lists.iter_mut().skip(c.least() as usize);
                behind.take(1).for_each(|k| *k = 0)
            })
        }),
    ),
    (
        "lists_room_strict",
        with_lists(|c| {
            if c.room as u128 == c.least() {
                (1, filled(None, c.room))
            } else {
                lists(c)
            }
        }),
    ),
    (
        "lists_equal_ends_accepted",
        with_lists(|c| {
            let (code, lists) = lists(c);
            let equal = c.from.iter().zip(&c.to).any(|(a, b)| a == b);
            (if equal { 0 } else { code }, lists)
        }),
    ),
    (
        "lists_written_though_refused",
        with_lists(|c| {
            let (code, mut lists) = lists(c);
            lists.iter_mut().take(code as usize).for_each(|k| *k = 0);
            (code, lists)
        }),
    ),
    (
        "conjugate_exchanged",
        with_product(|c| {
            changed(c, |c| {
                let im = c.of.off.iter_mut().skip(1).step_by(2);
                im.for_each(|im| *im = -*im)
            })
        }),
    ),
    (
        "conjugate_left_out",
        with_product(|c| {
            changed(c, |c| {
                for (entry, from) in c.of.off.chunks_exact_mut(2).zip(&c.of.from) {
                    if *from as usize != c.vertex {
                        entry[1] = -entry[1];
                    }
                }
            })
        }),
    ),
    // the term of an edge's first end at both ends
    (
        "first_end_at_both",
        with_product(|c| {
            changed(c, |c| {
                for (from, to) in c.of.from.iter_mut().zip(&c.of.to) {
                    if *to as usize == c.vertex {
                        *from = *to;
                    }
                }
            })
        }),
    ),
    ("diagonal_last", with_product(|c| terms(c, |t| t.rotate_left(1)))),
    (
        "last_edge_left_out",
        with_product(|c| terms(c, |t| t.truncate(t.len().max(2) - 1))),
    ),
    (
        "negative_zero_lost",
        with_product(|c| terms(c, |t| t.insert(0, [0.0; 2]))),
    ),
    ("fused", with_product(|c| summed(c.terms_by(fused)))),
    (
        "nan_in_the_other_part",
        with_product(|c| {
            answered(c, |z| {
                if z[0].is_nan() != z[1].is_nan() {
                    z.swap(0, 1)
                }
            })
        }),
    ),
    ("imaginary_sign", with_product(|c| answered(c, |z| z[1] = -z[1]))),
    (
        "refused_by_2",
        with_product(|c| {
            let (code, answer) = product(c);
            (2 * code, answer)
        }),
    ),
    (
        "written_though_refused",
        with_product(|c| match product(c) {
            (0, answer) => (0, answer),
            (code, _) => (code, [0.0; 2]),
        }),
    ),
];
