//! godf_vertex_lists and godf_vertex_product, through C, beside the reference's own product of a Hermitian matrix and a vector: every
//! list number, every vertex by its bits, and calls with a fault, or just without one, beside a model of include/godf.h. The same
//! comparison is made of answers spoilt on purpose, which must be noticed.

use crate::{
    godf::{Factors, MARK},
    outcome::same,
    product_calls::{factors, Fault, ListsCall, ProductCall, LISTS_FAULTS, PRODUCT_FAULTS},
    product_candidates::{filled, Candidate, GODF, RIGHT, SPOILT},
    random::Random,
    reference::{Pair, System},
    BOUND,
};

/// Calls that were compared, and those that differ.
#[derive(Default)]
struct Count {
    compared: u64,
    differ: u64,
}

impl Count {
    fn add(&mut self, equal: bool) {
        self.compared += 1;
        self.differ += u64::from(!equal);
    }

    fn tell(&self, what: &str) {
        println!("{what} {} compared, {} differ", self.compared, self.differ);
    }
}

/// How often each kind of thing was met.
#[derive(Default)]
struct Met {
    nan: u64,
    infinite: u64,
    negative_zero: u64,
    subnormal: u64,
    isolated: u64,
    hubs: u64,
    edgeless: u64,
}

impl Met {
    /// Notes a product's parts, and how many edges each vertex has.
    fn note(&mut self, product: &[Pair], from: &[u32], to: &[u32]) {
        for part in product.as_flattened() {
            self.nan += u64::from(part.is_nan());
            self.infinite += u64::from(part.is_infinite());
            self.negative_zero += u64::from(*part == 0.0 && part.is_sign_negative());
            self.subnormal += u64::from(part.is_subnormal());
        }
        let mut degrees = vec![0; product.len()];
        from.iter().chain(to).for_each(|&v| degrees[v as usize] += 1);
        self.isolated += degrees.iter().filter(|&&d| d == 0).count() as u64;
        self.hubs += u64::from(from.len() > 1 && degrees.contains(&from.len()));
        self.edgeless += u64::from(from.is_empty());
    }

    fn tell(&self) {
        let Self {
            nan,
            infinite,
            negative_zero,
            subnormal,
            ..
        } = self;
        println!("parts: {nan} NaN, {infinite} infinite, {negative_zero} -0, {subnormal} subnormal");
        let Self {
            isolated,
            hubs,
            edgeless,
            ..
        } = self;
        println!(
            "vertices: {isolated} isolated; matrices: {hubs} with one vertex at all edges, {edgeless} without edges"
        );
    }
}

/// Of calls with a fault: how many the model refuses and accepts.
struct Faults {
    names: Vec<String>,
    refused: Vec<u64>,
    accepted: Vec<u64>,
    count: Count,
}

impl Faults {
    fn of<Call>(call: &str, faults: &[Fault<Call>]) -> Self {
        Self {
            names: faults.iter().map(|fault| format!("{call}, {}", fault.0)).collect(),
            refused: vec![0; faults.len()],
            accepted: vec![0; faults.len()],
            count: Count::default(),
        }
    }

    fn add(&mut self, fault: usize, refused: bool, equal: bool) {
        let of = if refused { &mut self.refused } else { &mut self.accepted };
        of[fault] += 1;
        self.count.add(equal);
    }

    fn tell(&self) {
        for (name, (refused, accepted)) in self.names.iter().zip(self.refused.iter().zip(&self.accepted)) {
            eprintln!("{refused:6} refused {accepted:6} accepted: {name}");
        }
    }
}

/// Makes a call of godf_vertex_lists: what it is lent, afterwards, and whether that and the answer are as expected.
fn lists_of(candidate: &Candidate, call: &ListsCall) -> (Vec<u32>, bool) {
    let (code, lists) = (candidate.lists)(call);
    let expected = call.expected();
    let equal = code == u32::from(expected.is_none()) && lists == filled(expected, call.room);
    (lists, equal)
}

/// Whether a call of godf_vertex_product gives what is expected, or keeps the marks where nothing is.
fn as_expected(candidate: &Candidate, call: &ProductCall, expected: Option<Pair>) -> bool {
    let (code, written) = (candidate.product)(call);
    let [re, im] = expected.unwrap_or([MARK; 2]);
    code == u32::from(expected.is_none()) && same(written[0], re) && same(written[1], im)
}

/// The reference's product.
fn product(of: &Factors) -> Vec<Pair> {
    let pairs = |numbers: &[f64], count: usize| -> Vec<Pair> {
        let whole = numbers.chunks_exact(2).take(count);
        whole.map(|z| [z[0], z[1]]).collect()
    };
    let ends = of.from.iter().zip(&of.to);
    let system = System {
        diagonal: of.diagonal.clone(),
        ends: ends.map(|(&a, &b)| (a as usize, b as usize)).collect(),
        off: pairs(&of.off, of.from.len()),
        rhs: pairs(&of.x, of.diagonal.len()),
        tolerance: 0.0,
        most: 0,
    };
    (BOUND.apply)(&system)
}

/// A vertex of a matrix, mostly one that has edges.
fn some_vertex(r: &mut Random, of: &Factors) -> usize {
    if of.from.is_empty() || r.one_in(8) {
        r.below(of.diagonal.len())
    } else {
        let ends = if r.one_in(2) { &of.from } else { &of.to };
        r.pick(ends) as usize
    }
}

/// All that was compared of a candidate.
struct Compared {
    candidate: Candidate,
    lists: Count,
    products: Count,
    vertices: Count,
    met: Met,
    lists_faults: Faults,
    product_faults: Faults,
}

impl Compared {
    fn of(candidate: Candidate, count: u64, seed: u64) -> Self {
        let mut r = Random::new(seed);
        let mut compared = Self {
            candidate,
            lists: Count::default(),
            products: Count::default(),
            vertices: Count::default(),
            met: Met::default(),
            lists_faults: Faults::of("lists", &LISTS_FAULTS),
            product_faults: Faults::of("product", &PRODUCT_FAULTS),
        };
        for i in 0..count as usize {
            let of = factors(&mut r);
            let lists = ListsCall::of(&mut r, &of);
            let mut call = ProductCall { of, vertex: 0 };
            compared.sound(&lists, &mut call);
            compared.spoilt_lists(&mut r, i % LISTS_FAULTS.len(), lists);
            if !call.of.diagonal.is_empty() {
                call.vertex = some_vertex(&mut r, &call.of);
                compared.spoilt_product(&mut r, i % PRODUCT_FAULTS.len(), call);
            }
        }
        compared
    }

    /// The lists of a matrix, and every vertex of its product with a vector. It keeps the lists as the model has them.
    fn sound(&mut self, lists: &ListsCall, call: &mut ProductCall) {
        let (built, equal) = lists_of(&self.candidate, lists);
        self.lists.add(equal);
        call.of.lists = built;
        let expected = product(&call.of);
        self.met.note(&expected, &call.of.from, &call.of.to);
        let before = self.vertices.differ;
        for (vertex, &at) in expected.iter().enumerate() {
            call.vertex = vertex;
            self.vertices.add(as_expected(&self.candidate, call, Some(at)));
        }
        self.products.add(self.vertices.differ == before);
        call.of.lists = filled(lists.expected(), lists.room);
    }

    fn spoilt_lists(&mut self, r: &mut Random, fault: usize, mut call: ListsCall) {
        LISTS_FAULTS[fault].1(r, &mut call);
        let refused = call.expected().is_none();
        self.lists_faults
            .add(fault, refused, lists_of(&self.candidate, &call).1);
    }

    fn spoilt_product(&mut self, r: &mut Random, fault: usize, mut call: ProductCall) {
        PRODUCT_FAULTS[fault].1(r, &mut call);
        let expected = call.expected();
        let equal = as_expected(&self.candidate, &call, expected);
        self.product_faults.add(fault, expected.is_none(), equal);
    }

    /// The counts, each with its name.
    fn counts(&self) -> [(&'static str, &Count); 5] {
        [
            ("lists", &self.lists),
            ("products", &self.products),
            ("vertices of products", &self.vertices),
            ("calls for lists, some refused", &self.lists_faults.count),
            ("calls for products, some refused", &self.product_faults.count),
        ]
    }

    fn tell(&self) {
        for (what, count) in self.counts() {
            count.tell(what);
        }
        self.met.tell();
        self.lists_faults.tell();
        self.product_faults.tell();
    }

    fn good(&self) -> bool {
        self.counts().iter().all(|(_, count)| count.differ == 0)
    }

    /// What differs, and how many of each.
    fn differing(&self) -> String {
        if self.good() {
            return "nothing".to_string();
        }
        let counts = self.counts();
        let some = counts.iter().filter(|(_, count)| count.differ > 0);
        let parts = some.map(|(what, count)| format!("{} of {} {what}", count.differ, count.compared));
        parts.collect::<Vec<_>>().join("; ")
    }
}

pub fn compare(count: u64, seed: u64) -> bool {
    let compared = Compared::of(GODF, count, seed);
    compared.tell();
    compared.good()
}

/// Every spoilt answer on the same calls: how many differ. False where one is not noticed, or where what they spoil differs itself.
pub fn notice(count: u64, seed: u64) -> bool {
    let right = RIGHT.map(|(name, candidate)| (name, candidate, true));
    let spoilt = SPOILT.map(|(name, candidate)| (name, candidate, false));
    let mut good = true;
    for (name, candidate, is_right) in right.into_iter().chain(spoilt) {
        let compared = Compared::of(candidate, count, seed);
        println!("{name} differs in {}", compared.differing());
        if compared.good() != is_right {
            println!("  NOT as it should be");
            good = false;
        }
    }
    good
}
