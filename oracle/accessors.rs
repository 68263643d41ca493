
/// Private functions of the reference, for comparison.
#[allow(dead_code)]
pub mod access {
    use super::*;
    use crate::case::{Boundary, Case};
    use crate::reference::{Geometry, Pair, Reference, Seen, System};
    use std::cell::{Cell, RefCell};

    fn complex(v: &[Pair]) -> Vec<Complex> {
        v.iter().map(|z| Complex::new(z[0], z[1])).collect()
    }

    fn pairs(v: &[Complex]) -> Vec<Pair> {
        v.iter().map(|z| [z.re, z.im]).collect()
    }

    fn flat(p: &[Pair]) -> Vec<[f64; 3]> {
        p.iter().map(|q| [q[0], q[1], f64::NAN]).collect()
    }

    fn triangle_geometry(p: [Pair; 3]) -> Result<Geometry, String> {
        super::triangle_geometry(&flat(&p), &[0, 1, 2], 0).map(|g| (g.vertices, g.positions, g.area))
    }

    fn transport_coefficient(p: [Pair; 2], size: [f64; 2], gradient: [Pair; 2]) -> Result<Pair, String> {
        super::transport_coefficient(0, 1, &flat(&p), &size, &gradient).map(|z| [z.re, z.im])
    }

    fn extend_guidance(angle: &[f64], edges: &[(usize, usize)], vertices: usize) -> Vec<f64> {
        let guidance = Guidance { weight: 1.0, angle: angle.to_vec() };
        super::extend_guidance(&guidance, edges, vertices).angle
    }

    fn hermitian(s: &System) -> Hermitian {
        Hermitian {
            size: s.diagonal.len(),
            diagonal: s.diagonal.clone(),
            edge_a: s.ends.iter().map(|e| e.0).collect(),
            edge_b: s.ends.iter().map(|e| e.1).collect(),
            off_diagonal: complex(&s.off),
        }
    }

    fn apply(s: &System) -> Vec<Pair> {
        pairs(&hermitian(s).apply(&complex(&s.rhs)))
    }

    fn time_apply(s: &System) -> f64 {
        let (matrix, x) = (hermitian(s), complex(&s.rhs));
        let now = std::time::Instant::now();
        let _ = std::hint::black_box(matrix.apply(&x));
        now.elapsed().as_secs_f64()
    }

    fn conjugate_gradient(s: &System) -> Result<(Vec<Pair>, usize), String> {
        super::conjugate_gradient(&hermitian(s), &complex(&s.rhs), s.tolerance, s.most).map(|(x, n)| (pairs(&x), n))
    }

    fn time_conjugate_gradient(s: &System) -> f64 {
        let (matrix, rhs) = (hermitian(s), complex(&s.rhs));
        let now = std::time::Instant::now();
        let _ = std::hint::black_box(super::conjugate_gradient(&matrix, &rhs, s.tolerance, s.most));
        now.elapsed().as_secs_f64()
    }

    fn normalize_in_mass(s: &System) -> Result<Vec<Pair>, String> {
        let mut next = complex(&s.rhs);
        super::normalize_in_mass(&mut next, &hermitian(s)).map(|()| pairs(&next))
    }

    fn options(case: &Case) -> Options {
        let o = &case.options;
        Options {
            accurate: o.accurate,
            holomorphic: o.holomorphic,
            anisotropy: o.anisotropy,
            anisotropy_angle: o.anisotropy_angle,
            boundary: match o.boundary {
                Boundary::None => BoundaryMode::None,
                Boundary::Tangent => BoundaryMode::Tangent,
                Boundary::Weak(weight) => BoundaryMode::Weak(weight),
            },
            adaptive: o.adaptive,
        }
    }

    fn guidance(case: &Case) -> Option<Guidance> {
        let g = case.guidance.as_ref()?;
        Some(Guidance { weight: g.weight, angle: g.angle.clone() })
    }

    fn checks(case: &Case) -> Result<(), String> {
        let n = validate(&case.triples(), &case.corners(), &case.sizes, case.iterations as usize)?;
        validate_options(&options(case))?;
        guidance(case).map_or(Ok(()), |g| validate_guidance(n, &g))
    }

    fn pass(case: &Case) -> Result<Vec<f64>, String> {
        let (points, tris, guidance) = (case.triples(), case.corners(), guidance(case));
        solve_mesh(&points, &tris, &case.sizes, &options(case), guidance.as_ref(), case.iterations as usize)
    }

    thread_local! {
        static SEEN: RefCell<Seen> = RefCell::default();
        static KEEPS: Cell<bool> = const { Cell::new(false) };
    }

    // build.rs puts calls of these four into the copy
    pub(super) fn note_coarse(alpha: &[f64]) {
        SEEN.with(|s| s.borrow_mut().coarse = Some(alpha.to_vec()));
    }

    pub(super) fn note_counts(flagged: usize, cut: usize) {
        SEEN.with(|s| s.borrow_mut().counts = Some((flagged, cut)));
    }

    pub(super) fn note_fine(alpha: &[f64]) {
        SEEN.with(|s| s.borrow_mut().fine = Some(alpha.to_vec()));
    }

    pub(super) fn note_system(matrix: &Hermitian, rhs: &[Complex], tolerance: f64, most: usize) {
        if KEEPS.get() {
            let system = System {
                diagonal: matrix.diagonal.clone(),
                ends: matrix.edge_a.iter().copied().zip(matrix.edge_b.iter().copied()).collect(),
                off: pairs(&matrix.off_diagonal),
                rhs: pairs(rhs),
                tolerance,
                most,
            };
            SEEN.with(|s| s.borrow_mut().systems.push(system));
        }
    }

    fn solve(case: &Case) -> (Result<Vec<f64>, String>, Seen) {
        SEEN.take();
        let (points, tris, guidance) = (case.triples(), case.corners(), guidance(case));
        let answer = solve_impl(&points, &tris, &case.sizes, &options(case), guidance.as_ref(), case.iterations as usize);
        (answer, SEEN.take())
    }

    fn solve_keeping(case: &Case) -> (Result<Vec<f64>, String>, Seen) {
        KEEPS.set(true);
        let seen = solve(case);
        KEEPS.set(false);
        seen
    }

    pub static REFERENCE: Reference = Reference {
        mass_integral: |omega| pairs(&[mass_integral(omega)])[0],
        dirichlet_integral: |omega, g11, g12, g22| pairs(&[dirichlet_integral(omega, g11, g12, g22)])[0],
        dirichlet_diagonal,
        cross_angle: |re, im| cross_angle(Complex::new(re, im)),
        wrap_to_pi,
        anisotropy_alignment_weight,
        triangle_geometry,
        triangle_gradient: |p, sigma, area| triangle_gradient(&p, sigma, area),
        transport_coefficient,
        triangle_field_variation,
        refine_once,
        extend_guidance,
        apply,
        time_apply,
        conjugate_gradient,
        time_conjugate_gradient,
        normalize_in_mass,
        interp_angle,
        count_singularities,
        checks,
        pass,
        solve,
        solve_keeping,
    };
}
