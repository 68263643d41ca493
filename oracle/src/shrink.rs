//! Makes a case small while something still holds of it: fewer triangles, no unused points, default options, fewer iterations, plain
//! numbers.

use crate::case::{Boundary, Case, DEFAULT};

struct Shrinker<'a> {
    case: Case,
    holds: &'a dyn Fn(&Case) -> bool,
    /// How many trials are left.
    left: usize,
}

impl Shrinker<'_> {
    /// Keeps an edit of the case if what is to hold still does.
    fn attempt(&mut self, edit: impl FnOnce(&mut Case)) -> bool {
        if self.left == 0 {
            return false;
        }
        let mut case = self.case.clone();
        edit(&mut case);
        // many turns of inverse iteration would take long
        let endless = case.iterations > 100 && !case.bounded();
        if endless || case.to_string() == self.case.to_string() {
            return false;
        }
        self.left -= 1;
        let holds = (self.holds)(&case);
        if holds {
            self.case = case;
        }
        holds
    }

    /// Leaves out triangles, in runs of half of them, a quarter, .. down to one.
    fn triangles(&mut self) {
        let mut run = self.case.triangles() / 2;
        while run > 0 {
            let mut at = 0;
            while at < self.case.triangles() {
                let gone = self.attempt(|c| {
                    let end = (3 * (at + run)).min(c.tris.len());
                    c.tris.drain(3 * at..end);
                });
                if !gone {
                    at += run;
                }
            }
            run /= 2;
        }
    }

    /// Leaves out points that no triangle uses, all at once or one by one.
    fn points(&mut self) {
        let unused = |c: &Case| {
            (0..c.n())
                .filter(|&v| !c.tris.contains(&(v as u32)))
                .collect::<Vec<_>>()
        };
        if !self.attempt(|c| unused(c).iter().rev().for_each(|&v| drop_point(c, v))) {
            for v in unused(&self.case.clone()).into_iter().rev() {
                self.attempt(|c| drop_point(c, v));
            }
        }
    }

    fn options(&mut self) {
        self.attempt(|c| c.options = DEFAULT);
        self.attempt(|c| c.options.accurate = false);
        self.attempt(|c| c.options.holomorphic = 0.0);
        self.attempt(|c| c.options.anisotropy = 1.0);
        self.attempt(|c| c.options.anisotropy_angle = 0.0);
        self.attempt(|c| c.options.boundary = Boundary::None);
        self.attempt(|c| c.options.adaptive = 0.0);
        self.attempt(|c| c.guidance = None);
        self.attempt(|c| c.spare = [0; 4]);
        for iterations in [1, 2, 5, 10] {
            if iterations < self.case.iterations && self.attempt(|c| c.iterations = iterations) {
                break;
            }
        }
    }

    /// A number at a place is made plainer.
    fn number(&mut self, place: impl Fn(&mut Case) -> Option<&mut f64>) {
        let Some(&mut x) = place(&mut self.case) else { return };
        if !x.is_finite() {
            return;
        }
        for plain in [0.0, 1.0, x.round(), rounded(x, 0), rounded(x, 1), rounded(x, 3)] {
            // -0 is not plainer than 0
            if plain.to_bits() == x.to_bits() || (plain == 0.0 && plain.is_sign_negative()) {
                break;
            }
            if self.attempt(|c| *place(c).expect("the same place") = plain) {
                break;
            }
        }
    }

    fn numbers(&mut self) {
        self.attempt(|c| c.sizes.fill(1.0));
        self.attempt(|c| c.guidance.iter_mut().for_each(|g| g.angle.fill(0.0)));
        self.attempt(|c| c.points.iter_mut().skip(2).step_by(3).for_each(|z| *z = 0.0));
        for d in [0, 1, 3] {
            if self.attempt(|c| {
                c.points
                    .iter_mut()
                    .chain(&mut c.sizes)
                    .for_each(|x| *x = rounded(*x, d))
            }) {
                break;
            }
        }
        for k in 0..self.case.points.len() {
            self.number(|c| c.points.get_mut(k));
        }
        for k in 0..self.case.sizes.len() {
            self.number(|c| c.sizes.get_mut(k));
        }
        for k in 0..self.case.guidance.as_ref().map_or(0, |g| g.angle.len()) {
            self.number(|c| c.guidance.as_mut()?.angle.get_mut(k));
        }
        self.number(|c| c.guidance.as_mut().map(|g| &mut g.weight));
        self.number(|c| Some(&mut c.options.adaptive));
        self.number(|c| Some(&mut c.options.holomorphic));
        self.number(|c| Some(&mut c.options.anisotropy));
        self.number(|c| Some(&mut c.options.anisotropy_angle));
        self.number(|c| match &mut c.options.boundary {
            Boundary::Weak(weight) => Some(weight),
            _ => None,
        });
    }
}

/// So many digits after the first.
fn rounded(x: f64, digits: usize) -> f64 {
    format!("{x:.digits$e}").parse().unwrap_or(x)
}

fn drop_point(c: &mut Case, v: usize) {
    c.points.drain(3 * v..3 * v + 3);
    if v < c.sizes.len() {
        c.sizes.remove(v);
    }
    if let Some(g) = c.guidance.as_mut().filter(|g| v < g.angle.len()) {
        g.angle.remove(v);
    }
    for corner in c.tris.iter_mut().filter(|corner| **corner > v as u32) {
        *corner -= 1;
    }
}

/// The smallest case found, within so many trials.
pub fn shrink(case: &Case, holds: &dyn Fn(&Case) -> bool, trials: usize) -> Case {
    let mut s = Shrinker {
        case: case.clone(),
        holds,
        left: trials,
    };
    loop {
        let before = s.case.to_string();
        s.triangles();
        s.points();
        s.options();
        s.numbers();
        if s.left == 0 || s.case.to_string() == before {
            return s.case;
        }
    }
}
