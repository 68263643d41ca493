//! One whole call of document 01's "The call": what is given and what is lent, with a printed form that can be read back.

use std::{fmt, str::FromStr};

#[derive(Clone, Copy, PartialEq, Debug)]
pub enum Boundary {
    None,
    Tangent,
    Weak(f64),
}

#[derive(Clone, Copy, Debug)]
pub struct Options {
    pub accurate: bool,
    pub holomorphic: f64,
    pub anisotropy: f64,
    pub anisotropy_angle: f64,
    pub boundary: Boundary,
    pub adaptive: f64,
}

/// As the reference has them by default.
pub const DEFAULT: Options = Options {
    accurate: false,
    holomorphic: 0.0,
    anisotropy: 1.0,
    anisotropy_angle: 0.0,
    boundary: Boundary::None,
    adaptive: 0.0,
};

#[derive(Clone, Debug)]
pub struct Guidance {
    pub weight: f64,
    pub angle: Vec<f64>,
}

#[derive(Clone, Debug)]
pub struct Case {
    /// x, y, z each; whole triples unless row 1 is meant.
    pub points: Vec<f64>,
    pub tris: Vec<u32>,
    pub sizes: Vec<f64>,
    pub options: Options,
    pub guidance: Option<Guidance>,
    pub iterations: u64,
    /// By how much the lent slices (coarse, fine, f64 work, u32 work) are longer than row 18 asks, or shorter.
    pub spare: [i64; 4],
}

impl Case {
    /// Document 01's base floor.
    pub fn base() -> Self {
        Self {
            points: vec![0.0, 0.0, 0.0, 1.0, 0.0, 0.0, 0.0, 1.0, 0.0],
            tris: vec![0, 1, 2],
            sizes: vec![1.0; 3],
            options: DEFAULT,
            guidance: None,
            iterations: 10,
            spare: [0; 4],
        }
    }

    pub fn n(&self) -> usize {
        self.points.len() / 3
    }

    pub fn triangles(&self) -> usize {
        self.tris.len() / 3
    }

    /// The least lengths that row 18 lets pass.
    pub fn needed(&self) -> [usize; 4] {
        let (n, t) = (self.n(), self.triangles());
        let refines = self.options.adaptive > 0.0;
        let (more, parts) = if refines { (n + 3 * t, 4 * t) } else { (n, t) };
        let fine = if refines { more } else { 0 };
        [n, fine, 64 * more + 32 * parts, 16 * more + 32 * parts]
    }

    /// The lengths of the lent slices.
    pub fn lent(&self) -> [usize; 4] {
        let needed = self.needed();
        [0, 1, 2, 3].map(|k| (needed[k] as i64 + self.spare[k]).max(0) as usize)
    }

    /// Whether the boundary mode or the guidance makes each pass a single linear solve, whose count of iterations is only a bound.
    pub fn bounded(&self) -> bool {
        let guided = self.guidance.as_ref().is_some_and(|g| g.weight > 0.0);
        match self.options.boundary {
            Boundary::None => guided,
            Boundary::Tangent => true,
            Boundary::Weak(weight) => guided || weight > 0.0,
        }
    }

    pub fn triples(&self) -> Vec<[f64; 3]> {
        self.points.chunks_exact(3).map(|p| [p[0], p[1], p[2]]).collect()
    }

    pub fn corners(&self) -> Vec<[usize; 3]> {
        self.tris
            .chunks_exact(3)
            .map(|t| [t[0] as usize, t[1] as usize, t[2] as usize])
            .collect()
    }
}

/// Shortest digits that give the same double again.
fn number(x: f64) -> String {
    let text = format!("{x:?}");
    text.strip_suffix(".0").map_or(text.clone(), str::to_string)
}

fn numbers(xs: &[f64]) -> String {
    xs.iter().map(|&x| format!(" {}", number(x))).collect()
}

/// One line for each part that is not as in the base floor's options.
impl fmt::Display for Case {
    fn fmt(&self, f: &mut fmt::Formatter) -> fmt::Result {
        writeln!(f, "points{}", numbers(&self.points))?;
        let tris: String = self.tris.iter().map(|v| format!(" {v}")).collect();
        writeln!(f, "triangles{tris}")?;
        writeln!(f, "sizes{}", numbers(&self.sizes))?;
        let o = &self.options;
        if o.accurate {
            writeln!(f, "accurate 1")?;
        }
        if o.holomorphic.to_bits() != 0 {
            writeln!(f, "holomorphic {}", number(o.holomorphic))?;
        }
        if o.anisotropy != 1.0 || o.anisotropy_angle.to_bits() != 0 {
            writeln!(f, "anisotropy {} {}", number(o.anisotropy), number(o.anisotropy_angle))?;
        }
        match o.boundary {
            Boundary::None => {}
            Boundary::Tangent => writeln!(f, "boundary tangent")?,
            Boundary::Weak(w) => writeln!(f, "boundary weak {}", number(w))?,
        }
        if o.adaptive.to_bits() != 0 {
            writeln!(f, "threshold {}", number(o.adaptive))?;
        }
        if let Some(g) = &self.guidance {
            writeln!(f, "guidance {}{}", number(g.weight), numbers(&g.angle))?;
        }
        writeln!(f, "iterations {}", self.iterations)?;
        if self.spare != [0; 4] {
            let [a, b, c, d] = self.spare;
            writeln!(f, "spare {a} {b} {c} {d}")?;
        }
        Ok(())
    }
}

fn all<T: FromStr>(words: &[&str]) -> Result<Vec<T>, String> {
    let read = |word: &&str| word.parse().map_err(|_| format!("not a number: {word}"));
    words.iter().map(read).collect()
}

fn one<T: FromStr>(words: &[&str]) -> Result<T, String> {
    let [only]: [T; 1] = all(words)?.try_into().map_err(|_| "not one number")?;
    Ok(only)
}

impl Case {
    fn read(&mut self, key: &str, words: &[&str]) -> Result<(), String> {
        match key {
            "points" => self.points = all(words)?,
            "triangles" => self.tris = all(words)?,
            "sizes" => self.sizes = all(words)?,
            "accurate" => self.options.accurate = one::<u8>(words)? != 0,
            "holomorphic" => self.options.holomorphic = one(words)?,
            "anisotropy" => {
                let [ratio, angle]: [f64; 2] = all(words)?.try_into().map_err(|_| "not two numbers")?;
                (self.options.anisotropy, self.options.anisotropy_angle) = (ratio, angle);
            }
            "boundary" => {
                self.options.boundary = match words {
                    ["none"] => Boundary::None,
                    ["tangent"] => Boundary::Tangent,
                    ["weak", weight @ ..] => Boundary::Weak(one(weight)?),
                    _ => return Err("no such boundary".to_string()),
                }
            }
            "threshold" => self.options.adaptive = one(words)?,
            "guidance" => {
                let (weight, angle) = words.split_first().ok_or("no weight")?;
                self.guidance = Some(Guidance {
                    weight: one(&[weight])?,
                    angle: all(angle)?,
                });
            }
            "iterations" => self.iterations = one(words)?,
            "spare" => self.spare = all(words)?.try_into().map_err(|_| "not four numbers")?,
            _ => return Err("no such line".to_string()),
        }
        Ok(())
    }
}

/// Reads the printed form; blank lines and lines that begin with # are passed over.
pub fn parse(text: &str) -> Result<Case, String> {
    let mut case = Case::base();
    for line in text.lines().filter(|l| !l.trim().is_empty() && !l.starts_with('#')) {
        let words: Vec<&str> = line.split_whitespace().collect();
        case.read(words[0], &words[1..])
            .map_err(|error| format!("{error} in: {line}"))?;
    }
    Ok(case)
}
