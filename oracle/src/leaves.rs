//! The proved sine, cosine and arctangent, out of libgodf.a.

extern "C" {
    fn godf_sin(x: f64) -> f64;
    fn godf_cos(x: f64) -> f64;
    fn godf_atan2(y: f64, x: f64) -> f64;
}

pub fn sin(x: f64) -> f64 {
    // SAFETY: proved total on every double
    unsafe { godf_sin(x) }
}

pub fn cos(x: f64) -> f64 {
    // SAFETY: proved total on every double
    unsafe { godf_cos(x) }
}

pub fn atan2(y: f64, x: f64) -> f64 {
    // SAFETY: proved total on every pair of doubles
    unsafe { godf_atan2(y, x) }
}
