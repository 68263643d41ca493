//! Refusals and their reasons in words. Written by tools/words from include/words.txt: change the table, not this file.

/// What each refusal says.
pub(crate) const REFUSALS: &[(u64, &str)] = &[
    (
        1,
        "a length of points or triangles is not a multiple of 3, or there are over 16,384 points or 32,768 triangles",
    ),
    (2, "iterations is 0"),
    (3, "there are no points"),
    (4, "there are no triangles"),
    (
        5,
        "the number of sizes, or of angles to refine by, is not the number of points",
    ),
    (6, "x or y of a point is not finite"),
    (7, "a size is not finite and positive"),
    (8, "a corner of a triangle is not the number of a point"),
    (9, "holomorphic is not in -1 to 1"),
    (10, "anisotropy is not finite and positive"),
    (11, "the anisotropy angle is not finite"),
    (12, "the threshold is not finite, or is negative"),
    (
        13,
        "the weight of the weak boundary is not finite, or is negative; or the boundary mode is unknown",
    ),
    (14, "the guidance weight is not finite, or is negative"),
    (15, "the number of guidance angles is not the number of points"),
    (16, "a guidance angle is not finite"),
    (
        17,
        "the anisotropy angle or a guidance angle is over 131,072 in absolute value",
    ),
    (18, "a result or work array is too short"),
    (
        19,
        "the area of a triangle is not finite, or at most 1e-14 of its longest edge squared",
    ),
    (
        20,
        "a point is in no triangle, or the areas around it add up to infinity; remove points that no triangle uses",
    ),
    (21, "the size gradient at a point is not finite"),
    (22, "the mean size of an edge is not finite"),
    (23, "a boundary mode is set, and no edge is in exactly one triangle"),
    (24, "the solver gave up"),
];

/// What each reason of refusal 24 says.
pub(crate) const REASONS: &[(u64, &str)] = &[
    (1, "the trace of the energy matrix is not positive"),
    (2, "the trace of the mass matrix is not positive"),
    (3, "the norm of the right-hand side is 0"),
    (4, "a diagonal entry of the energy matrix is not positive"),
    (5, "the first residual is not positive"),
    (
        6,
        "the matrix is not positive definite; `accurate`, or smoother sizes, may help",
    ),
    (7, "the matrix is no longer positive definite"),
    (8, "the linear solver did not converge"),
    (9, "the mass of the iterate is not positive"),
    (10, "the denominator of the Rayleigh quotient is not positive"),
    (11, "the estimate of the eigenvalue is not finite"),
    (
        12,
        "the field did not converge in the iterations given; more of them, or scaling up a tiny floor, may help",
    ),
    (13, "an angle of the field is not finite"),
];
