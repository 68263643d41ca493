/* SPDX-License-Identifier: MIT
 *
 * Refusals and their reasons in words. Written by tools/words from include/words.txt: change the table, not this file.
 *
 *   uint64_t number = godf_solve(..., &report);
 *   if (number != 0) puts(godf_words(number));
 *   if (number == GODF_REFUSED_GAVE_UP) puts(godf_reason_words(report.reason));
 */
#ifndef GODF_WORDS_H
#define GODF_WORDS_H

#include <stdint.h>

#ifdef __cplusplus
#define GODF_WORDS_CALL static inline
#elif defined(__STDC_VERSION__) && __STDC_VERSION__ >= 199901L
#define GODF_WORDS_CALL static inline
#elif defined(__GNUC__)
#define GODF_WORDS_CALL static __attribute__((unused))
#else
#define GODF_WORDS_CALL static
#endif

/* The numbers that godf_solve and godf_refine return. */
typedef enum godf_refusal {
    GODF_ACCEPTED = 0,
    GODF_REFUSED_LENGTHS = 1,
    GODF_REFUSED_NO_ITERATIONS = 2,
    GODF_REFUSED_NO_POINTS = 3,
    GODF_REFUSED_NO_TRIANGLES = 4,
    GODF_REFUSED_SIZE_COUNT = 5,
    GODF_REFUSED_POINT = 6,
    GODF_REFUSED_SIZE = 7,
    GODF_REFUSED_CORNER = 8,
    GODF_REFUSED_HOLOMORPHIC = 9,
    GODF_REFUSED_ANISOTROPY = 10,
    GODF_REFUSED_ANISOTROPY_ANGLE = 11,
    GODF_REFUSED_THRESHOLD = 12,
    GODF_REFUSED_BOUNDARY = 13,
    GODF_REFUSED_GUIDANCE_WEIGHT = 14,
    GODF_REFUSED_GUIDANCE_COUNT = 15,
    GODF_REFUSED_GUIDANCE_ANGLE = 16,
    GODF_REFUSED_LARGE_ANGLE = 17,
    GODF_REFUSED_SHORT_ARRAY = 18,
    GODF_REFUSED_AREA = 19,
    GODF_REFUSED_UNUSED_POINT = 20,
    GODF_REFUSED_SIZE_GRADIENT = 21,
    GODF_REFUSED_EDGE_SIZE = 22,
    GODF_REFUSED_NO_BOUNDARY = 23,
    GODF_REFUSED_GAVE_UP = 24
} godf_refusal;

/* godf_report.reason where the number is GODF_REFUSED_GAVE_UP. */
typedef enum godf_reason {
    GODF_REASON_ENERGY_TRACE = 1,
    GODF_REASON_MASS_TRACE = 2,
    GODF_REASON_RIGHT_HAND_SIDE = 3,
    GODF_REASON_DIAGONAL = 4,
    GODF_REASON_FIRST_RESIDUAL = 5,
    GODF_REASON_NOT_DEFINITE = 6,
    GODF_REASON_LOST_DEFINITENESS = 7,
    GODF_REASON_INNER_COUNT = 8,
    GODF_REASON_NO_MASS = 9,
    GODF_REASON_RAYLEIGH = 10,
    GODF_REASON_ESTIMATE = 11,
    GODF_REASON_OUTER_COUNT = 12,
    GODF_REASON_FIELD = 13
} godf_reason;

/* What the place of a refusal is. */
typedef enum godf_place {
    GODF_PLACE_NONE = 0,    /* place is 0 and means nothing */
    GODF_PLACE_POINT,       /* place is a point */
    GODF_PLACE_TRIANGLE,    /* place is a triangle */
    GODF_PLACE_EDGE,        /* place and other are the two points of an edge, the lower first */
    GODF_PLACE_ANGLE        /* place is a point, or the number of points: the anisotropy angle */
} godf_place;

/* A refusal in words: "accepted" for 0, "unknown refusal" for a number that is not in the table. */
GODF_WORDS_CALL const char *godf_words(uint64_t number) {
    switch (number) {
        case 0: return "accepted";
        case 1: return "a length of points or triangles is not a multiple of 3, or there are over 16,384 points or 32,768 triangles";
        case 2: return "iterations is 0";
        case 3: return "there are no points";
        case 4: return "there are no triangles";
        case 5: return "the number of sizes, or of angles to refine by, is not the number of points";
        case 6: return "x or y of a point is not finite";
        case 7: return "a size is not finite and positive";
        case 8: return "a corner of a triangle is not the number of a point";
        case 9: return "holomorphic is not in -1 to 1";
        case 10: return "anisotropy is not finite and positive";
        case 11: return "the anisotropy angle is not finite";
        case 12: return "the threshold is not finite, or is negative";
        case 13: return "the weight of the weak boundary is not finite, or is negative; or the boundary mode is unknown";
        case 14: return "the guidance weight is not finite, or is negative";
        case 15: return "the number of guidance angles is not the number of points";
        case 16: return "a guidance angle is not finite";
        case 17: return "the anisotropy angle or a guidance angle is over 131,072 in absolute value";
        case 18: return "a result or work array is too short";
        case 19: return "the area of a triangle is not finite, or at most 1e-14 of its longest edge squared";
        case 20: return "a point is in no triangle, or the areas around it add up to infinity; remove points that no triangle uses";
        case 21: return "the size gradient at a point is not finite";
        case 22: return "the mean size of an edge is not finite";
        case 23: return "a boundary mode is set, and no edge is in exactly one triangle";
        case 24: return "the solver gave up";
        default: return "unknown refusal";
    }
}

/* A reason of refusal 24 in words: "" for 0, "unknown reason" for a number that is not in the table. */
GODF_WORDS_CALL const char *godf_reason_words(uint64_t reason) {
    switch (reason) {
        case 0: return "";
        case 1: return "the trace of the energy matrix is not positive";
        case 2: return "the trace of the mass matrix is not positive";
        case 3: return "the norm of the right-hand side is 0";
        case 4: return "a diagonal entry of the energy matrix is not positive";
        case 5: return "the first residual is not positive";
        case 6: return "the matrix is not positive definite; `accurate`, or smoother sizes, may help";
        case 7: return "the matrix is no longer positive definite";
        case 8: return "the linear solver did not converge";
        case 9: return "the mass of the iterate is not positive";
        case 10: return "the denominator of the Rayleigh quotient is not positive";
        case 11: return "the estimate of the eigenvalue is not finite";
        case 12: return "the field did not converge in the iterations given; more of them, or scaling up a tiny floor, may help";
        case 13: return "an angle of the field is not finite";
        default: return "unknown reason";
    }
}

/* What the place of a refusal is. The reason is godf_report.reason; only refusal 24 needs it. */
GODF_WORDS_CALL godf_place godf_place_kind(uint64_t number, uint64_t reason) {
    switch (number) {
        case 6:
        case 7:
        case 16:
        case 20:
        case 21:
            return GODF_PLACE_POINT;
        case 8:
        case 19:
            return GODF_PLACE_TRIANGLE;
        case 17:
            return GODF_PLACE_ANGLE;
        case 22:
            return GODF_PLACE_EDGE;
        case 24:
            return reason == 4 ? GODF_PLACE_POINT : GODF_PLACE_NONE;
        default:
            return GODF_PLACE_NONE;
    }
}

#endif
