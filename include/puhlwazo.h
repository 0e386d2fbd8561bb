/* The search of libpuhlwazo, for C and C++ on x86-64: does a taught path pass through a box, and between which two parameters?
 *
 * It needs C99 or C++11, or newer. docs/LINKING.md leads through it. The library calls nothing but memcpy and memset, takes no memory of its own and keeps
 * nothing between two calls: several threads may call it at once, each with its own work area and answer. A call takes less than 5 KB of stack, the first one
 * a few more where the dynamic linker binds memset in it (some 6 KB in all were seen; the linker's share depends on the processor). The one exception is
 * puhlwazo_cart_could_contain, which has its work area there: it takes some 70 KB, whatever it answers; give its thread 80 or more.
 *
 * What the pointers must be, in every call:
 *   - each points to as many numbers as the length behind it says (counts to PUHLWAZO_COUNTS, bounds to 2), and is aligned for them, to 8 bytes; none is NULL,
 *     also where a length is 0;
 *   - work, counts and bounds overlap neither each other nor anything that is only read; what is only read may overlap;
 *   - nothing else writes to any of it during the call.
 * Of a call with other pointers nothing is promised, neither its answer nor what it writes nor that it ends; it does not look for this, since it cannot.
 *
 * What the floating-point environment of the calling thread must be: rounding to nearest, subnormal numbers kept (neither flush-to-zero nor
 * denormals-are-zero), all exceptions masked. A program starts so, unless gcc or clang links it with -ffast-math, -Ofast or -funsafe-math-optimizations:
 * that flushes subnormal numbers to zero in the whole program, and so does a shared library that was linked so (by gcc 12 and clang 14), as it is loaded.
 * In another environment an answer can be wrong (none, though the path passes through the box) or the call can die. puhlwazo_environment_ok() tells: ask it
 * in every thread, before the first question.
 *
 * Nothing more is asked: with any numbers and any lengths a call comes to an end with an answer. What is promised of it stands above the function of the
 * same name in crates/puhlwazo/src, and is proved. */
#ifndef PUHLWAZO_H
#define PUHLWAZO_H

#if !defined(__x86_64__) && !defined(_M_X64)
#error "libpuhlwazo is for x86-64"
#endif

#include <stddef.h>
#include <stdint.h>
#include <xmmintrin.h>

#ifdef __cplusplus
extern "C" {
#endif

/* Counted up when a declaration below is added, or changes its meaning or its form. */
#define PUHLWAZO_VERSION 5

/* How many numbers a call writes to `counts`. They may become more in a later version, behind the ones that are there: give the array this length. */
#define PUHLWAZO_COUNTS 5

/* Whether the calling thread's floating-point environment is the one above: 1, or 0. The register MXCSR has it: bit 6 denormals-are-zero, bits 7 to 12 the
 * masks, bits 13 and 14 the rounding, bit 15 flush-to-zero. */
static inline int puhlwazo_environment_ok(void)
{
    return (_mm_getcsr() & 0xffc0u) == 0x1f80u;
}

/* The kinds of an answer, in counts[0]. A parameter t is a rational number on the axis of the knots, from knots[degree] to knots[count] (counted from 0), both
 * included: this is the domain, and of no other numbers anything is said. */
enum {
    PUHLWAZO_NONE = 0,     /* the exact path is in the box at no parameter */
    PUHLWAZO_ENCLOSED = 1, /* every parameter at which it is lies between bounds[0] and bounds[1], these included; there may be none */
    PUHLWAZO_SPENT = 2,    /* the nodes were used up with counts[2] pieces left: nothing is known */
    PUHLWAZO_REFUSED = 3   /* the call is refused, by the number that the function gives */
};

/* rev         the revision of the arithmetic. 1: every bound is moved outward by one double, as the Rust library geop does it. 2: the tightest bounds of
 *             IEEE 1788; a bound is moved only where rounding left it inside the exact one. Whatever is said here holds of both
 * dim         coordinates: 2 or 3
 * degree      at most 7
 * count       control points: from degree + 1 to 32
 * knots       count + degree + 1 numbers that never fall
 * points      2 * (dim + 1) * count numbers: for each point lo and hi of each coordinate, then lo and hi of its weight; the coordinates are multiplied by the
 *             weight
 * point_box   2 * dim numbers: lo and hi of the box on each axis
 * resolution  a piece of the path is not halved where its size, or its part of the domain, is no larger. Cutting a piece down to the part that may still meet
 *             the box does not look at the resolution: with any of them a piece can still be cut
 * nodes       at most so many pieces are visited: at most 4,096
 * work        lent memory: at least puhlwazo_work_words(dim, degree, count, nodes) numbers, with any contents. A refusal by 16 or by 1 to 10 leaves it as it
 *             was; any other call leaves 0 in its first puhlwazo_work_words(..) numbers, and the rest as it was
 * counts      gets [0] the kind of the answer; [1] visited: how many pieces were; [2] pending: how many were left (0 unless spent); [3] cuts: how often an end
 *             was cut off, 1 or 2 for each piece that was cut down to the part that may still meet the box and queued, also where it still waits at the end;
 *             [4] depth: how often the piece that was halved most had been halved, of those that were visited. It is below visited, unless both are 0.
 *             [1] to [4] are 0 after a refusal by 16 or by 1 to 10, and where the box misses at once
 * bounds      gets lo and hi: both finite, in the domain, and lo at most hi (0 and 0 unless enclosed)
 *
 * Gives 0, or the number of the refusal; of several the one that stands first here, 16 before 1:
 *   16  rev is not 1 or 2
 *    1  dim is not 2 or 3
 *    2  degree is above 7
 *    3  count is below degree + 1 or above 32
 *    4  a length is not the one above
 *    5  a number is a NaN, infinite or above 2^100 in size, or the resolution is below 0
 *    6  a lo is above its hi
 *    7  the lo of a weight is not above 0
 *    8  the knots fall somewhere; or knots[degree] is not below knots[count]; or a value strictly between these two occurs more than max(degree, 1) times, or
 *       one of these two values more than degree + 1 times
 *    9  nodes is above 4,096
 *   10  work is too short
 *   11  in a piece that the search cut, the lo of a weight is not above 0 any more: counts[1] tells after how many visits, counts[3] has the cuts before that
 *       piece, and counts[4] the depth up to the last visit. The curve itself is at fault */
uint64_t puhlwazo_curve_could_contain(
    size_t rev,
    size_t dim, size_t degree, size_t count,
    const double *knots, size_t knots_length,
    const double *points, size_t points_length,
    const double *point_box, size_t point_box_length,
    double resolution, size_t nodes,
    double *work, size_t work_length,
    uint64_t counts[PUHLWAZO_COUNTS], double bounds[2]);

/* The same search on the training cart, whose arm is short. It has a work area of its own, so that none is lent; all other arguments are those above.
 *
 * Where degree is above 3, count above 8 or nodes above 48, and nowhere else, it gives
 *   14  the call is beyond a limit of the cart
 * before 16 and every other number; the kind is PUHLWAZO_REFUSED then, and counts[1] to [4] are 0. Any other call has the number, counts and bounds that
 * puhlwazo_curve_could_contain gives for the same arguments and a work area that is long enough: so never 10. */
uint64_t puhlwazo_cart_could_contain(
    size_t rev,
    size_t dim, size_t degree, size_t count,
    const double *knots, size_t knots_length,
    const double *points, size_t points_length,
    const double *point_box, size_t point_box_length,
    double resolution, size_t nodes,
    uint64_t counts[PUHLWAZO_COUNTS], double bounds[2]);

/* How many numbers of work area a call with these sizes needs, in either revision; 0 exactly for sizes that are refused by 1, 2, 3 or 9, whatever else is
 * lent: there is nothing to ask then. */
size_t puhlwazo_work_words(size_t dim, size_t degree, size_t count, size_t nodes);

#ifdef __cplusplus
}
#endif

#endif
