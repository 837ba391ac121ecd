/* The loops that are timed: each runs a call over a set of segments, or over a grid, so many times over, and adds up what it says, so that no
   call is left out and the answers can be compared. `ends` holds P and Q of each segment.

   A loop keeps its name and its parameters from commit to commit: bench/run asks an earlier one's by them. Calls have the types that the header
   gives them, so that this file is not compiled against a header whose calls take something else. */

#include "../include/oatmarten.h"

typedef __typeof__(oat_plain) hit_call;
typedef __typeof__(oat_line6) line6_call;
typedef __typeof__(oat_line26) line26_call;
typedef __typeof__(oat_mark) mark_call;
typedef __typeof__(oat_complete) complete_call;
typedef __typeof__(oat_sight) sight_call;
typedef __typeof__(oat_cell_of) cell_of_call;

static uint64_t mixed(uint64_t sum, uint64_t value) { return (sum ^ value) * 0x9E3779B97F4A7C15u; }

/* an answer begins with the number of its refusal */
#define REFUSAL(answer) (*(const uint32_t *)&(answer))
#define CELL(answer) ((uint64_t)((answer).x + 1024 * ((answer).y + 1024 * (answer).z)))
/* a sum with what a first hit says, but for its face */
#define WITH_HIT(sum, h)                                                                                                                  \
    mixed(mixed(mixed(sum, REFUSAL(h) + ((uint64_t)(h).reads << 32)), (uint64_t)(h).hit << 40 | CELL(h) << 8 | (h).code),                  \
          (uint64_t)(h).num << 32 | (h).den)

/* From revision 4 on a walk takes its manner, last, and from revision 5 on that has a rule, which a 6-line takes too. Before, the start was tested, and
   ties went by rule 1: so it is in the loops that are timed against an earlier commit, and they do the same work around any header. Those with
   `untested` in their name are new with revision 4, those with `rule2` with revision 5. */
#if OAT_REVISION >= 5
#define RULE rule,
#define BY_RULE(n) , .rule = OAT_RULE_##n
#else
#define RULE
#define BY_RULE(n)
#endif
#if OAT_REVISION >= 4
#define HOW , how
typedef oat_manner manner;
static const oat_manner tested = {.start = OAT_START_TESTED BY_RULE(1)}, untested = {.start = OAT_START_UNTESTED BY_RULE(1)};
#else
#define HOW
typedef int manner;
static const int tested = 1;
#endif
#if OAT_REVISION >= 5
static const oat_manner rule2 = {.start = OAT_START_TESTED BY_RULE(2)}, untested_rule2 = {.start = OAT_START_UNTESTED BY_RULE(2)};
#endif

/* the words of a loop over segments, behind its call */
#define SEGMENTS uint32_t nx, uint32_t ny, uint32_t nz, const uint8_t *cells, const oat_cell *ends, size_t segments
#define GIVEN nx, ny, nz, cells, ends, segments
#define INLINE static inline __attribute__((always_inline))

INLINE uint64_t hits(manner how, hit_call *call, size_t rounds, SEGMENTS) {
    uint64_t sum = 0;
    oat_counts n = {nx, ny, nz};
    (void)how;
    while (rounds--) for (size_t s = 0; s < segments; s++) {
        __auto_type h = call(n, cells, (size_t)nx * ny * nz, ends[2 * s], ends[2 * s + 1] HOW);
        sum = WITH_HIT(sum, h);
    }
    return sum;
}

static inline oat_point centre(oat_cell c) { return (oat_point){c.x + 0.5, c.y + 0.5, c.z + 0.5}; }

/* from the centre of P to the centre of Q, where a cell is a metre */
INLINE uint64_t sights(manner how, sight_call *call, size_t rounds, SEGMENTS) {
    uint64_t sum = 0;
    oat_counts n = {nx, ny, nz};
    oat_placement at = {.edge = 1};
    (void)how;
    while (rounds--) for (size_t s = 0; s < segments; s++) {
        __auto_type a = call(n, cells, (size_t)nx * ny * nz, at, centre(ends[2 * s]), centre(ends[2 * s + 1]) HOW);
        sum = mixed(sum, REFUSAL(a) + ((uint64_t)a.reads << 32));
        sum = mixed(sum, (uint64_t)a.blocked << 40 | CELL(a) << 8 | a.code);
        sum = mixed(sum, ((union { double value; uint64_t bits; }){a.share}).bits);
    }
    return sum;
}

/* the corner of a cell with the largest x, y and z, on far walls where the cell is a last one; and as far again behind it */
#if OAT_REVISION >= 6
uint64_t sum_corners(cell_of_call *call, SEGMENTS) {
    uint64_t sum = 0;
    oat_counts n = {nx, ny, nz};
    (void)cells;
    for (size_t e = 0; e < 2 * segments; e++) for (int32_t more = 1; more < 3; more++) {
        __auto_type c = call(n, (oat_placement){.edge = 1}, (oat_point){ends[e].x + more, ends[e].y + more, ends[e].z + more});
        sum = mixed(mixed(sum, REFUSAL(c) + (CELL(c) << 32)), c.said.axis);
    }
    return sum;
}
#endif

/* the cells of both centres; the grid's bytes are not asked for */
uint64_t loop_points(cell_of_call *call, size_t rounds, SEGMENTS) {
    uint64_t sum = 0;
    oat_counts n = {nx, ny, nz};
    oat_placement at = {.edge = 1};
    (void)cells;
    while (rounds--) for (size_t e = 0; e < 2 * segments; e++) {
        __auto_type c = call(n, at, centre(ends[e]));
        sum = mixed(sum, REFUSAL(c) + (CELL(c) << 32));
    }
    return sum;
}

uint64_t loop_hits(hit_call *call, size_t rounds, SEGMENTS) { return hits(tested, call, rounds, GIVEN); }
uint64_t loop_sights(sight_call *call, size_t rounds, SEGMENTS) { return sights(tested, call, rounds, GIVEN); }

/* the faces, for comparing. They have sums of their own: a header before revision 3 has no face, and what else an answer says is added up above as
   it was then */
#if OAT_REVISION >= 3
INLINE uint64_t faces(manner how, hit_call *call, SEGMENTS) {
    uint64_t sum = 0;
    (void)how;
    for (size_t s = 0; s < segments; s++)
        sum = mixed(sum, (uint32_t)call((oat_counts){nx, ny, nz}, cells, (size_t)nx * ny * nz, ends[2 * s], ends[2 * s + 1] HOW).face);
    return sum;
}

INLINE uint64_t sight_faces(manner how, sight_call *call, SEGMENTS) {
    uint64_t sum = 0;
    oat_placement at = {.edge = 1};
    (void)how;
    for (size_t s = 0; s < segments; s++)
        sum = mixed(sum, (uint32_t)call((oat_counts){nx, ny, nz}, cells, (size_t)nx * ny * nz, at, centre(ends[2 * s]), centre(ends[2 * s + 1]) HOW).face);
    return sum;
}

uint64_t sum_faces(hit_call *call, SEGMENTS) { return faces(tested, call, GIVEN); }
uint64_t sum_sight_faces(sight_call *call, SEGMENTS) { return sight_faces(tested, call, GIVEN); }
#endif

/* the same in another manner */
#define IN_MANNER(how)                                                                                                                   \
    uint64_t loop_hits_##how(hit_call *call, size_t rounds, SEGMENTS) { return hits(how, call, rounds, GIVEN); }                         \
    uint64_t loop_sights_##how(sight_call *call, size_t rounds, SEGMENTS) { return sights(how, call, rounds, GIVEN); }                   \
    uint64_t sum_faces_##how(hit_call *call, SEGMENTS) { return faces(how, call, GIVEN); }                                               \
    uint64_t sum_sight_faces_##how(sight_call *call, SEGMENTS) { return sight_faces(how, call, GIVEN); }
#if OAT_REVISION >= 4
IN_MANNER(untested)
#endif
#if OAT_REVISION >= 5
IN_MANNER(rule2)
IN_MANNER(untested_rule2)
#endif

/* the words of a loop over lists, behind its call */
#define LISTS const oat_cell *ends, size_t segments, int32_t *out, size_t room
#define LENT ends, segments, out, room

/* some numbers of a list, or every number, added to a sum */
INLINE uint64_t some_of(uint64_t sum, uint32_t count, uint32_t refusal, const int32_t *out) {
    sum = mixed(sum, count + ((uint64_t)refusal << 32));
    return mixed(sum, (uint32_t)out[3 * (count / 2)] + ((uint64_t)(uint32_t)out[3 * count - 1] << 32));
}

INLINE uint64_t all_of(uint64_t sum, uint32_t count, uint32_t refusal, const int32_t *out) {
    sum = mixed(sum, count + ((uint64_t)refusal << 32));
    for (size_t k = 0; k < 3 * (size_t)count; k++) sum = mixed(sum, (uint32_t)out[k]);
    return sum;
}

/* the loops that are timed, and those for comparing */
typedef uint64_t adding(uint64_t sum, uint32_t count, uint32_t refusal, const int32_t *out);

INLINE uint64_t lists6(uint32_t rule, adding *add, line6_call *call, size_t rounds, LISTS) {
    uint64_t sum = 0;
    (void)rule;
    while (rounds--) for (size_t s = 0; s < segments; s++) {
        __auto_type l = call(ends[2 * s], ends[2 * s + 1], RULE out, room);
        sum = add(sum, l.count, REFUSAL(l), out);
    }
    return sum;
}

INLINE uint64_t lists26(adding *add, line26_call *call, size_t rounds, LISTS) {
    uint64_t sum = 0;
    while (rounds--) for (size_t s = 0; s < segments; s++) {
        __auto_type l = call(ends[2 * s], ends[2 * s + 1], out, room);
        sum = add(sum, l.count, REFUSAL(l), out);
    }
    return sum;
}

uint64_t loop_line6(line6_call *call, size_t rounds, LISTS) { return lists6(1, some_of, call, rounds, LENT); }
uint64_t loop_line26(line26_call *call, size_t rounds, LISTS) { return lists26(some_of, call, rounds, LENT); }
uint64_t sum_line6(line6_call *call, LISTS) { return lists6(1, all_of, call, 1, LENT); }
uint64_t sum_line26(line26_call *call, LISTS) { return lists26(all_of, call, 1, LENT); }
#if OAT_REVISION >= 5
uint64_t loop_line6_rule2(line6_call *call, size_t rounds, LISTS) { return lists6(2, some_of, call, rounds, LENT); }
uint64_t sum_line6_rule2(line6_call *call, LISTS) { return lists6(2, all_of, call, 1, LENT); }
#endif

/* The touching line and the first hit along it: from revision 8 on. The hit takes a start, and no manner; its loops take what those of other hits take. */
#if OAT_REVISION >= 8
typedef __typeof__(oat_touching) touching_call;
typedef __typeof__(oat_line_touching) line_touching_call;

INLINE uint64_t touches(uint32_t start, touching_call *call, size_t rounds, SEGMENTS) {
    uint64_t sum = 0;
    oat_counts n = {nx, ny, nz};
    while (rounds--) for (size_t s = 0; s < segments; s++) {
        oat_hit h = call(n, cells, (size_t)nx * ny * nz, ends[2 * s], ends[2 * s + 1], start);
        sum = WITH_HIT(sum, h);
    }
    return sum;
}

INLINE uint64_t touching_faces(uint32_t start, touching_call *call, SEGMENTS) {
    uint64_t sum = 0;
    for (size_t s = 0; s < segments; s++)
        sum = mixed(sum, (uint32_t)call((oat_counts){nx, ny, nz}, cells, (size_t)nx * ny * nz, ends[2 * s], ends[2 * s + 1], start).face);
    return sum;
}

uint64_t loop_touching(touching_call *call, size_t rounds, SEGMENTS) { return touches(OAT_START_TESTED, call, rounds, GIVEN); }
uint64_t loop_touching_untested(touching_call *call, size_t rounds, SEGMENTS) { return touches(OAT_START_UNTESTED, call, rounds, GIVEN); }
uint64_t sum_touching_faces(touching_call *call, SEGMENTS) { return touching_faces(OAT_START_TESTED, call, GIVEN); }
uint64_t sum_touching_faces_untested(touching_call *call, SEGMENTS) { return touching_faces(OAT_START_UNTESTED, call, GIVEN); }

/* one number less than any line between ends so far apart can need: the cells have to be counted first */
INLINE size_t scant(oat_cell p, oat_cell q) {
    return 2 + 7 * (size_t)(__builtin_abs(p.x - q.x) + __builtin_abs(p.y - q.y) + __builtin_abs(p.z - q.z));
}

uint64_t loop_line_touching(line_touching_call *call, size_t rounds, LISTS) {
    uint64_t sum = 0;
    while (rounds--) for (size_t s = 0; s < segments; s++) {
        oat_listed l = call(ends[2 * s], ends[2 * s + 1], out, room);
        sum = some_of(sum, l.count, REFUSAL(l), out);
    }
    return sum;
}

/* of a refused one nothing was written */
uint64_t loop_line_touching_scant(line_touching_call *call, size_t rounds, LISTS) {
    uint64_t sum = 0;
    (void)room;
    while (rounds--) for (size_t s = 0; s < segments; s++) {
        oat_listed l = call(ends[2 * s], ends[2 * s + 1], out, scant(ends[2 * s], ends[2 * s + 1]));
        sum = l.count ? some_of(sum, l.count, REFUSAL(l), out) : mixed(sum, REFUSAL(l));
    }
    return sum;
}

/* with much room, then with exactly enough, then with a number less */
uint64_t sum_line_touching(line_touching_call *call, LISTS) {
    uint64_t sum = 0;
    for (size_t s = 0; s < segments; s++) {
        oat_listed l = call(ends[2 * s], ends[2 * s + 1], out, room);
        sum = all_of(sum, l.count, REFUSAL(l), out);
        oat_listed exact = call(ends[2 * s], ends[2 * s + 1], out, 3 * (size_t)l.count);
        sum = all_of(sum, exact.count, REFUSAL(exact), out);
        oat_listed less = call(ends[2 * s], ends[2 * s + 1], out, 3 * (size_t)l.count - 1);
        sum = mixed(sum, less.count + ((uint64_t)REFUSAL(less) << 32));
    }
    return sum;
}
#endif

uint64_t loop_mark(mark_call *call, size_t rounds, uint32_t nx, uint32_t ny, uint32_t nz, uint8_t *cells) {
    uint64_t sum = 0;
    while (rounds--) {
        __auto_type v = call((oat_counts){nx, ny, nz}, cells, (size_t)nx * ny * nz);
        sum = mixed(sum, REFUSAL(v));
    }
    return sum;
}

uint64_t loop_complete(complete_call *call, size_t rounds, uint32_t nx, uint32_t ny, uint32_t nz, const uint8_t *cells) {
    uint64_t sum = 0;
    while (rounds--) {
        __auto_type c = call((oat_counts){nx, ny, nz}, cells, (size_t)nx * ny * nz);
        sum = mixed(sum, REFUSAL(c) + ((uint64_t)c.yes << 32));
    }
    return sum;
}

/* Solid counts that are kept: from revision 7 on. A loop that changes cells leaves them as it found them, so that every turn of every engine does the
   same work; a sum leaves them changed, so that they can be compared. */
#if OAT_REVISION >= 7
typedef __typeof__(oat_build) build_call;
typedef __typeof__(oat_set) set_call;
typedef __typeof__(oat_refill) refill_call;

/* what a caller keeps; a cell with the byte that it has; a box by its corners */
typedef struct { uint8_t *cells; uint64_t *masks, total; } kept;
typedef struct { oat_cell cell; uint32_t byte; } place;
typedef struct { oat_cell low, high; } box;

enum { MADE_SOLID = 200 };

#define KEPT uint32_t nx, uint32_t ny, uint32_t nz, kept *held
#define KEPT_WORDS (oat_counts){nx, ny, nz}, held->cells, (size_t)nx * ny * nz, held->masks, OAT_MASKS(nx, ny, nz)

/* the answer's total is the next call's */
INLINE uint64_t keep(uint64_t sum, kept *held, oat_tally t) {
    held->total = t.total;
    return mixed(sum, REFUSAL(t) + (t.total << 32));
}

uint64_t loop_build(build_call *call, size_t rounds, KEPT) {
    uint64_t sum = 0;
    while (rounds--) sum = keep(sum, held, call(KEPT_WORDS));
    return sum;
}

/* every place is made solid, or clear where it was solid */
uint64_t sum_sets(set_call *call, KEPT, const place *places, size_t many) {
    uint64_t sum = 0;
    for (size_t p = 0; p < many; p++)
        sum = keep(sum, held, call(KEPT_WORDS, held->total, places[p].cell, places[p].byte < OAT_SOLID_LEAST ? MADE_SOLID : OAT_CLEAR));
    return sum;
}

/* and then every one is what it was */
uint64_t loop_sets(set_call *call, size_t rounds, KEPT, const place *places, size_t many) {
    uint64_t sum = 0;
    while (rounds--) {
        sum = mixed(sum, sum_sets(call, nx, ny, nz, held, places, many));
        for (size_t p = 0; p < many; p++) sum = keep(sum, held, call(KEPT_WORDS, held->total, places[p].cell, (uint8_t)places[p].byte));
    }
    return sum;
}

/* every box is made solid and then empty: it is to be empty before */
uint64_t loop_refills(refill_call *call, size_t rounds, KEPT, const box *boxes, size_t many) {
    uint64_t sum = 0;
    while (rounds--) for (size_t b = 0; b < many; b++) {
        sum = keep(sum, held, call(KEPT_WORDS, held->total, boxes[b].low, boxes[b].high, MADE_SOLID));
        sum = keep(sum, held, call(KEPT_WORDS, held->total, boxes[b].low, boxes[b].high, OAT_CLEAR));
    }
    return sum;
}

/* every third one is made clear, the others are of some material */
uint64_t sum_refills(refill_call *call, KEPT, const box *boxes, size_t many) {
    uint64_t sum = 0;
    for (size_t b = 0; b < many; b++)
        sum = keep(sum, held, call(KEPT_WORDS, held->total, boxes[b].low, boxes[b].high, b % 3 ? (uint8_t)(OAT_SOLID_LEAST + b % 200) : OAT_CLEAR));
    return sum;
}
#endif
