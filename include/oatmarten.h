/* Oatmarten: exact sight lines through a voxel grid. The C interface, revision 9 (OAT_REVISION).

   Link with liboatmarten.a or liboatmarten.so (x86-64 Linux). docs/C.md has a whole program, docs/SCOPE.md the exact rules, docs/TRUST.md says what is proved
   and what is not.

   Every call, but oat_revision, which answers a number,
   - takes any numbers and any lent memory, ends, and does its job or refuses by a number; there is no other error;
   - answers by value. Every answer begins with `said`: its `refusal` is OAT_ACCEPTED, or the number of the refusal; its `end` and `axis`
     then say what it names. Fields that the answer does not speak of are 0: all values of a refused call, all of `said` of an accepted one;
   - writes nothing where it refuses, and where it accepts only what is said of it below;
   - gives the same answer and the same final memory for the same input.

   Lent memory is a pointer and the number of elements behind it. The pointer must not be null, also where the number is 0, must be aligned
   for its element type, and so many elements must be readable (writable where it is not const) until the call returns. The library keeps
   no pointer. Memory that a call writes must not overlap other memory lent to the same call: this matters for oat_write_venue and
   oat_adaptive_cells, and for oat_build, oat_set and oat_refill, which are lent cells and masks. Memory that is only read may be shared by any number of calls.

   Threads: the library has no state, takes no lock, allocates nothing and needs under 8 KiB of stack. Calls may run at the same time in any
   threads, as long as no memory that one of them writes is lent to another. Of the C library it calls at most memset, memcpy and memmove. */
#ifndef OATMARTEN_H
#define OATMARTEN_H

#include <stddef.h>
#include <stdint.h>

#ifdef __cplusplus
extern "C" {
#endif

/* Grows by one when a struct, a call or a number of this header changes, or what a call answers. */
#define OAT_REVISION 9

/* The revision of the library that the program was linked with, or has loaded: where it is not OAT_REVISION, header and library do not belong
   together. It answers a number and no struct, as it cannot refuse. */
uint32_t oat_revision(void);

/* The field `refusal`, with what it names. Where more than one applies, each call below says the order of its tests; ends are looked at P
   before Q, axes in the order x, y, z. */
enum oat_refusal {
    OAT_ACCEPTED = 0,
    OAT_REFUSED_LIMIT = 1,      /* an end of a line list outside OAT_COORDINATE_LEAST to OAT_COORDINATE_MOST: end and axis */
    OAT_REFUSED_COUNT = 2,      /* a count outside 1 to OAT_COUNT_MOST: axis */
    OAT_REFUSED_BYTES = 3,      /* the number of cell bytes is not nx*ny*nz */
    OAT_REFUSED_LAYER = 4,      /* layer z below 0 or not below nz */
    OAT_REFUSED_OFF_GRID = 5,   /* an end, a cell or a corner outside the grid: end and axis */
    OAT_REFUSED_ROOM = 6,       /* too little room for the answer, or fewer masks than bricks */
    OAT_REFUSED_PLACEMENT = 7,  /* an origin value or the edge not finite, or the edge not above 0: axis, or OAT_AXIS_EDGE */
    OAT_REFUSED_NOT_FINITE = 8, /* a surveyed value not finite: end and axis */
    OAT_REFUSED_OFF_SURVEY = 9, /* a surveyed value outside the grid (its far faces are not outside): end and axis */
    OAT_REFUSED_RECORD = 10,    /* a record cut short or of the wrong length */
    OAT_REFUSED_VERSION = 11,   /* a record's version byte: of a venue not 1, of a pair neither 1 nor 2 */
    OAT_REFUSED_RULE = 12,      /* a rule that is neither 1 nor 2: a number given to a call, or the last byte of a pair record of version 2 */
    OAT_REFUSED_STALE = 13,     /* among the bricks with a named cell one whose mask is not what the bytes give, or a total that cannot be right */
    OAT_REFUSED_CORNERS = 14    /* a box's low corner above its high one on some axis */
};

/* A refusal in a few words, by its number; any other number has words too. Never null. What the refusal names is beside it in `said`. */
static inline const char *oat_refusal_words(uint32_t refusal) {
    switch (refusal) {
    case OAT_ACCEPTED: return "accepted";
    case OAT_REFUSED_LIMIT: return "an end beyond the coordinate limit";
    case OAT_REFUSED_COUNT: return "a count outside 1 to 1024";
    case OAT_REFUSED_BYTES: return "the number of cell bytes is not nx*ny*nz";
    case OAT_REFUSED_LAYER: return "no such layer";
    case OAT_REFUSED_OFF_GRID: return "an end, a cell or a corner outside the grid";
    case OAT_REFUSED_ROOM: return "too little room for the answer, or too few masks";
    case OAT_REFUSED_PLACEMENT: return "an origin that is not finite, or an edge that is no length";
    case OAT_REFUSED_NOT_FINITE: return "a surveyed value not finite";
    case OAT_REFUSED_OFF_SURVEY: return "a surveyed value outside the grid";
    case OAT_REFUSED_RECORD: return "a record cut short or of the wrong length";
    case OAT_REFUSED_VERSION: return "a record of another version";
    case OAT_REFUSED_RULE: return "a rule that is neither 1 nor 2";
    case OAT_REFUSED_STALE: return "masks or a total that are not those of the cells";
    case OAT_REFUSED_CORNERS: return "a low corner above the high one";
    default: return "no refusal of this revision";
    }
}

/* The field `end`. In oat_sight P is the camera and Q the ball; in oat_cell_of the point is P. In oat_set the cell is P; in oat_refill the low
   corner is P and the high one Q. */
enum oat_end { OAT_END_NONE = 0, OAT_END_P = 1, OAT_END_Q = 2 };

/* The field `axis`; OAT_AXIS_EDGE only with OAT_REFUSED_PLACEMENT. */
enum oat_axis { OAT_AXIS_NONE = 0, OAT_AXIS_X = 1, OAT_AXIS_Y = 2, OAT_AXIS_Z = 3, OAT_AXIS_EDGE = 4 };

/* The byte of a cell: clear; near, which is not solid, but no long step of the adaptive walk starts there; or solid, OAT_SOLID_LEAST to
   255, which is its material code. Two cells touch where they share a face, an edge or a corner. */
enum oat_byte { OAT_CLEAR = 0, OAT_NEAR = 1, OAT_SOLID_LEAST = 2 };

/* The field `face`: which side of the solid cell the line came in by, told by the way in which the line moves. OAT_FACE_PLUS_X: it moves to
   larger x and comes in by the cell's low-x side; OAT_FACE_MINUS_X: it moves to smaller x and comes in by the high-x side; y and z
   likewise. OAT_FACE_NONE: the solid cell is the start p itself, so the line came in by no side; that is met with a tested start alone.
   Opposite moves have opposite numbers. */
enum oat_face {
    OAT_FACE_NONE = 0,
    OAT_FACE_PLUS_X = 1,
    OAT_FACE_MINUS_X = -1,
    OAT_FACE_PLUS_Y = 2,
    OAT_FACE_MINUS_Y = -2,
    OAT_FACE_PLUS_Z = 3,
    OAT_FACE_MINUS_Z = -3
};

/* The field `start` of oat_manner, and the `start` of oat_touching: whether the cell where a walk starts can be what is in the way. */
enum oat_start {
    OAT_START_UNTESTED = 0, /* it cannot: it is not tested. The default */
    OAT_START_TESTED = 1    /* it can: it is tested like any other cell. Any other number than 0 means the same */
};

/* The rule of a 6-line: what it crosses first at a tie, where the segment between the two centres crosses faces of two or three axes at one
   point. Where there is no tie both rules give the same line. Any other number is refused 12. */
enum oat_rule {
    OAT_RULE_1 = 1, /* y, then z, then x, whichever end it starts from. The default, and what logged clips were made by */
    OAT_RULE_2 = 2  /* the same cells from either end: y, z, x where it starts at the end that comes first, and x, z, y from the other one. The
                       end with the smaller z comes first; where z is equal, that with the smaller y; where y is too, that with the smaller x */
};

#define OAT_COUNT_MOST 1024          /* cells along an axis of a grid */
#define OAT_COORDINATE_LEAST (-8192) /* of an end of a line list */
#define OAT_COORDINATE_MOST 8191
#define OAT_LINE6_ROOM 147450        /* numbers that hold any 6-line: 49,150 cells */
#define OAT_LINE26_ROOM 49152        /* numbers that hold any 26-line: 16,384 cells */
#define OAT_TOUCHING_ROOM 344046     /* numbers that hold any touching line: 114,682 cells */
#define OAT_VENUE_HEAD 11            /* bytes of a venue record before its cells */
#define OAT_PAIR_BYTES 17            /* bytes of a pair record of version 1 */
#define OAT_PAIR_BYTES_2 18          /* bytes of a pair record of version 2, which ends with its rule */

/* The number of bricks of a grid, so of masks to lend: at most 16,777,216, for counts that are accepted. */
#define OAT_MASKS(nx, ny, nz) ((((size_t)(nx) + 3) / 4) * (((size_t)(ny) + 3) / 4) * (((size_t)(nz) + 3) / 4))

/* ---- what the calls take */

/* A cell, by its numbers along the axes. */
typedef struct {
    int32_t x;
    int32_t y;
    int32_t z;
} oat_cell;

/* A grid's cells along each axis, each 1 to OAT_COUNT_MOST. Its bytes lie x fastest, then y, then z: the byte of cell (x, y, z) is number
   x + nx*(y + ny*z). */
typedef struct {
    uint32_t nx;
    uint32_t ny;
    uint32_t nz;
} oat_counts;

/* Where a grid lies, in metres: the corner of cell (0, 0, 0) with the least x, y and z, and the edge of a cell. */
typedef struct {
    double ox;
    double oy;
    double oz;
    double edge;
} oat_placement;

/* A surveyed point, in metres. */
typedef struct {
    double x;
    double y;
    double z;
} oat_point;

/* How a walk is made; oat_touching, which knows no rule, takes a start alone, and what is said of it here holds there. OAT_MANNER_USUAL is the
   default, and can stand for the argument itself; it has an untested start, and goes by rule 1.
   Riggers model the box of a camera as solid. The camera stands inside that box, so with a tested start every such camera would be blocked
   at once, by its own housing. With an untested start the cell p, where the walk starts, is not tested. It is still read, and counted in
   `reads`. Where it is solid it counts as near, so no long step starts there. Only p is exempt: a second cell of the box is in the way, and
   so is q where it is solid and not p. Where p is not solid both starts give the same answer.
   To ask for something else, take the default and change a field, so that the rest stays usual. A zeroed oat_manner is not the default: it
   names no rule, and every call that takes it refuses it 12. */
typedef struct {
    uint32_t start; /* enum oat_start */
    uint32_t rule;  /* enum oat_rule */
} oat_manner;

#ifdef __cplusplus
#define OAT_MANNER_USUAL (oat_manner{OAT_START_UNTESTED, OAT_RULE_1})
#else
#define OAT_MANNER_USUAL ((oat_manner){OAT_START_UNTESTED, OAT_RULE_1})
#endif

/* ---- what they answer */

/* What every answer begins with. */
typedef struct {
    uint32_t refusal; /* enum oat_refusal */
    uint32_t end;     /* enum oat_end */
    uint32_t axis;    /* enum oat_axis */
} oat_said;

/* Of a list of cells. */
typedef struct {
    oat_said said;
    uint32_t count; /* cells listed: of a line all of them, both ends included; of a trail those up to the walk's last */
} oat_listed;

/* Of a call that accepts or refuses. */
typedef struct {
    oat_said said;
} oat_verdict;

/* Of oat_build, oat_set and oat_refill. */
typedef struct {
    oat_said said;
    uint64_t total; /* solid cells of the grid, as they are kept */
} oat_tally;

/* Of oat_complete. */
typedef struct {
    oat_said said;
    uint32_t yes; /* 1: the marks are complete; 0: a clear cell touches a solid one */
} oat_complete_answer;

/* A part of the bytes that the caller lent. */
typedef struct {
    oat_said said;
    uint64_t offset; /* where it starts, in bytes from the lent pointer */
    uint64_t length; /* its bytes; never 0 where accepted */
} oat_part;

/* The cell of a surveyed point. */
typedef struct {
    oat_said said;
    int32_t x;
    int32_t y;
    int32_t z;
} oat_found;

/* A venue record that was read. */
typedef struct {
    oat_said said;
    uint32_t nx;
    uint32_t ny;
    uint32_t nz;
    uint64_t offset; /* where its cells start, in bytes from the lent pointer */
    uint64_t length; /* nx*ny*nz */
} oat_venue;

/* A pair record that was read: the ends P and Q, and the rule of the line between them. */
typedef struct {
    oat_said said;
    int32_t px;
    int32_t py;
    int32_t pz;
    int32_t qx;
    int32_t qy;
    int32_t qz;
    uint32_t rule; /* enum oat_rule; OAT_RULE_1 of a record of version 1 */
} oat_pair;

/* A venue record that was written. */
typedef struct {
    oat_said said;
    uint64_t written; /* bytes written at the front of the room */
} oat_written;

/* The first hit of a walk. */
typedef struct {
    oat_said said;
    uint32_t hit;   /* 1: a solid cell was met; 0: none, and the fields up to face are 0 */
    int32_t x;      /* the cell that was met */
    int32_t y;
    int32_t z;
    uint32_t code;  /* its material code, 2 to 255 */
    uint32_t num;   /* num/den of the way from P's centre to Q's the line enters it, or comes to an edge or a corner of it (oat_touching alone);
                       not reduced; 0/1 where it is P (a tested start) */
    uint32_t den;
    int32_t face;   /* enum oat_face: the side by which the line enters it, or comes to it, at num/den of the way; OAT_FACE_NONE where it is P */
    uint32_t reads; /* cells of the walk, its last included */
} oat_hit;

/* The sight from a camera to a ball. */
typedef struct {
    oat_said said;
    uint32_t blocked; /* 1: a solid cell is in the way; 0: clear, and the fields below are 0 */
    double share;     /* of the way at which the line enters that cell, 0 to 1; 0 where it is the camera's (a tested start) */
    int32_t x;        /* the cell in the way */
    int32_t y;
    int32_t z;
    uint32_t code;    /* its material code, 2 to 255 */
    uint32_t reads;   /* cells of the walk, its last included */
    int32_t face;     /* enum oat_face: the side by which the line enters that cell; OAT_FACE_NONE where it is the camera's */
} oat_sight_answer;

/* ---- lines: refusals 12 (oat_line6 alone), 1, then 6. A, B, C are the differences of p and q in x, y, z, without sign; M is the largest.
   By rule 2 the 6-line from q to p is the mirror of the one from p to q: the same cells, last to first. By rule 1 it need not be, as ties go
   y, z, x both ways; nor need the 26-line, as halves go towards the end of the line */

/* Writes the cells of the 6-line from p to q, in order, three numbers a cell (x, y, z), at the front of `out`; the rest of `out` stays.
   It has A + B + C + 1 cells. `room` is the number of numbers that `out` holds; refused 6 exactly when it is below three times the cells.
   Neighbouring cells share a face; the line has every cell whose inside the segment between the two centres enters. Ties go by `rule`, a
   number of enum oat_rule. */
oat_listed oat_line6(oat_cell p, oat_cell q, uint32_t rule, int32_t *out, size_t room);

/* The same for the 26-line, which knows no rule: M + 1 cells, one for each step along the longest axis; neighbouring cells share a face, an
   edge or a corner. On an axis with difference D, cell number m (from 0) has moved m*D/M cells towards q, rounded to the nearest; a half is
   rounded up, so towards q. */
oat_listed oat_line26(oat_cell p, oat_cell q, int32_t *out, size_t room);

/* The same for the touching line, which knows no rule either: every cell that has a point of the segment between the two centres, if only on a
   face, an edge or a corner; each once. It is for single layers of cells that run along a diagonal, such as netting: through an edge a 6-line goes by
   one of the two cells beside it, and leaves out the other. The touching line has both, and every cell of the 6-line by either rule.
   The first cell is p and the last is q; the others come in the order of the crossings. Where one face is crossed, the cell behind it comes. At a tie come, from the
   cell before it, first the cells that one of its crossings leads to, y, z, x; then those by two of them, yz, yx, zx; then the one by all three. So
   where two axes tie there are three cells, and where three do there are seven. From (0, 0, 0) to (1, 1, 1) it has (0, 0, 0), then (0, 1, 0),
   (0, 0, 1), (1, 0, 0), then (0, 1, 1), (1, 1, 0), (1, 0, 1), then (1, 1, 1).
   No list takes more than 3 + 7*(A + B + C) numbers, and where `room` is so many the cells need not be counted first. The longest, from one corner of
   the limits to the opposite one, has 114,682 cells. */
oat_listed oat_line_touching(oat_cell p, oat_cell q, int32_t *out, size_t room);

/* ---- grids: refusals 2, 3, then 4 or 5; the 12 of oat_plain, oat_adaptive and oat_adaptive_cells before these, the 6 of the last behind them. `bytes` is
   the number of bytes at `cells` */

/* Marks the near cells in place: each solid byte stays; any other becomes OAT_NEAR where its cell touches a solid one, else OAT_CLEAR,
   whatever it was. */
oat_verdict oat_mark(oat_counts n, uint8_t *cells, size_t bytes);

/* Whether the marks are complete: no clear cell touches a solid one. It holds after oat_mark. For oat_adaptive and oat_sight a mark that is missing at a
   corner alone does no harm; but a 0 does not tell which mark is missing, and no call tests for less: after a 0, mark. */
oat_complete_answer oat_complete(oat_counts n, const uint8_t *cells, size_t bytes);

/* Where layer z lies: nx*ny bytes. Nothing is copied. */
oat_part oat_layer(oat_counts n, const uint8_t *cells, size_t bytes, int32_t z);

/* The first solid cell along the 6-line from p to q, made as `how` says. With an untested start it is a later cell than p, q at the last; where q
   is p the way is clear with one read, whatever the byte. With a tested start p comes first: where it is solid it is the hit, at 0/1 and by
   no side. Asks for no marks. By rule 2, with a tested start, the way from q to p is clear exactly where the way from p to q is. */
oat_hit oat_plain(oat_counts n, const uint8_t *cells, size_t bytes, oat_cell p, oat_cell q, oat_manner how);

/* The same with long steps over clear cells: from a clear cell of the 26-line to the next cell of the 26-line; from every other cell to the
   next of the 6-line by the rule of `how`, from a solid p that is not tested too. A cell that a long step leads to has the place and the
   side by which that 6-line enters it. After oat_mark, and wherever every cell across a face or an edge from a solid one is near or solid, it gives
   the answer that oat_plain gives for the same `how`, but for its reads, which are no more; elsewhere it may miss a solid cell, and never makes one
   up. */
oat_hit oat_adaptive(oat_counts n, const uint8_t *cells, size_t bytes, oat_cell p, oat_cell q, oat_manner how);

/* Writes the trail of that walk, the cells on which it stands, in order, three numbers a cell (x, y, z), at the front of `out`; the rest of `out` stays. They
   are the cells that oat_adaptive reads on the same inputs, as many as its `reads`: the first is p, the last is the cell of the hit, or q where the way is
   clear. Cells that a long step passes over are not among them. `room` is the number of numbers that `out` holds; refused 6 exactly when it is below three
   times the cells, after all else. A trail has no more cells than the 6-line from p to q. */
oat_listed oat_adaptive_cells(oat_counts n, const uint8_t *cells, size_t bytes, oat_cell p, oat_cell q, oat_manner how, int32_t *out, size_t room);

/* The first solid cell along the touching line from p to q, in the order of oat_line_touching. `start` is a number of enum oat_start, and says of p
   what it says for oat_plain; there is no rule. Asks for no marks. At a tie, place and side of the hit are those of one crossing: of those that lead
   to the cell, the first in the order y, z, x. `reads` counts the cells of the list up to the hit, and all of them where the way is clear: it may
   read more cells than oat_plain. Where the way is clear, oat_plain with the same start is clear by either rule. */
oat_hit oat_touching(oat_counts n, const uint8_t *cells, size_t bytes, oat_cell p, oat_cell q, uint32_t start);

/* ---- solid counts that are kept: refusals 2, 3, 6; of oat_set and oat_refill then 5, 14 (oat_refill alone), 13. `bytes` is the number of bytes at
   `cells`, `lent` that of masks at `masks`, OAT_MASKS(nx, ny, nz) or more; masks behind these stay as they are. Cells and masks must not overlap.

   Cells are taken in bricks, four a side. For each brick one number of 64 bits, its mask, has a bit for each of its cells: bit x + 4*y + 16*z, the
   coordinates counted within the brick, is 1 where that cell is solid. Bricks at the far faces may reach beyond the grid: the bits of cells there are 0.
   Masks lie as bytes do, x fastest, then y, then z: with bx = (nx + 3) / 4 and by = (ny + 3) / 4 the mask of cell (x, y, z) is number
   x/4 + bx*(y/4 + by*(z/4)).

   Build once, then keep: the masks and the total that the last accepted call answered go into the next one, with the same counts. As long as nothing
   else writes a mask or changes which cells are solid, after every accepted call each mask says which cells of its brick are solid, and the total is
   the number of solid cells. Where something else did, refusal 13 may tell, and may not: it knows only of the bricks that are looked at. Build anew
   then.

   An editor's loop. next_stroke is the editor's own; for a single cell oat_set goes in the place of oat_refill:

       oat_tally now = oat_build(n, cells, bytes, masks, lent);
       if (now.said.refusal != OAT_ACCEPTED) return;
       uint64_t total = now.total;
       while (next_stroke(&low, &high, &byte)) {
           now = oat_refill(n, cells, bytes, masks, lent, total, low, high, byte);
           if (now.said.refusal == OAT_ACCEPTED) total = now.total; // else nothing was written, and the total stays
       }
       oat_mark(n, cells, bytes); // before the next sight

   Refusal 13: among the bricks with a named cell there is one whose mask is not what the bytes give, if only in one of its 64 bits; or the total is
   smaller than the masks of those bricks together have ones, or larger than nx*ny*nz. Named are the cell of oat_set, and all cells of the box of
   oat_refill. It comes before anything is changed, also where the byte is there already.

   Marks are not kept. A cell that becomes solid does not mark the cells that it touches, and one that is cleared leaves their marks: marks may be
   incomplete afterwards. So oat_mark comes before the next adaptive walk or sight. It changes no solid byte and makes none, so masks and total stay
   true. */

/* Writes the mask of every brick at the front of `masks`, whatever was there, and answers the number of solid cells. */
oat_tally oat_build(oat_counts n, const uint8_t *cells, size_t bytes, uint64_t *masks, size_t lent);

/* Gives a cell a byte, writes the mask of its brick, and answers `total` less the ones of that mask as it was, and with those that it has now. Where
   the cell has that byte already nothing changes. A refusal 5 names P. */
oat_tally oat_set(oat_counts n, uint8_t *cells, size_t bytes, uint64_t *masks, size_t lent, uint64_t total, oat_cell cell, uint8_t byte);

/* The same for every cell of a box, with both its corners: gives each the byte, writes the masks of the bricks that hold one, and answers `total`
   less the ones of these masks as they were, and with those that they have now. Refusal 5 looks at the low corner as P, then at the high one as Q. */
oat_tally oat_refill(oat_counts n, uint8_t *cells, size_t bytes, uint64_t *masks, size_t lent, uint64_t total, oat_cell low, oat_cell high,
                     uint8_t byte);

/* ---- surveyed points */

/* The cell of a point: refusals 2, 7 (origin x, y, z, edge), then for each axis 8, then 9. On each axis let q be (point - origin) / edge, the
   difference and the quotient rounded once each. The cell is the whole number n below the count with n <= q < n + 1. The far faces belong to
   the last cells: where q equals the count it is the last one. A q below 0 or above the count is refused 9. The end that a refusal names is
   P. */
oat_found oat_cell_of(oat_counts n, oat_placement at, oat_point point);

/* Whether anything solid is in the way from the camera's cell to the ball's, each as oat_cell_of gives it, by the adaptive walk: refusals 12,
   2, 3, 7, then the camera (P) by axis 8, 9, then the ball (Q). The camera's own cell is tested where `how` says so, and by OAT_MANNER_USUAL
   it is not; a ball in that same cell is then seen. The ball's cell is tested otherwise. Takes the marks as they are: mark first. */
oat_sight_answer oat_sight(oat_counts n, const uint8_t *cells, size_t bytes, oat_placement at, oat_point camera, oat_point ball, oat_manner how);

/* ---- records: numbers are big-endian; bytes after a record are not looked at */

/* Reads a venue record: four bytes, the length of what follows; version 1; nx, ny, nz in two bytes each; the cells. Refusals, in this
   order: 10 where there are fewer than four bytes, where the length is 0, or where fewer bytes follow than it announces; 11; 10 where the
   length is below 7; 2; 3 where the length is not 7 + nx*ny*nz. The cells stay where they are, `offset` bytes into the record. They can
   be marked there, by oat_mark at record + offset: its first OAT_VENUE_HEAD + nx*ny*nz bytes are then the marked venue's record, ready to
   be saved. */
oat_venue oat_read_venue(const uint8_t *record, size_t bytes);

/* Reads a pair record of version 1 or 2: four bytes, the length of what follows, which is 13 or 14; the version; P and Q, six signed numbers of
   two bytes; in version 2 the rule, a byte. Version 1 means OAT_RULE_1. Refusals, in this order: 10 as of a venue; 11; 10 where the length is
   not that of the version; 12. */
oat_pair oat_read_pair(const uint8_t *record, size_t bytes);

/* Writes a venue record at the front of `out`; the rest of `out` stays. Refusals 2, 3, then 6, exactly when `room` is below
   OAT_VENUE_HEAD + nx*ny*nz. `cells` and `out` must not overlap. */
oat_written oat_write_venue(oat_counts n, const uint8_t *cells, size_t bytes, uint8_t *out, size_t room);

#ifdef __cplusplus
}
#endif

#endif
