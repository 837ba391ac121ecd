/* The library's calls as plain C, to be held against it: the same algorithms written for speed, with the signatures of the header. Inputs are
   trusted, not tested, and there is room: refused calls are not timed. But masks and totals are tested, as the library does: that is most of what a
   set does. And the room of a touching line is tested, since that may take a walk of its own. BY(x) names the compiler's copy of x. */

#include "../include/oatmarten.h"

__typeof__(oat_line6) BY(line6);
__typeof__(oat_line26) BY(line26);
__typeof__(oat_line_touching) BY(line_touching);
__typeof__(oat_plain) BY(plain);
__typeof__(oat_adaptive) BY(adaptive);
__typeof__(oat_touching) BY(touching);
__typeof__(oat_sight) BY(sight);
__typeof__(oat_mark) BY(mark);
__typeof__(oat_complete) BY(complete);
__typeof__(oat_build) BY(build);
__typeof__(oat_set) BY(set);
__typeof__(oat_refill) BY(refill);

typedef struct { int a, b, c, x, y, z; } way; /* differences; one cell towards q on each axis */

static inline int apart(int p, int q) { return p < q ? q - p : p - q; }
static inline int unit(int p, int q) { return p <= q ? 1 : -1; }

static inline way way_of(oat_cell p, oat_cell q) {
    return (way){apart(p.x, q.x), apart(p.y, q.y), apart(p.z, q.z), unit(p.x, q.x), unit(p.y, q.y), unit(p.z, q.z)};
}

/* Whether ties go x, z, y: 1 by rule 2 from the end that comes second in the order z, y, x; else 0, and they go y, z, x. A decision value of 0 is a
   tie and goes y, z, x; this taken off each of the three puts it on the other side, and no other value. */
static inline int turned(oat_cell p, oat_cell q, uint32_t rule) {
    return rule == OAT_RULE_2 && (q.z != p.z ? q.z < p.z : q.y != p.y ? q.y < p.y : q.x < p.x);
}

static inline int longest(way w) {
    int m = w.a < w.b ? w.b : w.a;
    return m < w.c ? w.c : m;
}

/* ---- lists */

oat_listed BY(line6)(oat_cell p, oat_cell q, uint32_t rule, int32_t *out, size_t room) {
    (void)room;
    way w = way_of(p, q);
    int tie = turned(p, q, rule);
    int xy = w.b - w.a - tie, xz = w.c - w.a - tie, zy = w.b - w.c - tie, a2 = 2 * w.a, b2 = 2 * w.b, c2 = 2 * w.c;
    int x = p.x, y = p.y, z = p.z;
    uint32_t faces = (uint32_t)(w.a + w.b + w.c);
    for (uint32_t left = faces; left; left--, out += 3) {
        out[0] = x, out[1] = y, out[2] = z;
        if (xy < 0) {
            if (xz < 0) x += w.x, xy += b2, xz += c2;
            else z += w.z, xz -= a2, zy += b2;
        } else {
            if (zy < 0) z += w.z, xz -= a2, zy += b2;
            else y += w.y, xy -= a2, zy -= c2;
        }
    }
    out[0] = q.x, out[1] = q.y, out[2] = q.z;
    return (oat_listed){.count = faces + 1};
}

/* the longest axis, u, moves each time; f and g tell of the others, v and w */
oat_listed BY(line26)(oat_cell p, oat_cell q, int32_t *out, size_t room) {
    (void)room;
    way way = way_of(p, q);
    int U = longest(way), u = U == way.a ? 0 : U == way.b ? 1 : 2, v = u == 0 ? 1 : 0, w = u == 2 ? 1 : 2;
    int apart[3] = {way.a, way.b, way.c}, unit[3] = {way.x, way.y, way.z}, from[3] = {p.x, p.y, p.z};
    int U2 = 2 * U, V2 = 2 * apart[v], W2 = 2 * apart[w], f = V2 - U, g = W2 - U;
    int at_u = from[u], at_v = from[v], at_w = from[w], by_u = unit[u], by_v = unit[v], by_w = unit[w];
    for (int left = U; left; left--, out += 3) {
        out[u] = at_u, out[v] = at_v, out[w] = at_w;
        at_u += by_u;
        at_v += f >= 0 ? by_v : 0;
        at_w += g >= 0 ? by_w : 0;
        f += f >= 0 ? V2 - U2 : V2;
        g += g >= 0 ? W2 - U2 : W2;
    }
    out[0] = q.x, out[1] = q.y, out[2] = q.z;
    return (oat_listed){.count = (uint32_t)U + 1};
}

/* The next tie of the touching line, of one, two or three axes: a decision value of 0 is two axes at one point. What is done at each is named by its
   axes; then the values move, by what each of its crossings adds. */
#define TIE(X, Y, Z, YZ, YX, ZX, YZX)                                               \
    do {                                                                            \
        if (xy < 0) {                                                               \
            if (xz < 0) { X; xy += b2, xz += c2; }                                  \
            else if (xz) { Z; xz -= a2, zy += b2; }                                 \
            else { ZX; xy += b2, xz += c2 - a2, zy += b2; }                         \
        } else if (zy < 0) {                                                        \
            Z; xz -= a2, zy += b2;                                                  \
        } else if (zy) {                                                            \
            if (xy) { Y; xy -= a2, zy -= c2; }                                      \
            else { YX; xy += b2 - a2, xz += c2, zy -= c2; }                         \
        } else {                                                                    \
            if (xy) { YZ; xy -= a2, xz -= a2, zy += b2 - c2; }                      \
            else { YZX; xy += b2 - a2, xz += c2 - a2, zy += b2 - c2; }              \
        }                                                                           \
    } while (0)

/* the values at p, and what they move by */
#define VALUES(w) int xy = w.b - w.a, xz = w.c - w.a, zy = w.b - w.c, a2 = 2 * w.a, b2 = 2 * w.b, c2 = 2 * w.c

/* how many cells it has: a tie of two axes has one more than it has crossings, one of three four more */
static uint32_t BY(touched)(way w) {
    VALUES(w);
    int faces = w.a + w.b + w.c, more = 0;
    for (int left = faces; left;) TIE(left--, left--, left--, (left -= 2, more++), (left -= 2, more++), (left -= 2, more++), (left -= 3, more += 4));
    return (uint32_t)(faces + more) + 1;
}

static inline int32_t *put(int32_t *out, int x, int y, int z) {
    out[0] = x, out[1] = y, out[2] = z;
    return out + 3;
}

/* No three crossings have more than seven cells: with room for so many nothing is counted. */
oat_listed BY(line_touching)(oat_cell p, oat_cell q, int32_t *out, size_t room) {
    way w = way_of(p, q);
    VALUES(w);
    int x = p.x, y = p.y, z = p.z, left = w.a + w.b + w.c;
    if (room < 3 + 7 * (size_t)left && room < 3 * (size_t)BY(touched)(w)) return (oat_listed){.said = {.refusal = OAT_REFUSED_ROOM}};
    int32_t *to = put(out, x, y, z);
    while (left) {
        int by_x = x + w.x, by_y = y + w.y, by_z = z + w.z;
        TIE((x = by_x, left--), (y = by_y, left--), (z = by_z, left--),
            (to = put(put(to, x, by_y, z), x, y, by_z), y = by_y, z = by_z, left -= 2),
            (to = put(put(to, x, by_y, z), by_x, y, z), y = by_y, x = by_x, left -= 2),
            (to = put(put(to, x, y, by_z), by_x, y, z), z = by_z, x = by_x, left -= 2),
            (to = put(put(put(to, x, by_y, z), x, y, by_z), by_x, y, z), to = put(put(put(to, x, by_y, by_z), by_x, by_y, z), by_x, y, by_z),
             x = by_x, y = by_y, z = by_z, left -= 3));
        to = put(to, x, y, z);
    }
    return (oat_listed){.count = (uint32_t)((to - out) / 3)};
}

/* ---- first hits */

/* of the crossings last made (i of a and so on), the last one: at (2i-1)/(2a); of equals x before z before y, where ties are turned y before z
   before x. Its face is told by p and the cell: w's units would have to be kept through the walk */
static oat_hit BY(found)(oat_counts n, const uint8_t *cells, const uint8_t *at, oat_cell p, way w, int tie, uint32_t reads) {
    if (*at < OAT_SOLID_LEAST) return (oat_hit){.reads = reads};
    uint32_t index = (uint32_t)(at - cells), row = index / n.nx;
    int x = (int)(index - row * n.nx), z = (int)(row / n.ny), y = (int)(row - (uint32_t)z * n.ny);
    oat_hit h = {.hit = 1, .x = x, .y = y, .z = z, .code = *at, .num = 0, .den = 1, .reads = reads};
    int i = apart(p.x, x), j = apart(p.y, y), k = apart(p.z, z), num = -1, den = 1, face = OAT_FACE_NONE;
    if (j) num = 2 * j - 1, den = 2 * w.b, face = p.y < y ? OAT_FACE_PLUS_Y : OAT_FACE_MINUS_Y;
    if (k && (num < 0 || num * 2 * w.c + tie <= (2 * k - 1) * den))
        num = 2 * k - 1, den = 2 * w.c, face = p.z < z ? OAT_FACE_PLUS_Z : OAT_FACE_MINUS_Z;
    if (i && (num < 0 || num * 2 * w.a + tie <= (2 * i - 1) * den))
        num = 2 * i - 1, den = 2 * w.a, face = p.x < x ? OAT_FACE_PLUS_X : OAT_FACE_MINUS_X;
    if (num > 0) h.num = (uint32_t)num, h.den = (uint32_t)den, h.face = face;
    return h;
}

/* over the next face of the 6-line */
#define CROSS                                                 \
    do {                                                      \
        if (xy < 0) {                                         \
            if (xz < 0) at += sx, xy += b2, xz += c2;         \
            else at += sz, xz -= a2, zy += b2;                \
        } else {                                              \
            if (zy < 0) at += sz, xz -= a2, zy += b2;         \
            else at += sy, xy -= a2, zy -= c2;                \
        }                                                     \
    } while (0)

/* a solid start that is not tested is left before the loop, which is then the same for both starts */
oat_hit BY(plain)(oat_counts n, const uint8_t *cells, size_t bytes, oat_cell p, oat_cell q, oat_manner how) {
    (void)bytes;
    way w = way_of(p, q);
    int tie = turned(p, q, how.rule);
    int xy = w.b - w.a - tie, xz = w.c - w.a - tie, zy = w.b - w.c - tie, a2 = 2 * w.a, b2 = 2 * w.b, c2 = 2 * w.c;
    ptrdiff_t sx = w.x, sy = w.y * (ptrdiff_t)n.nx, sz = w.z * (ptrdiff_t)n.nx * n.ny;
    const uint8_t *at = cells + p.x + (ptrdiff_t)n.nx * (p.y + (ptrdiff_t)n.ny * p.z);
    int faces = w.a + w.b + w.c, left = faces;
    if (how.start == OAT_START_UNTESTED && *at >= OAT_SOLID_LEAST) {
        if (!left) return (oat_hit){.reads = 1};
        CROSS;
        left--;
    }
    for (; left && *at < OAT_SOLID_LEAST; left--) CROSS;
    return BY(found)(n, cells, at, p, w, tie, (uint32_t)(faces - left) + 1);
}

/* The adaptive walk as the paper has it: on clear runs the two values of the 26-line (f and g, of the shorter axes v and w against the longest,
   u), all three of the tripod where the way is near. vw is the third one times U, since it is had from the two others; -1 puts a tie on the side
   of the axis that goes first, which is the other one where ties are turned. Whether a cell is a start that is not tested is asked of solid ones
   alone, so it takes no time on the way. */
oat_hit BY(adaptive)(oat_counts n, const uint8_t *cells, size_t bytes, oat_cell p, oat_cell q, oat_manner how) {
    (void)bytes;
    way way = way_of(p, q);
    int tie = turned(p, q, how.rule), U = longest(way), by_x = U == way.a, by_y = !by_x && U == way.b, by_z = !by_x && !by_y;
    int V = by_x ? way.b : way.a, W = by_z ? way.b : way.c;
    ptrdiff_t sx = way.x, sy = way.y * (ptrdiff_t)n.nx, sz = way.z * (ptrdiff_t)n.nx * n.ny;
    ptrdiff_t su = by_x ? sx : by_y ? sy : sz, sv = by_x ? sy : sx, sw = by_z ? sy : sz;
    const uint8_t *at = cells + p.x + (ptrdiff_t)n.nx * (p.y + (ptrdiff_t)n.ny * p.z), *exempt = how.start == OAT_START_UNTESTED ? at : 0;
    if (!U && exempt) return (oat_hit){.reads = 1};
    int f = 2 * V - U, g = 2 * W - U, U2 = 2 * U, V2 = 2 * V, W2 = 2 * W, left = U;
    uint32_t more = 1; /* reads beyond one a long step */
    while (left) {
        if (*at == OAT_CLEAR) {
            do {
                int f1 = f + V2, g1 = g + W2;
                ptrdiff_t by = su + (f >= 0 ? sv : 0) + (g >= 0 ? sw : 0);
                f = f >= 0 ? f1 - U2 : f1;
                g = g >= 0 ? g1 - U2 : g1;
                at += by;
            } while (--left && *at == OAT_CLEAR);
            continue;
        }
        int uv = f - V - (tie ^ !by_x), uw = g - W - (tie ^ by_y);
        int64_t vw = (int64_t)V * (g - W) - (int64_t)W * (f - V) - (tie ^ by_x), vw_v = (int64_t)U2 * W, vw_w = (int64_t)U2 * V;
        do {
            int faces = 1 + (f >= 0) + (g >= 0);
            f += f >= 0 ? V2 - U2 : V2;
            g += g >= 0 ? W2 - U2 : W2;
            left--;
            more += (uint32_t)faces - 1;
            do {
                if (*at >= OAT_SOLID_LEAST && at != exempt)
                    return BY(found)(n, cells, at, p, way, tie, (uint32_t)(U - left) + more - (uint32_t)faces);
                if (vw < 0) {
                    if (uv >= 0) at += sv, uv -= U2, vw += vw_v;
                    else at += su, uv += V2, uw += W2;
                } else {
                    if (uw >= 0) at += sw, uw -= U2, vw -= vw_w;
                    else at += su, uv += V2, uw += W2;
                }
            } while (--faces);
        } while (left && *at != OAT_CLEAR);
    }
    return BY(found)(n, cells, at, p, way, tie, (uint32_t)U + more);
}

/* The touching walk, tie by tie: the cells beside the way are looked at in their order, and the walk goes on from the last one. The crossing that a hit
   is placed by is the last one that was made to it, of equals y before z before x: so ties are turned. */
#define LOOK(by, reads_more)                                                                                                        \
    if (at[by] >= OAT_SOLID_LEAST) return BY(found)(n, cells, at + (by), p, w, 1, (uint32_t)(faces - left) + more + (reads_more))

oat_hit BY(touching)(oat_counts n, const uint8_t *cells, size_t bytes, oat_cell p, oat_cell q, uint32_t start) {
    (void)bytes;
    way w = way_of(p, q);
    VALUES(w);
    ptrdiff_t sx = w.x, sy = w.y * (ptrdiff_t)n.nx, sz = w.z * (ptrdiff_t)n.nx * n.ny;
    const uint8_t *at = cells + p.x + (ptrdiff_t)n.nx * (p.y + (ptrdiff_t)n.ny * p.z);
    int faces = w.a + w.b + w.c, left = faces;
    uint32_t more = 1; /* cells beyond one a crossing */
    if (start != OAT_START_UNTESTED) LOOK(0, 0);
    while (left) {
        TIE((at += sx, left--), (at += sy, left--), (at += sz, left--),
            LOOK(sy, 1); LOOK(sz, 2); (at += sy + sz, left -= 2, more++),
            LOOK(sy, 1); LOOK(sx, 2); (at += sy + sx, left -= 2, more++),
            LOOK(sz, 1); LOOK(sx, 2); (at += sz + sx, left -= 2, more++),
            LOOK(sy, 1); LOOK(sz, 2); LOOK(sx, 3); LOOK(sy + sz, 4); LOOK(sy + sx, 5); LOOK(sz + sx, 6); (at += sy + sz + sx, left -= 3, more += 4));
        LOOK(0, 0);
    }
    return (oat_hit){.reads = (uint32_t)faces + more};
}

/* points within the grid and off its far walls, so that a quotient rounded towards 0 is the cell */
static inline oat_cell cell_at(oat_placement at, oat_point p) {
    return (oat_cell){(int)((p.x - at.ox) / at.edge), (int)((p.y - at.oy) / at.edge), (int)((p.z - at.oz) / at.edge)};
}

/* points anywhere, on the far walls too; counts and placement are right */
oat_found BY(cell_of)(oat_counts n, oat_placement at, oat_point p) {
    const double value[] = {p.x, p.y, p.z}, origin[] = {at.ox, at.oy, at.oz};
    const uint32_t counts[] = {n.nx, n.ny, n.nz};
    int32_t cell[3];
    for (uint32_t a = 0; a < 3; a++) {
        double q = (value[a] - origin[a]) / at.edge;
        if (value[a] - value[a] != 0) return (oat_found){.said = {OAT_REFUSED_NOT_FINITE, OAT_END_P, a + 1}};
        if (q < 0 || q > counts[a]) return (oat_found){.said = {OAT_REFUSED_OFF_SURVEY, OAT_END_P, a + 1}};
        cell[a] = q == counts[a] ? (int32_t)counts[a] - 1 : (int32_t)q;
    }
    return (oat_found){.x = cell[0], .y = cell[1], .z = cell[2]};
}

oat_sight_answer BY(sight)(oat_counts n, const uint8_t *cells, size_t bytes, oat_placement at, oat_point camera, oat_point ball, oat_manner how) {
    oat_hit h = BY(adaptive)(n, cells, bytes, cell_at(at, camera), cell_at(at, ball), how);
    if (!h.hit) return (oat_sight_answer){.blocked = 0};
    double share = (double)h.num / h.den;
    return (oat_sight_answer){.blocked = 1, .share = share, .x = h.x, .y = h.y, .z = h.z, .code = h.code, .reads = h.reads, .face = h.face};
}

/* ---- marks: of three layers the largest byte at each place of a row, kept for three rows; of these the largest; then of three places */

typedef struct { uint8_t layers[3][OAT_COUNT_MOST], rows[OAT_COUNT_MOST + 2]; } rings;

static inline uint8_t larger(uint8_t a, uint8_t b) { return a < b ? b : a; }

static inline void largest(uint8_t *restrict out, const uint8_t *a, const uint8_t *b, const uint8_t *c, size_t nx) {
    for (size_t x = 0; x < nx; x++) out[x] = larger(larger(a[x], b[x]), c[x]);
}

/* row y over the layers beside z */
static inline void over_layers(oat_counts n, const uint8_t *cells, size_t y, size_t z, rings *r) {
    size_t layer = (size_t)n.nx * n.ny;
    const uint8_t *here = cells + z * layer + y * n.nx;
    largest(r->layers[y % 3], z ? here - layer : here, here, z + 1 < n.nz ? here + layer : here, n.nx);
}

/* the rows beside y, one place further on: a zero byte stands at each end */
static inline void over_rows(oat_counts n, const uint8_t *cells, size_t y, size_t z, rings *r) {
    if (!y) over_layers(n, cells, y, z, r);
    if (y + 1 < n.ny) over_layers(n, cells, y + 1, z, r);
    const uint8_t *here = r->layers[y % 3];
    largest(r->rows + 1, y ? r->layers[(y + 2) % 3] : here, here, y + 1 < n.ny ? r->layers[(y + 1) % 3] : here, n.nx);
}

static inline void mark_row(uint8_t *restrict row, const uint8_t *restrict rows, size_t nx) {
    for (size_t x = 0; x < nx; x++) {
        uint8_t was = row[x], near = larger(larger(rows[x], rows[x + 1]), rows[x + 2]) >= OAT_SOLID_LEAST;
        row[x] = was >= OAT_SOLID_LEAST ? was : near;
    }
}

oat_verdict BY(mark)(oat_counts n, uint8_t *cells, size_t bytes) {
    (void)bytes;
    rings r;
    r.rows[0] = r.rows[n.nx + 1] = 0;
    for (size_t z = 0; z < n.nz; z++)
        for (size_t y = 0; y < n.ny; y++) {
            over_rows(n, cells, y, z, &r);
            mark_row(cells + (z * n.ny + y) * n.nx, r.rows, n.nx);
        }
    return (oat_verdict){0};
}

static inline int gap_in_row(const uint8_t *row, const uint8_t *rows, size_t nx) {
    uint8_t most = 0;
    for (size_t x = 0; x < nx; x++) {
        uint8_t clear = row[x] == OAT_CLEAR ? 255 : 0;
        most = larger(most, clear & larger(larger(rows[x], rows[x + 1]), rows[x + 2]));
    }
    return most >= OAT_SOLID_LEAST;
}

oat_complete_answer BY(complete)(oat_counts n, const uint8_t *cells, size_t bytes) {
    (void)bytes;
    rings r;
    r.rows[0] = r.rows[n.nx + 1] = 0;
    for (size_t z = 0; z < n.nz; z++)
        for (size_t y = 0; y < n.ny; y++) {
            over_rows(n, cells, y, z, &r);
            if (gap_in_row(cells + (z * n.ny + y) * n.nx, r.rows, n.nx)) return (oat_complete_answer){.yes = 0};
        }
    return (oat_complete_answer){.yes = 1};
}

/* ---- solid counts that are kept: the mask of a brick is made of its sixteen rows of four bytes, four bits each */

/* Neither compiler may take the processor's instruction for plain x86-64, and gcc calls a function instead that is not linked. */
static inline uint64_t ones(uint64_t m) {
    m -= m >> 1 & 0x5555555555555555u;
    m = (m & 0x3333333333333333u) + (m >> 2 & 0x3333333333333333u);
    return ((m + (m >> 4)) & 0x0F0F0F0F0F0F0F0Fu) * 0x0101010101010101u >> 56;
}

static inline uint64_t solid(uint8_t byte) { return byte >= OAT_SOLID_LEAST; }

static inline uint64_t four_bits(const uint8_t *row) { return solid(row[0]) | solid(row[1]) << 1 | solid(row[2]) << 2 | solid(row[3]) << 3; }

static inline size_t bricks(uint32_t count) { return ((size_t)count + 3) / 4; }

/* a brick that reaches beyond the grid: the cells that are there */
static uint64_t BY(part_mask)(oat_counts n, const uint8_t *cells, size_t x0, size_t y0, size_t z0) {
    uint64_t mask = 0;
    for (size_t z = z0; z < z0 + 4 && z < n.nz; z++)
        for (size_t y = y0; y < y0 + 4 && y < n.ny; y++)
            for (size_t x = x0; x < x0 + 4 && x < n.nx; x++)
                mask |= solid(cells[x + n.nx * (y + n.ny * z)]) << (x - x0 + 4 * (y - y0) + 16 * (z - z0));
    return mask;
}

static inline uint64_t mask_of(oat_counts n, const uint8_t *cells, size_t bx, size_t by, size_t bz) {
    size_t x = 4 * bx, y = 4 * by, z = 4 * bz, nx = n.nx, layer = nx * n.ny;
    if (x + 4 > n.nx || y + 4 > n.ny || z + 4 > n.nz) return BY(part_mask)(n, cells, x, y, z);
    const uint8_t *brick = cells + x + nx * y + layer * z;
    uint64_t mask = 0;
    for (size_t row = 0; row < 16; row++) mask |= four_bits(brick + nx * (row % 4) + layer * (row / 4)) << 4 * row;
    return mask;
}

oat_tally BY(build)(oat_counts n, const uint8_t *cells, size_t bytes, uint64_t *masks, size_t lent) {
    (void)bytes, (void)lent;
    uint64_t total = 0;
    for (size_t z = 0; z < bricks(n.nz); z++)
        for (size_t y = 0; y < bricks(n.ny); y++)
            for (size_t x = 0; x < bricks(n.nx); x++) total += ones(*masks++ = mask_of(n, cells, x, y, z));
    return (oat_tally){.total = total};
}

static const oat_tally stale = {.said = {.refusal = OAT_REFUSED_STALE}};

/* one bit of the mask changes, or none */
oat_tally BY(set)(oat_counts n, uint8_t *cells, size_t bytes, uint64_t *masks, size_t lent, uint64_t total, oat_cell cell, uint8_t byte) {
    (void)lent;
    size_t x = (size_t)cell.x, y = (size_t)cell.y, z = (size_t)cell.z;
    uint64_t *mask = masks + x / 4 + bricks(n.nx) * (y / 4 + bricks(n.ny) * (z / 4)), was = *mask, before = ones(was);
    if (was != mask_of(n, cells, x / 4, y / 4, z / 4) || total < before || total > bytes) return stale;
    uint64_t bit = 1ull << (x % 4 + 4 * (y % 4) + 16 * (z % 4)), now = byte >= OAT_SOLID_LEAST ? was | bit : was & ~bit;
    cells[x + n.nx * (y + n.ny * z)] = byte;
    *mask = now;
    return (oat_tally){.total = total - before + ones(now)};
}

/* all masks of the box are tested, its rows are filled, and the masks are made anew */
oat_tally BY(refill)(oat_counts n, uint8_t *cells, size_t bytes, uint64_t *masks, size_t lent, uint64_t total, oat_cell low, oat_cell high,
                     uint8_t byte) {
    (void)lent;
    size_t x0 = (size_t)low.x, y0 = (size_t)low.y, z0 = (size_t)low.z, x1 = (size_t)high.x, y1 = (size_t)high.y, z1 = (size_t)high.z;
    size_t across = bricks(n.nx), along = bricks(n.ny);
    uint64_t before = 0, after = 0;
    for (size_t z = z0 / 4; z <= z1 / 4; z++)
        for (size_t y = y0 / 4; y <= y1 / 4; y++)
            for (size_t x = x0 / 4; x <= x1 / 4; x++) {
                uint64_t mask = masks[x + across * (y + along * z)];
                if (mask != mask_of(n, cells, x, y, z)) return stale;
                before += ones(mask);
            }
    if (total < before || total > bytes) return stale;
    for (size_t z = z0; z <= z1; z++)
        for (size_t y = y0; y <= y1; y++) __builtin_memset(cells + x0 + n.nx * (y + n.ny * z), byte, x1 - x0 + 1);
    for (size_t z = z0 / 4; z <= z1 / 4; z++)
        for (size_t y = y0 / 4; y <= y1 / 4; y++)
            for (size_t x = x0 / 4; x <= x1 / 4; x++) after += ones(masks[x + across * (y + along * z)] = mask_of(n, cells, x, y, z));
    return (oat_tally){.total = total - before + after};
}
