/* A made-up stadium that fills any grid: ground, a bowl of stands with a wall behind it, a roof ring on posts, goals and four masts. Lengths are in
   1,024ths of half the grid, so the same venue comes out finer on a larger grid. */

#include <stddef.h>
#include <stdint.h>

enum { GROUND = 2, STAND, WALL, ROOF, POST, GOAL, MAST };

static int from_centre(uint32_t at, uint32_t count) { return ((int)(2 * at + 1) - (int)count) * 1024 / (int)count; }
static int square(int v) { return v * v; }
static int within(int v, int least, int most) { return least <= v && v < most; }

/* the height of the stands at a squared distance, in 1,024ths of the grid's height */
static int stand_height(int r2) {
    if (r2 < square(560) || r2 >= square(960)) return 0;
    /* a straight rise over the distance, by its square root */
    int r = 560;
    while (square(r + 8) <= r2) r += 8;
    return 40 + (r - 560) * 480 / 400;
}

static uint8_t material(int x, int y, int z, int thick) {
    int r2 = x * x + y * y, roof = 720;
    if (z < thick) return GROUND;
    if (z < stand_height(r2)) return STAND;
    if (within(r2, square(960), square(1000)) && z < roof) return WALL;
    if (within(r2, square(680), square(1000)) && within(z, roof, roof + thick)) return ROOF;
    /* posts of a cell or two under the inner edge of the roof, every eighth of a turn */
    int post = 720, slant = 509;
    if (z < roof && (within(x < 0 ? -x : x, post, post + 24) ? within(y, -12, 12) : within(y < 0 ? -y : y, post, post + 24) && within(x, -12, 12))) return POST;
    if (z < roof && within(x < 0 ? -x : x, slant, slant + 24) && within(y < 0 ? -y : y, slant, slant + 24)) return POST;
    /* goals: two posts and a bar each */
    if (within(x < 0 ? -x : x, 430, 450)) {
        int side = y < 0 ? -y : y;
        if (within(side, 40, 60) && z < 120) return GOAL;
        if (side < 60 && within(z, 100, 120)) return GOAL;
    }
    if (within(x < 0 ? -x : x, 900, 930) && within(y < 0 ? -y : y, 900, 930)) return MAST;
    return 0;
}

void build_stadium(uint32_t nx, uint32_t ny, uint32_t nz, uint8_t *cells) {
    int thick = 1024 / (int)nz;
    for (uint32_t z = 0; z < nz; z++)
        for (uint32_t y = 0; y < ny; y++)
            for (uint32_t x = 0; x < nx; x++)
                *cells++ = material(from_centre(x, nx), from_centre(y, ny), (int)(z * 1024 / nz), thick);
}
