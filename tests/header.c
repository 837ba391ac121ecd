/* Prints answers of the archive as raw bytes, a line each: the type's name in the header, then the bytes of the struct in hex. The inputs are
   given by field names of include/oatmarten.h; tests/exports reads the bytes by the exports. Then the header's numbers, at work. */

#include "../include/oatmarten.h"
#include <stdio.h>

#define SHOW(type, call)                                                              \
    do {                                                                              \
        union { type value; unsigned char bytes[sizeof(type)]; } seen = {call};       \
        printf(#type " ");                                                            \
        for (size_t n = 0; n < sizeof(type); n++) printf("%02x", seen.bytes[n]);      \
        printf("\n");                                                                 \
    } while (0)

static uint8_t cells[9 * 8 * 7], record[OAT_VENUE_HEAD + sizeof cells + 1];
static int32_t numbers[OAT_TOUCHING_ROOM]; /* the longest of the lists */
static uint64_t masks[OAT_MASKS(9, 8, 7)];

int main(void) {
    const oat_counts n = {.nx = 9, .ny = 8, .nz = 7};
    const oat_cell p = {.x = 8, .y = 0, .z = 1}, q = {.x = 0, .y = 7, .z = 4};
    const oat_placement at = {.ox = -10, .oy = 20, .oz = 3, .edge = 0.5};
    const oat_point camera = {.x = -5.75, .y = 20.25, .z = 3.75}, ball = {.x = -9.75, .y = 23.75, .z = 5.25};
    const oat_manner tested = {.start = OAT_START_TESTED, .rule = OAT_RULE_1}, untested = {.start = OAT_START_UNTESTED, .rule = OAT_RULE_1};
    const oat_manner either_end = {.start = OAT_START_TESTED, .rule = OAT_RULE_2}, zeroed = {0};
    const uint8_t pair[OAT_PAIR_BYTES] = {0, 0, 0, 13, 1, 255, 255, 0, 2, 255, 253, 0, 4, 255, 251, 0, 6};
    uint8_t ruled[OAT_PAIR_BYTES_2] = {0, 0, 0, 14, 2, 0, 1, 255, 254, 0, 3, 255, 252, 0, 5, 255, 250, OAT_RULE_2};

    /* ends and axes */
    SHOW(oat_listed, oat_line6(p, (oat_cell){.x = 0, .y = OAT_COORDINATE_MOST + 1, .z = 0}, OAT_RULE_1, numbers, 0));
    SHOW(oat_listed, oat_line6((oat_cell){.x = OAT_COORDINATE_LEAST - 1, .y = 0, .z = 0}, q, OAT_RULE_2, numbers, 0));
    SHOW(oat_listed, oat_line6(p, q, OAT_RULE_1, numbers, 56));
    SHOW(oat_listed, oat_line6(p, q, OAT_RULE_2, numbers, 57));
    SHOW(oat_listed, oat_line26(p, q, numbers, 27));
    SHOW(oat_listed, oat_line_touching(p, (oat_cell){.x = 0, .y = 0, .z = OAT_COORDINATE_MOST + 1}, numbers, 0));
    SHOW(oat_listed, oat_line_touching((oat_cell){.x = 0, .y = OAT_COORDINATE_LEAST - 1, .z = 0}, q, numbers, 0));
    SHOW(oat_listed, oat_line_touching(p, q, numbers, 59));
    SHOW(oat_listed, oat_line_touching(p, q, numbers, 60));

    /* a number that is no rule, before everything else */
    SHOW(oat_listed, oat_line6((oat_cell){.x = OAT_COORDINATE_LEAST - 1, .y = 0, .z = 0}, q, OAT_RULE_2 + 1, numbers, 0));
    SHOW(oat_hit, oat_plain(n, cells, 0, p, q, zeroed));
    SHOW(oat_hit, oat_adaptive(n, cells, 0, p, q, zeroed));
    SHOW(oat_listed, oat_adaptive_cells(n, cells, 0, p, q, zeroed, numbers, 0));
    SHOW(oat_sight_answer, oat_sight(n, cells, 0, at, camera, ball, zeroed));
    SHOW(oat_verdict, oat_mark((oat_counts){.nx = OAT_COUNT_MOST, .ny = 1, .nz = OAT_COUNT_MOST + 1}, cells, sizeof cells));
    SHOW(oat_verdict, oat_mark(n, cells, sizeof cells - 1));

    /* a solid cell on the way, marked */
    cells[2 + 9 * (6 + 8 * 3)] = 200;
    SHOW(oat_complete_answer, oat_complete(n, cells, sizeof cells));
    SHOW(oat_verdict, oat_mark(n, cells, sizeof cells));
    SHOW(oat_complete_answer, oat_complete(n, cells, sizeof cells));
    SHOW(oat_part, oat_layer(n, cells, sizeof cells, 3));
    SHOW(oat_part, oat_layer(n, cells, sizeof cells, 7));
    SHOW(oat_hit, oat_plain(n, cells, sizeof cells, p, q, tested));
    SHOW(oat_hit, oat_adaptive(n, cells, sizeof cells, p, q, untested));
    SHOW(oat_listed, oat_adaptive_cells(n, cells, sizeof cells, p, q, untested, numbers, 0));
    SHOW(oat_listed, oat_adaptive_cells(n, cells, sizeof cells, p, q, untested, numbers, OAT_TOUCHING_ROOM));
    SHOW(oat_listed, oat_adaptive_cells(n, cells, sizeof cells, p, (oat_cell){.x = 0, .y = 8, .z = 4}, untested, numbers, 0));
    SHOW(oat_hit, oat_plain(n, cells, sizeof cells, p, (oat_cell){.x = 0, .y = 0, .z = 7}, OAT_MANNER_USUAL));

    /* that cell by each of its sides, then as the start, then not met; the start is tested */
    const oat_cell ways[][2] = {
        {{.x = 0, .y = 6, .z = 3}, {.x = 8, .y = 6, .z = 3}}, {{.x = 8, .y = 6, .z = 3}, {.x = 0, .y = 6, .z = 3}},
        {{.x = 2, .y = 0, .z = 3}, {.x = 2, .y = 7, .z = 3}}, {{.x = 2, .y = 7, .z = 3}, {.x = 2, .y = 0, .z = 3}},
        {{.x = 2, .y = 6, .z = 0}, {.x = 2, .y = 6, .z = 6}}, {{.x = 2, .y = 6, .z = 6}, {.x = 2, .y = 6, .z = 0}},
        {{.x = 2, .y = 6, .z = 3}, {.x = 0, .y = 0, .z = 0}}, {{.x = 0, .y = 0, .z = 0}, {.x = 8, .y = 0, .z = 0}},
    };
    for (size_t k = 0; k < sizeof ways / sizeof *ways; k++) SHOW(oat_hit, oat_plain(n, cells, sizeof cells, ways[k][0], ways[k][1], tested));

    /* that cell as the start: not tested by the default, and by its name; tested by any other number, here each of the 32 bits alone */
    const oat_cell solid = {.x = 2, .y = 6, .z = 3}, away = {.x = 0, .y = 6, .z = 3};
    SHOW(oat_hit, oat_plain(n, cells, sizeof cells, solid, away, OAT_MANNER_USUAL));
    SHOW(oat_hit, oat_plain(n, cells, sizeof cells, solid, away, untested));
    SHOW(oat_hit, oat_adaptive(n, cells, sizeof cells, solid, solid, OAT_MANNER_USUAL));
    for (int bit = 0; bit < 32; bit++) {
        oat_manner how = OAT_MANNER_USUAL;
        how.start = (uint32_t)1 << bit;
        SHOW(oat_hit, oat_adaptive(n, cells, sizeof cells, solid, away, how));
    }

    /* at a tie on the way to it: in by y or by x, as the rule says and which end comes first; and each of the 32 bits alone as the rule */
    const oat_cell above = {.x = 3, .y = 7, .z = 3}, below = {.x = 1, .y = 5, .z = 3};
    SHOW(oat_hit, oat_plain(n, cells, sizeof cells, above, solid, OAT_MANNER_USUAL));
    SHOW(oat_hit, oat_plain(n, cells, sizeof cells, above, solid, either_end));
    SHOW(oat_hit, oat_adaptive(n, cells, sizeof cells, above, solid, either_end));
    SHOW(oat_hit, oat_plain(n, cells, sizeof cells, below, solid, either_end));
    for (int bit = 0; bit < 32; bit++) {
        oat_manner how = OAT_MANNER_USUAL;
        how.rule = (uint32_t)1 << bit;
        SHOW(oat_hit, oat_plain(n, cells, sizeof cells, above, solid, how));
    }

    /* the touching line to it: at 11/14 of the way, after a tie; then at a tie by y, from above and from below; and a cell that it has beside the tie */
    SHOW(oat_hit, oat_touching(n, cells, sizeof cells, p, q, OAT_START_TESTED));
    SHOW(oat_hit, oat_touching(n, cells, sizeof cells, above, solid, OAT_START_UNTESTED));
    SHOW(oat_hit, oat_touching(n, cells, sizeof cells, below, solid, OAT_START_UNTESTED));
    SHOW(oat_hit, oat_touching(n, cells, sizeof cells, (oat_cell){.x = 3, .y = 6, .z = 2}, (oat_cell){.x = 2, .y = 6, .z = 3}, OAT_START_TESTED));
    SHOW(oat_hit, oat_touching(n, cells, sizeof cells, (oat_cell){.x = 3, .y = 6, .z = 3}, (oat_cell){.x = 2, .y = 6, .z = 4}, OAT_START_TESTED));
    SHOW(oat_hit, oat_touching(n, cells, sizeof cells, (oat_cell){.x = 0, .y = 0, .z = 0}, (oat_cell){.x = 8, .y = 0, .z = 0}, OAT_START_TESTED));
    SHOW(oat_hit, oat_touching((oat_counts){.nx = 9, .ny = OAT_COUNT_MOST + 1, .nz = 7}, cells, sizeof cells, p, q, OAT_START_TESTED));
    SHOW(oat_hit, oat_touching(n, cells, sizeof cells - 1, p, q, OAT_START_TESTED));
    SHOW(oat_hit, oat_touching(n, cells, sizeof cells, (oat_cell){.x = 9, .y = 0, .z = 0}, q, OAT_START_UNTESTED));

    /* that cell as its start: not tested by 0; tested by any other number, here each of the 32 bits alone */
    SHOW(oat_hit, oat_touching(n, cells, sizeof cells, solid, away, OAT_START_UNTESTED));
    for (int bit = 0; bit < 32; bit++) SHOW(oat_hit, oat_touching(n, cells, sizeof cells, solid, away, (uint32_t)1 << bit));

    /* surveyed points */
    SHOW(oat_found, oat_cell_of(n, at, ball));
    SHOW(oat_found, oat_cell_of(n, (oat_placement){.ox = 0, .oy = 0, .oz = 0, .edge = 0}, ball));
    SHOW(oat_found, oat_cell_of(n, at, (oat_point){.x = -9, .y = 1 / 0.0, .z = 3}));
    SHOW(oat_found, oat_cell_of(n, at, (oat_point){.x = -5.5, .y = 24, .z = 6.5})); /* on the three far walls */
    SHOW(oat_sight_answer, oat_sight(n, cells, sizeof cells, at, camera, ball, OAT_MANNER_USUAL));
    SHOW(oat_sight_answer, oat_sight(n, cells, sizeof cells, at, (oat_point){.x = -8.75, .y = 23.25, .z = 6.25},
                                     (oat_point){.x = -8.75, .y = 23.25, .z = 3.25}, tested));
    SHOW(oat_sight_answer, oat_sight(n, cells, sizeof cells, at, camera, (oat_point){.x = -9.75, .y = 23.75, .z = 6.75}, untested));

    /* from the solid cell */
    const oat_point inside = {.x = -8.75, .y = 23.25, .z = 4.75};
    SHOW(oat_sight_answer, oat_sight(n, cells, sizeof cells, at, inside, ball, tested));
    SHOW(oat_sight_answer, oat_sight(n, cells, sizeof cells, at, inside, ball, OAT_MANNER_USUAL));

    /* to it, at that tie */
    SHOW(oat_sight_answer, oat_sight(n, cells, sizeof cells, at, (oat_point){.x = -8.25, .y = 23.75, .z = 4.75}, inside, tested));
    SHOW(oat_sight_answer, oat_sight(n, cells, sizeof cells, at, (oat_point){.x = -8.25, .y = 23.75, .z = 4.75}, inside, either_end));

    /* records */
    SHOW(oat_written, oat_write_venue(n, cells, sizeof cells, record, sizeof record - 2));
    SHOW(oat_written, oat_write_venue(n, cells, sizeof cells, record, sizeof record));
    SHOW(oat_venue, oat_read_venue(record, sizeof record));
    SHOW(oat_pair, oat_read_pair(pair, sizeof pair));
    SHOW(oat_pair, oat_read_pair(ruled, sizeof ruled));
    ruled[OAT_PAIR_BYTES_2 - 1] = OAT_RULE_1;
    SHOW(oat_pair, oat_read_pair(ruled, sizeof ruled));
    ruled[OAT_PAIR_BYTES_2 - 1] = 0;
    SHOW(oat_pair, oat_read_pair(ruled, sizeof ruled));
    ruled[4] = 3;
    SHOW(oat_pair, oat_read_pair(ruled, sizeof ruled));
    record[4] = 2;
    SHOW(oat_venue, oat_read_venue(record, sizeof record));
    SHOW(oat_pair, oat_read_pair(pair, sizeof pair - 1));

    /* solid counts that are kept: of the one solid cell, then with the last cell, then with a brick full of them; at last of all cells */
    const size_t bricks = sizeof masks / sizeof *masks;
    const oat_cell first = {.x = 0, .y = 0, .z = 0}, inner = {.x = 3, .y = 3, .z = 3}, last = {.x = 8, .y = 7, .z = 6};
    SHOW(oat_tally, oat_build((oat_counts){.nx = 9, .ny = 0, .nz = 7}, cells, sizeof cells, masks, bricks));
    SHOW(oat_tally, oat_build(n, cells, sizeof cells, masks, bricks - 1));
    SHOW(oat_tally, oat_build(n, cells, sizeof cells, masks, bricks));
    SHOW(oat_tally, oat_set(n, cells, sizeof cells, masks, bricks, 1, (oat_cell){.x = 8, .y = 7, .z = 7}, OAT_SOLID_LEAST));
    SHOW(oat_tally, oat_set(n, cells, sizeof cells, masks, bricks, 1, last, OAT_SOLID_LEAST));
    SHOW(oat_tally, oat_refill(n, cells, sizeof cells, masks, bricks, 2, first, inner, 255));
    SHOW(oat_tally, oat_refill(n, cells, sizeof cells, masks, bricks, 66, first, (oat_cell){.x = 8, .y = 8, .z = 6}, OAT_CLEAR));
    SHOW(oat_tally, oat_refill(n, cells, sizeof cells, masks, bricks, 66, last, inner, OAT_CLEAR));
    SHOW(oat_tally, oat_set(n, cells, sizeof cells, masks, bricks, 63, inner, OAT_NEAR)); /* a total below the ones of the brick */
    SHOW(oat_tally, oat_refill(n, cells, sizeof cells, masks, bricks, 66, first, last, 2));

    /* the longest lines fill their room, and no less will do */
    const oat_cell least = {.x = OAT_COORDINATE_LEAST, .y = OAT_COORDINATE_LEAST, .z = OAT_COORDINATE_LEAST};
    const oat_cell most = {.x = OAT_COORDINATE_MOST, .y = OAT_COORDINATE_MOST, .z = OAT_COORDINATE_MOST};
    SHOW(oat_listed, oat_line6(least, most, OAT_RULE_1, numbers, OAT_LINE6_ROOM));
    SHOW(oat_listed, oat_line6(most, least, OAT_RULE_2, numbers, OAT_LINE6_ROOM));
    SHOW(oat_listed, oat_line6(least, most, OAT_RULE_1, numbers, OAT_LINE6_ROOM - 1));
    SHOW(oat_listed, oat_line26(least, most, numbers, OAT_LINE26_ROOM));
    SHOW(oat_listed, oat_line26(least, most, numbers, OAT_LINE26_ROOM - 1));
    SHOW(oat_listed, oat_line_touching(least, most, numbers, OAT_TOUCHING_ROOM));
    SHOW(oat_listed, oat_line_touching(most, least, numbers, OAT_TOUCHING_ROOM - 1));

    /* the revision, and the words of every number that a refusal can have, and of others */
    printf("revision %u\n", oat_revision());
    for (uint32_t k = 0; k < 300; k++) printf("words %u %s\n", k, oat_refusal_words(k));
    printf("words %u %s\n", (uint32_t)-1, oat_refusal_words((uint32_t)-1));
    return 0;
}
