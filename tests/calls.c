/* Reads calls, one a line, runs each over the shipped archive and prints its answer, a line each (tests/README.md).
   Each call runs twice. Every lent slice stands between two unreadable pages, once flush with the page before it and once flush with the
   page after it; the two answers and final memories must be the same. Slices that are lent for reading cannot be written at all.
   The kit has no C headers, so what is called of the C library is declared here. */

#include "../include/oatmarten.h"

typedef int i32;
typedef unsigned int u32;
typedef unsigned long u64;
typedef unsigned char u8;
typedef __SIZE_TYPE__ size;

/* ---- the C library */

extern void *stdin;
long getline(char **line, size *room, void *file);
int puts(const char *text);
int printf(const char *format, ...);
int dprintf(int file, const char *format, ...);
int vsnprintf(char *out, size room, const char *format, __builtin_va_list rest);
int fflush(void *file);
int strcmp(const char *a, const char *b);
void *memset(void *at, int byte, size bytes);
void *realloc(void *at, size bytes);
void *mmap(void *at, size bytes, int access, int flags, int file, long offset);
int mprotect(void *at, size bytes, int access);
int munmap(void *at, size bytes);
_Noreturn void exit(int status);

enum { NO_ACCESS = 0, READ = 1, READ_WRITE = 3, PRIVATE_ANONYMOUS = 0x22 };

static _Noreturn void fail(const char *what) {
    fflush(0);
    dprintf(2, "tests/calls: %s\n", what);
    exit(2);
}

static void *grown(void *at, size bytes) {
    at = realloc(at, bytes);
    if (!at) fail("no memory");
    return at;
}

/* ---- the answer in the making, one for each placement */

typedef struct { char *at; size length, room; } text;

static text answers[2];
static int placement; /* 0: flush with the page before, 1: flush with the page after */

/* puts words behind the answer, at most 255 characters at a time */
__attribute__((format(printf, 1, 2))) static void say(const char *format, ...) {
    text *to = &answers[placement];
    if (to->room - to->length < 256) to->at = grown(to->at, to->room = 2 * to->room + 256);
    __builtin_va_list rest;
    __builtin_va_start(rest, format);
    to->length += (size)vsnprintf(to->at + to->length, 256, format, rest);
    __builtin_va_end(rest);
}

static void say_refused(oat_said said) {
    static const char *const ends[] = {"-", "P", "Q"}, *const axes[] = {"-", "x", "y", "z", "edge"};
    say("refused %u %s %s", said.refusal, said.end < 3 ? ends[said.end] : "?", said.axis < 5 ? axes[said.axis] : "?");
}

/* ---- the numbers of the line, taken from the left */

static u64 *numbers;
static size given, taken;

static u64 take_u64(void) {
    if (taken == given) fail("a line has too few numbers");
    return numbers[taken++];
}

static long take_between(long least, long most) {
    long n = (long)take_u64();
    if (n < least || n > most) fail("a number does not fit its type");
    return n;
}

static i32 take_i32(void) { return (i32)take_between(-2147483648L, 2147483647L); }
static size take_length(void) { return (size)take_between(0, 1L << 28); }
static u32 take_u32(void) { return (u32)take_between(0, 4294967295L); }
static u8 take_u8(void) { return (u8)take_between(0, 255); }
static double take_f64(void) { return ((union { u64 bits; double value; }){take_u64()}).value; }

/* a word that holds this value until its request lands */
static void take_fixed(long held) { take_between(held, held); }

/* the word start of a walk: 0 tested, 1 not tested. In C 0 is not tested and every other number is tested, so each run of a call that is tested has
   another one */
static u32 take_start(void) {
    static const u32 tested[] = {OAT_START_TESTED, 4294967295u, 2, 256, 65536, 16777216, 2147483648u, 4294967294u};
    static size next;
    return take_between(0, 1) ? OAT_START_UNTESTED : tested[next++ % (sizeof tested / sizeof *tested)];
}

/* the words start and rule; rule is C's own number */
static oat_manner take_manner(void) {
    oat_manner how = OAT_MANNER_USUAL;
    how.start = take_start();
    how.rule = take_u32();
    return how;
}

static oat_cell take_cell(void) {
    i32 x = take_i32(), y = take_i32(), z = take_i32();
    return (oat_cell){x, y, z};
}

/* ---- lent slices */

/* a multiple of every page size that the harness may run on */
enum { PAGE = 65536, SLACK = 0xA5 };

typedef struct { u8 *data, *at; size held, bytes; } slice;

/* so many bytes that can be read and written, flush with the unreadable page on one side */
static slice lend(size bytes) {
    slice s = {.held = (bytes + PAGE - 1) / PAGE * PAGE, .bytes = bytes};
    u8 *map = mmap(0, s.held + 2 * PAGE, NO_ACCESS, PRIVATE_ANONYMOUS, -1, 0);
    if (map == (u8 *)-1) fail("no memory to lend");
    s.data = map + PAGE;
    s.at = placement ? s.data + s.held - bytes : s.data;
    if (s.held && mprotect(s.data, s.held, READ_WRITE)) fail("mprotect");
    if (s.held) memset(s.data, SLACK, s.held);
    return s;
}

/* from here on the slice can only be read */
static void only_read(slice s) {
    if (s.held && mprotect(s.data, s.held, READ)) fail("mprotect");
}

/* takes the slice back: what stands beside it on its pages is as it was */
static void take_back(slice s) {
    for (u8 *b = s.data; b < s.data + s.held; b++)
        if ((b < s.at || b >= s.at + s.bytes) && *b != SLACK) fail("a byte beside a lent slice was written");
    munmap(s.data - PAGE, s.held + 2 * PAGE);
}

/* an array of bytes of the line: its length, then its members */
static slice lend_bytes(void) {
    slice s = lend(take_length());
    for (size n = 0; n < s.bytes; n++) s.at[n] = take_u8();
    return s;
}

/* a grid of the line: its counts, then its bytes */
typedef struct { oat_counts n; slice cells; } grid;

static grid lend_grid(void) {
    u32 nx = take_u32(), ny = take_u32(), nz = take_u32();
    return (grid){{nx, ny, nz}, lend_bytes()};
}

/* room of so many bytes, each holding this value */
static slice lend_room(size bytes, u8 value) {
    slice s = lend(bytes);
    for (size n = 0; n < bytes; n++) s.at[n] = value;
    return s;
}

/* room for so many numbers, each holding this value */
static slice lend_numbers(size count, i32 value) {
    slice s = lend(count * sizeof(i32));
    for (size n = 0; n < count; n++) ((i32 *)s.at)[n] = value;
    return s;
}

/* so many masks, each holding this value */
static slice lend_masks(size count, u64 value) {
    slice s = lend(count * sizeof(u64));
    for (size n = 0; n < count; n++) ((u64 *)s.at)[n] = value;
    return s;
}

/* an array of masks of the line: its length, then its members */
static slice lend_given_masks(void) {
    slice s = lend_masks(take_length(), 0);
    for (size n = 0; n < s.bytes / sizeof(u64); n++) ((u64 *)s.at)[n] = take_u64();
    return s;
}

/* the final memory of a lent slice behind the answer; the slice is taken back */
static void say_bytes(slice s) {
    say(" ;");
    for (size n = 0; n < s.bytes; n++) say(" %u", s.at[n]);
    take_back(s);
}

static void say_numbers(slice s) {
    say(" ;");
    for (size n = 0; n < s.bytes / sizeof(i32); n++) say(" %d", ((i32 *)s.at)[n]);
    take_back(s);
}

/* masks stand behind the cells, where these were written too */
static void say_masks(slice s) {
    for (size n = 0; n < s.bytes / sizeof(u64); n++) say(" %lu", ((u64 *)s.at)[n]);
    take_back(s);
}

/* ---- the calls */

/* an accepted call names no end and no axis, a refused one gives no values */
static void say_stray(oat_said said, u64 values) {
    if (said.refusal ? values != 0 : said.end || said.axis) say(" stray %u %u %lu", said.end, said.axis, values);
}

static void say_listed(oat_listed got, slice out) {
    if (got.said.refusal) say_refused(got.said);
    else say("ok %u", got.count);
    say_stray(got.said, got.said.refusal ? got.count : 0);
    say_numbers(out);
}

static void six(void) {
    oat_cell p = take_cell(), q = take_cell();
    u32 rule = take_u32();
    size room = take_length();
    slice out = lend_numbers(room, -77777);
    say_listed(oat_line6(p, q, rule, (i32 *)out.at, room), out);
}

static void tw6(void) {
    oat_cell p = take_cell(), q = take_cell();
    size room = take_length();
    slice out = lend_numbers(room, -77777);
    say_listed(oat_line26(p, q, (i32 *)out.at, room), out);
}

static void touch(void) {
    oat_cell p = take_cell(), q = take_cell();
    size room = take_length();
    slice out = lend_numbers(room, -77777);
    say_listed(oat_line_touching(p, q, (i32 *)out.at, room), out);
}

static void mark(void) {
    grid g = lend_grid();
    take_fixed(1);
    oat_verdict got = oat_mark(g.n, g.cells.at, g.cells.bytes);
    if (got.said.refusal) say_refused(got.said);
    else say("ok");
    say_stray(got.said, 0);
    say_bytes(g.cells);
}

static void complete(void) {
    grid g = lend_grid();
    take_fixed(1);
    only_read(g.cells);
    oat_complete_answer got = oat_complete(g.n, g.cells.at, g.cells.bytes);
    take_back(g.cells);
    if (got.said.refusal) say_refused(got.said);
    else say(got.yes == 1 ? "yes" : got.yes ? "?" : "no");
    say_stray(got.said, got.said.refusal ? got.yes : 0);
}

static void layer(void) {
    grid g = lend_grid();
    i32 z = take_i32();
    only_read(g.cells);
    oat_part got = oat_layer(g.n, g.cells.at, g.cells.bytes, z);
    take_back(g.cells);
    if (got.said.refusal) say_refused(got.said);
    else say("ok %lu %lu", got.offset, got.length);
    say_stray(got.said, got.said.refusal ? got.offset + got.length : 0);
}

static void say_tally(oat_tally got) {
    if (got.said.refusal) say_refused(got.said);
    else say("ok %lu", got.total);
    say_stray(got.said, got.said.refusal ? got.total : 0);
}

static void build(void) {
    grid g = lend_grid();
    size lent = take_length();
    slice masks = lend_masks(lent, 12345);
    only_read(g.cells);
    say_tally(oat_build(g.n, g.cells.at, g.cells.bytes, (u64 *)masks.at, lent));
    take_back(g.cells);
    say(" ;");
    say_masks(masks);
}

static void set(void) {
    grid g = lend_grid();
    slice masks = lend_given_masks();
    u64 total = take_u64();
    oat_cell cell = take_cell();
    u8 byte = take_u8();
    say_tally(oat_set(g.n, g.cells.at, g.cells.bytes, (u64 *)masks.at, masks.bytes / sizeof(u64), total, cell, byte));
    say_bytes(g.cells);
    say_masks(masks);
}

static void refill(void) {
    grid g = lend_grid();
    slice masks = lend_given_masks();
    u64 total = take_u64();
    oat_cell low = take_cell(), high = take_cell();
    u8 byte = take_u8();
    say_tally(oat_refill(g.n, g.cells.at, g.cells.bytes, (u64 *)masks.at, masks.bytes / sizeof(u64), total, low, high, byte));
    say_bytes(g.cells);
    say_masks(masks);
}

static const char *face_word(i32 face) {
    switch (face) {
    case OAT_FACE_NONE: return "0";
    case OAT_FACE_PLUS_X: return "+x";
    case OAT_FACE_MINUS_X: return "-x";
    case OAT_FACE_PLUS_Y: return "+y";
    case OAT_FACE_MINUS_Y: return "-y";
    case OAT_FACE_PLUS_Z: return "+z";
    case OAT_FACE_MINUS_Z: return "-z";
    default: return "?";
    }
}

static void say_hit(oat_hit got) {
    if (got.said.refusal) say_refused(got.said);
    else if (got.hit == 1)
        say("hit %d %d %d %u %u %u %s %u", got.x, got.y, got.z, got.code, got.num, got.den, face_word(got.face), got.reads);
    else say(got.hit ? "?" : "clear %u", got.reads);
    u64 values = got.hit == 1 ? 0 : (u32)(got.x | got.y | got.z | got.face) | got.code | got.num | got.den;
    if (got.said.refusal) values |= got.hit | got.reads;
    if (values) say(" stray %lu", values);
    say_stray(got.said, 0);
}

static void first_hit(oat_hit walk(oat_counts, const u8 *, size, oat_cell, oat_cell, oat_manner)) {
    grid g = lend_grid();
    oat_cell p = take_cell(), q = take_cell();
    oat_manner how = take_manner();
    only_read(g.cells);
    oat_hit got = walk(g.n, g.cells.at, g.cells.bytes, p, q, how);
    take_back(g.cells);
    say_hit(got);
}

static void plain(void) { first_hit(oat_plain); }
static void adapt(void) { first_hit(oat_adaptive); }

static void trail(void) {
    grid g = lend_grid();
    oat_cell p = take_cell(), q = take_cell();
    oat_manner how = take_manner();
    size room = take_length();
    slice out = lend_numbers(room, -77777);
    only_read(g.cells);
    oat_listed got = oat_adaptive_cells(g.n, g.cells.at, g.cells.bytes, p, q, how, (i32 *)out.at, room);
    take_back(g.cells);
    say_listed(got, out);
}

static void touchhit(void) {
    grid g = lend_grid();
    oat_cell p = take_cell(), q = take_cell();
    u32 start = take_start();
    only_read(g.cells);
    oat_hit got = oat_touching(g.n, g.cells.at, g.cells.bytes, p, q, start);
    take_back(g.cells);
    say_hit(got);
}

static oat_placement take_placement(void) {
    double ox = take_f64(), oy = take_f64(), oz = take_f64(), edge = take_f64();
    return (oat_placement){ox, oy, oz, edge};
}

static oat_point take_point(void) {
    double x = take_f64(), y = take_f64(), z = take_f64();
    return (oat_point){x, y, z};
}

static void cell(void) {
    u32 nx = take_u32(), ny = take_u32(), nz = take_u32();
    oat_placement at = take_placement();
    oat_point p = take_point();
    oat_found got = oat_cell_of((oat_counts){nx, ny, nz}, at, p);
    if (got.said.refusal) say_refused(got.said);
    else say("ok %d %d %d", got.x, got.y, got.z);
    say_stray(got.said, got.said.refusal ? (u64)(got.x | got.y | got.z) : 0);
}

static u64 bits_of(double value) { return ((union { double value; u64 bits; }){value}).bits; }

static void sight(void) {
    grid g = lend_grid();
    oat_placement at = take_placement();
    oat_point camera = take_point(), ball = take_point();
    oat_manner how = take_manner();
    only_read(g.cells);
    oat_sight_answer got = oat_sight(g.n, g.cells.at, g.cells.bytes, at, camera, ball, how);
    take_back(g.cells);
    if (got.said.refusal) say_refused(got.said);
    else if (got.blocked == 1)
        say("blocked %lu %d %d %d %u %u %s", bits_of(got.share), got.x, got.y, got.z, got.code, got.reads, face_word(got.face));
    else say(got.blocked ? "?" : "clear");
    u64 values = got.blocked == 1 ? 0 : bits_of(got.share) | (u32)(got.x | got.y | got.z | got.face) | got.code | got.reads;
    if (got.said.refusal) values |= got.blocked;
    if (values) say(" stray %lu", values);
    say_stray(got.said, 0);
}

static void rvenue(void) {
    slice bytes = lend_bytes();
    only_read(bytes);
    oat_venue got = oat_read_venue(bytes.at, bytes.bytes);
    take_back(bytes);
    if (got.said.refusal) say_refused(got.said);
    else say("ok %u %u %u 1 %lu %lu", got.nx, got.ny, got.nz, got.offset, got.length);
    say_stray(got.said, got.said.refusal ? got.nx | got.ny | got.nz | got.offset | got.length : 0);
}

static void rpair(void) {
    slice bytes = lend_bytes();
    only_read(bytes);
    oat_pair got = oat_read_pair(bytes.at, bytes.bytes);
    take_back(bytes);
    if (got.said.refusal) say_refused(got.said);
    else say("ok %d %d %d %d %d %d %u", got.px, got.py, got.pz, got.qx, got.qy, got.qz, got.rule);
    say_stray(got.said, got.said.refusal ? (u32)(got.px | got.py | got.pz | got.qx | got.qy | got.qz) | got.rule : 0);
}

static void wvenue(void) {
    grid g = lend_grid();
    take_fixed(1);
    take_fixed(1);
    slice out = lend_room(take_length(), 99);
    only_read(g.cells);
    oat_written got = oat_write_venue(g.n, g.cells.at, g.cells.bytes, out.at, out.bytes);
    take_back(g.cells);
    if (got.said.refusal) say_refused(got.said);
    else say("ok %lu", got.written);
    say_stray(got.said, got.said.refusal ? got.written : 0);
    say_bytes(out);
}

static const struct { const char *name; void (*run)(void); } calls[] = {
    {"six", six},
    {"tw6", tw6},
    {"touch", touch},
    {"plain", plain},
    {"adapt", adapt},
    {"trail", trail},
    {"touchhit", touchhit},
    {"mark", mark},
    {"complete", complete},
    {"layer", layer},
    {"cell", cell},
    {"sight", sight},
    {"rvenue", rvenue},
    {"rpair", rpair},
    {"wvenue", wvenue},
    {"build", build},
    {"set", set},
    {"refill", refill},
};

/* ---- the lines of the input */

/* splits the line: its name ends with 0 then, and its numbers stand in `numbers` */
static void split(char *at) {
    static size room;
    given = 0;
    while (*at && *at != ' ' && *at != '\n') at++;
    int more = *at == ' ';
    *at = 0;
    while (more) {
        at++;
        int minus = *at == '-';
        at += minus;
        if (*at < '0' || *at > '9') fail("a word is not a number");
        u64 n = 0;
        for (; *at >= '0' && *at <= '9'; at++)
            if (__builtin_mul_overflow(n, 10UL, &n) || __builtin_add_overflow(n, (u64)(*at - '0'), &n)) fail("a number has over 64 bits");
        if (given == room) numbers = grown(numbers, (room = 2 * room + 1024) * sizeof(u64));
        numbers[given++] = minus ? 0 - n : n;
        more = *at == ' ';
        if (!more && *at && *at != '\n') fail("a word is not a number");
    }
}

static void answer(void run(void)) {
    for (placement = 0; placement < 2; placement++) {
        taken = answers[placement].length = 0;
        run();
        if (taken != given) fail("a line has too many numbers");
    }
    if (strcmp(answers[0].at, answers[1].at)) {
        printf("the answer depends on where the slices stand, or on the number that says tested\n  %s\n  %s\n", answers[0].at, answers[1].at);
        fflush(0);
        exit(1);
    }
    puts(answers[0].at);
}

int main(void) {
    char *line = 0;
    size room = 0;
    while (getline(&line, &room, stdin) > 0) {
        split(line);
        size n = 0, known = sizeof calls / sizeof *calls;
        while (n < known && strcmp(calls[n].name, line)) n++;
        if (n < known) answer(calls[n].run);
        else puts("unknown");
        fflush(0);
    }
    return 0;
}
