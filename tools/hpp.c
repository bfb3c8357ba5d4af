// The HPP gas in C, written by hand for speed, on one thread: what the program's speed is compared with. The lattice is a
// torus of SIDE by SIDE cells with random particles, and one of these cases of walls and obstacles:
//
//   free        none
//   channels    walls in 2 of 64 rows
//   obstacles   an obstacle of 3 by 3 cells at one of 100 places
//   mixed       walls and obstacles of 2 by 2 cells, by chance, at one of 60 places
//
// There are at most 60,000 rectangles, since a journal has room for 65,536 entries.
//
//   cc -O3 -march=x86-64-v3 -DSIDE=2048 -o hpp tools/hpp.c
//   ./hpp classes free 1000    1,000 steps, by tiles of parity classes: even phases in place, walled blocks prepared for
//                              each parity and masked, one account counted if there are walls and obstacles, and else
//                              none
//   ./hpp turns free 1000      the same, and odd phases go down and up in turns, as the program's do.
//   ./hpp place free 1000      in place: each odd block is turned once, and two phases go in one sweep. The fastest that
//                              we have. Steps and those of a command are even numbers.
//   ./hpp classes free 1000 2  the accounts are known after every second step, by turns too
//   ./hpp rows free 1000       the same by rows of 64-bit words, as one writes it first
//   ./hpp lines free           the same lattice as lines of commands for gaslab
//
// It prints microseconds a step, then the count and both momenta of the particles, then what walls and obstacles took in x
// and in y: walls x, walls y, obstacles x, obstacles y.
#include <stdint.h>
#include <stdio.h>
#include <stdlib.h>
#include <string.h>
#include <time.h>

#define WORDS (SIDE / 64)
#define TILES (WORDS * WORDS)
#define PAGE __attribute__((aligned(4096)))
#define ALWAYS static inline __attribute__((always_inline))
typedef uint64_t word;
typedef uint32_t half;
typedef word plane[SIDE][WORDS]; // bit x % 64 of word x / 64 is column x

static plane particles PAGE, walls PAGE, obstacles PAGE;

static int get(plane p, int x, int y) { return p[y][x / 64] >> x % 64 & 1; }

static void set(plane p, int x, int y) { p[y][x / 64] |= (word)1 << x % 64; }

// ---- the lattice

static word state = 88172645463325252u;

static word next(void)
{
    state ^= state << 13, state ^= state >> 7, state ^= state << 17;
    return state >> 16;
}

static void rectangle(plane p, int x, int y, int w, int h, const char *command, int tell)
{
    for (int k = 0; k < w * h; k++) set(p, x + k % w, y + k / w);
    if (tell) printf("%s %d %d %d %d\n", command, x, y, w, h);
}

static void tell_row(int y)
{
    printf("row %d ", y);
    for (int x = 0; x < SIDE; x += 4)
        printf("%x", get(particles, x, y) << 3 | get(particles, x + 1, y) << 2 | get(particles, x + 2, y) << 1 |
                         get(particles, x + 3, y));
    printf("\n");
}

// lays the lattice of a case, and tells its lines if asked to; 0 for no such case
static int lay(const char *name, int tell)
{
    for (int y = 0; y < SIDE; y++) {
        for (int i = 0; i < WORDS; i++) particles[y][i] = next() << 32 | (next() & 0xffffffffu);
        if (tell) tell_row(y);
    }
    if (!strcmp(name, "free")) return 1;
    if (!strcmp(name, "channels")) {
        for (int y = 0; y < SIDE; y++)
            if (y % 64 == 20 || y % 64 == 29) rectangle(walls, 0, y, SIDE, 1, "wall", tell);
        return 1;
    }
    int porous = !strcmp(name, "obstacles");
    if (!porous && strcmp(name, "mixed")) return 0;
    int places = SIDE * SIDE / (porous ? 100 : 60);
    for (int k = places < 60000 ? places : 60000; k > 0; k--) {
        int x = next() % (SIDE - 3), y = next() % (SIDE - 3), size = porous ? 3 : 2;
        if (porous || next() % 2)
            rectangle(obstacles, x, y, size, size, "block", tell);
        else
            rectangle(walls, x, y, size, size, "wall", tell);
    }
    return 1;
}

// ---- by tiles of parity classes

// even columns of even rows, odd columns of even rows, even of odd, odd of odd: 32 rows of 32 cells each
typedef struct { half ee[32], oe[32], eo[32], oo[32]; } tile;
typedef struct { half ul, ur, ll, lr; } blocks;
// The walled blocks of one parity, for each tile: those that begin in its columns, and those that end in them. At odd parity
// row 0 is shared with the tile above, and row 32 with the tile below. At even parity there are 32 rows, and a block begins
// and ends in one tile. Bit j of rows is set if the tile has a cell of a walled block in row 2j or 2j + 1.
typedef struct { half begin[TILES][33], end[TILES][33], rows[TILES]; } held;
// what a tile needs at odd phases
typedef struct {
    const tile *above, *below, *left, *right, *above_left, *above_right, *below_left, *below_right;
    const half *walled_begin, *walled_end;
} near;

static tile first[TILES] PAGE, second[TILES] PAGE;
static held walled[2] PAGE, obstacles_held[2] PAGE; // by parity: blocks with a cell of any set, and with one of an obstacle
static int some_walls, some_obstacles, turns;
static long long took[4];

// what becomes of 32 blocks: each particle crosses, but two that meet head on leave at right angles
ALWAYS blocks turned(half ul, half ur, half ll, half lr)
{
    half diagonal = (ul ^ ur) & ~((ul ^ lr) | (ur ^ ll));
    return (blocks){lr ^ diagonal, ll ^ diagonal, ur ^ diagonal, ul ^ diagonal};
}

// The same, but walled blocks stay as they are. Opposite corners change alike: two words are masked and not four.
ALWAYS blocks turned_but(half walls, half ul, half ur, half ll, half lr)
{
    half down = ul ^ lr, up = ur ^ ll, diagonal = (ul ^ ur) & ~(down | up);
    down = (down ^ diagonal) & ~walls, up = (up ^ diagonal) & ~walls;
    return (blocks){ul ^ down, ur ^ up, ll ^ up, lr ^ down};
}

// Called with constants, so that the compiler makes a loop for each case. The same holds for odd rows and for phases.
ALWAYS void even_rows(tile *restrict t, const half *restrict walls, const int from, const int to, const int solid)
{
    for (int j = from; j < to; j++) {
        half ul = t->ee[j], ur = t->oe[j], ll = t->eo[j], lr = t->oo[j];
        blocks b = solid ? turned_but(walls[j], ul, ur, ll, lr) : turned(ul, ur, ll, lr);
        t->ee[j] = b.ul, t->oe[j] = b.ur, t->eo[j] = b.ll, t->oo[j] = b.lr;
    }
}

ALWAYS void even_eight(tile *t, const half *walls, half rows, const int from)
{
    rows >> from & 255 ? even_rows(t, walls, from, from + 8, 1) : even_rows(t, walls, from, from + 8, 0);
}

ALWAYS void even(tile *t, const half *walls, half rows)
{
    if (!rows) {
        even_rows(t, walls, 0, 32, 0);
        return;
    }
    even_eight(t, walls, rows, 0), even_eight(t, walls, rows, 8);
    even_eight(t, walls, rows, 16), even_eight(t, walls, rows, 24);
}

// a row of odd blocks: those that begin in the tile, and those that end in it. Written is what lies in it.
ALWAYS blocks odd_row(half ul, half ur, half ll, half lr, half left_u, half left_l, half right_u, half right_l, const near *n,
                      int row, const int solid)
{
    half begin_ur = ur >> 1 | right_u << 31, begin_lr = lr >> 1 | right_l << 31;
    half end_ul = ul << 1 | left_u >> 31, end_ll = ll << 1 | left_l >> 31;
    blocks begin = solid ? turned_but(n->walled_begin[row], ul, begin_ur, ll, begin_lr) : turned(ul, begin_ur, ll, begin_lr);
    blocks end = solid ? turned_but(n->walled_end[row], end_ul, ur, end_ll, lr) : turned(end_ul, ur, end_ll, lr);
    return (blocks){begin.ul, end.ur, begin.ll, end.lr};
}

ALWAYS void odd_rows(const tile *restrict t, const near *n, tile *restrict out, const int from, const int to, const int solid)
{
    const tile *l = n->left, *r = n->right;
    for (int j = from; j < to; j++) {
        blocks b = odd_row(t->oo[j], t->eo[j], t->oe[j + 1], t->ee[j + 1], l->oo[j], l->oe[j + 1], r->eo[j], r->ee[j + 1], n,
                           j + 1, solid);
        out->oo[j] = b.ul, out->eo[j] = b.ur, out->oe[j + 1] = b.ll, out->ee[j + 1] = b.lr;
    }
}

ALWAYS void odd_eight(const tile *t, const near *n, half rows, tile *out, const int from)
{
    rows >> from & 255 ? odd_rows(t, n, out, from, from + 8, 1) : odd_rows(t, n, out, from, from + 8, 0);
}

ALWAYS void odd_ends(const tile *restrict t, const near *n, tile *restrict out, const int solid)
{
    const tile *l = n->left, *r = n->right;
    blocks top = odd_row(n->above->oo[31], n->above->eo[31], t->oe[0], t->ee[0], n->above_left->oo[31], l->oe[0],
                         n->above_right->eo[31], r->ee[0], n, 0, solid);
    blocks bottom = odd_row(t->oo[31], t->eo[31], n->below->oe[0], n->below->ee[0], l->oo[31], n->below_left->oe[0],
                            r->eo[31], n->below_right->ee[0], n, 32, solid);
    out->oe[0] = top.ll, out->ee[0] = top.lr, out->oo[31] = bottom.ul, out->eo[31] = bottom.ur;
}

ALWAYS void odd(const tile *t, const near *n, half rows, tile *out)
{
    // whole vectors: row 23 comes twice
    if (!rows) {
        odd_ends(t, n, out, 0);
        odd_rows(t, n, out, 0, 24, 0), odd_rows(t, n, out, 23, 31, 0);
        return;
    }
    odd_ends(t, n, out, 1);
    odd_eight(t, n, rows, out, 0), odd_eight(t, n, rows, out, 8);
    odd_eight(t, n, rows, out, 16), odd_eight(t, n, rows, out, 23);
}

static int count(const half *restrict cells, const half *restrict places)
{
    int sum = 0;
    for (int j = 0; j < 32; j += 2) {
        word c, p;
        memcpy(&c, cells + j, 8), memcpy(&p, places + j, 8);
        sum += __builtin_popcountll(c & p);
    }
    return sum;
}

// adds a multiple of the momentum that the particles of some blocks in a tile have before a phase
ALWAYS void add_momentum(const tile *t, const half *begin, const half *end, int parity, int times, long long *sum)
{
    long long ee = count(t->ee, end), oe = count(t->oe, begin);
    long long eo = count(t->eo, end + parity), oo = count(t->oo, begin + parity);
    if (parity) times = -times;
    sum[0] += times * (ee + eo - oe - oo);
    sum[1] += times * (ee + oe - eo - oo);
}

// the same for all particles
static void add_all(const tile *p, int tick, int times, long long *sum)
{
    half all[33];
    memset(all, 255, sizeof all);
    for (int i = 0; i < TILES; i++) add_momentum(p + i, all, all, tick % 2, times, sum);
}

// Obstacles take twice the momentum of the particles in their blocks.
static void book_obstacles(const tile *t, int i, int parity)
{
    const held *h = obstacles_held + parity;
    if (h->rows[i]) add_momentum(t, h->begin[i], parity ? h->end[i] : h->begin[i], parity, 2, took + 2);
}

static near near_of(const tile *p, int x, int y)
{
    int above = (y + WORDS - 1) % WORDS * WORDS, here = y * WORDS, below = (y + 1) % WORDS * WORDS;
    int l = x ? x - 1 : WORDS - 1, r = x + 1 < WORDS ? x + 1 : 0;
    return (near){p + above + x, p + below + x, p + here + l, p + here + r, p + above + l, p + above + r, p + below + l,
                  p + below + r, walled[1].begin[here + x], walled[1].end[here + x]};
}

ALWAYS void even_phase(tile *p, const int solid, int counted)
{
    for (int i = 0; i < TILES; i++) {
        if (counted) book_obstacles(p + i, i, 0);
        even(p + i, walled[0].begin[i], solid ? walled[0].rows[i] : 0);
    }
}

// The rows of tiles come from the last one up if `back` is set.
ALWAYS void odd_phase(const tile *from, tile *to, const int solid, int counted, int back)
{
    for (int k = 0; k < WORDS; k++) {
        int y = back ? WORDS - 1 - k : k;
        for (int x = 0, i = y * WORDS; x < WORDS; x++, i++) {
            near n = near_of(from, x, y);
            if (counted) book_obstacles(from + i, i, 1);
            odd(from + i, &n, solid ? walled[1].rows[i] : 0, to + i);
        }
    }
}

static half *class_of(tile *t, int x, int y) { return y % 2 ? x % 2 ? t->oo : t->eo : x % 2 ? t->oe : t->ee; }

static void set_in_tiles(tile *tiles, int x, int y)
{
    class_of(tiles + y / 64 * WORDS + x / 64, x, y)[y % 64 / 2] |= (half)1 << x % 64 / 2;
}

static int get_in_tiles(tile *tiles, int x, int y)
{
    return class_of(tiles + y / 64 * WORDS + x / 64, x, y)[y % 64 / 2] >> x % 64 / 2 & 1;
}

// whether one of the cells of the block that begins at (x, y) is in the set
static int any_of_block(plane set, int x, int y)
{
    int r = (x + 1) % SIDE, b = (y + 1) % SIDE;
    return get(set, x, y) | get(set, r, y) | get(set, x, b) | get(set, r, b);
}

// marks the block of a cell in the cell's tile
static void mark(held *h, int parity, int x, int y)
{
    int i = y / 64 * WORDS + x / 64;
    half *rows = x % 2 == parity ? h->begin[i] : h->end[i];
    rows[(y % 64 + parity) / 2] |= (half)1 << x % 64 / 2;
    h->rows[i] |= (half)1 << y % 64 / 2;
}

// adds the blocks of a parity that have a cell of the set, and returns whether there are any
static int prepare(held *h, int parity, plane set)
{
    int some = 0;
    for (int y = parity; y < SIDE; y += 2)
        for (int x = parity; x < SIDE; x += 2) {
            if (!any_of_block(set, x, y)) continue;
            some = 1;
            for (int k = 0; k < 4; k++) mark(h, parity, (x + k % 2) % SIDE, (y + k / 2) % SIDE);
        }
    return some;
}

static void begin_classes(void)
{
    for (int parity = 0; parity < 2; parity++) {
        some_walls = prepare(walled + parity, parity, walls);
        some_obstacles = prepare(walled + parity, parity, obstacles);
        prepare(obstacles_held + parity, parity, obstacles);
    }
    for (int y = 0; y < SIDE; y++)
        for (int x = 0; x < SIDE; x++)
            if (get(particles, x, y)) set_in_tiles(first, x, y);
}

// Walls and obstacles together took what there was before and is no more. If there are both, what obstacles take is counted,
// and walls took the rest.
static void settle(const tile *p, int tick, const long long *before)
{
    long long missing[2] = {before[0], before[1]}, *account = some_walls ? took : took + 2;
    add_all(p, tick, -1, missing);
    for (int k = 0; k < 2; k++) account[k] = missing[k] - (some_walls ? took[2 + k] : 0);
}

// The accounts are known after every so many steps, and at the end.
static void run_classes(int steps, int each)
{
    tile *now = first, *spare = second, *old;
    int some = some_walls || some_obstacles, both = some_walls && some_obstacles;
    long long before[2] = {0, 0};
    if (some) add_all(now, 0, 1, before);
    for (int t = 0; t < steps; t++) {
        int back = turns && t % 4 == 3; // the rows that the last odd phase ended with are still in the cache
        if (t % 2)
            some ? odd_phase(now, spare, 1, both, back) : odd_phase(now, spare, 0, 0, back), old = now, now = spare, spare = old;
        else
            some ? even_phase(now, 1, both) : even_phase(now, 0, 0);
        if (some && ((t + 1) % each == 0 || t + 1 == steps)) settle(now, t + 1, before);
    }
    if (now != first) memcpy(first, now, sizeof first);
}

static void end_classes(void)
{
    memset(particles, 0, sizeof particles);
    for (int y = 0; y < SIDE; y++)
        for (int x = 0; x < SIDE; x++)
            if (get_in_tiles(first, x, y)) set(particles, x, y);
}

// ---- in place: an odd block is turned by the tile in which it begins. What its right corners become is carried on to the tile
// to the right, and a row of tiles turns the blocks that reach into the row below too. So nothing is worked out twice, and there
// is no second lattice. An even phase and the odd one after it go through the rows together: a row of tiles is turned at even
// parity just before the row above it needs it.
#ifdef __AVX2__
enum { LANES = 8, GROUPS = 4 };
static const int group_at[GROUPS] = {0, 8, 16, 23};
#else
enum { LANES = 4, GROUPS = 8 };
static const int group_at[GROUPS] = {0, 4, 8, 12, 16, 20, 24, 27};
#endif
typedef half vec __attribute__((vector_size(4 * LANES), aligned(4), may_alias));
#define ROWS(p) (*(vec *)(p))
typedef struct { vec ul, ur, ll, lr; } group;
typedef struct { vec upper[GROUPS], lower[GROUPS]; half up, low; } leaving;

ALWAYS group group_of(const tile *t, const tile *r, const half *walls, const int j, const int solid)
{
    vec ul = ROWS(t->oo + j), ll = ROWS(t->oe + j + 1);
    vec ur = ROWS(t->eo + j) >> 1 | ROWS(r->eo + j) << 31, lr = ROWS(t->ee + j + 1) >> 1 | ROWS(r->ee + j + 1) << 31;
    vec down = ul ^ lr, up = ur ^ ll, diagonal = (ul ^ ur) & ~(down | up);
    if (!solid) return (group){lr ^ diagonal, ll ^ diagonal, ur ^ diagonal, ul ^ diagonal};
    vec w = ROWS(walls + j + 1);
    down = (down ^ diagonal) & ~w, up = (up ^ diagonal) & ~w;
    return (group){ul ^ down, ur ^ up, ll ^ up, lr ^ down};
}

ALWAYS void put_group(tile *t, group b, leaving *c, const int g, const int j)
{
    ROWS(t->oo + j) = b.ul, ROWS(t->oe + j + 1) = b.ll;
    ROWS(t->eo + j) = b.ur << 1 | c->upper[g] >> 31, ROWS(t->ee + j + 1) = b.lr << 1 | c->lower[g] >> 31;
    c->upper[g] = b.ur, c->lower[g] = b.lr;
}

ALWAYS blocks seam_of(const tile *t, const tile *r, const tile *below, const tile *below_r, const half *walls, const int solid)
{
    return turned_but(solid ? walls[32] : 0, t->oo[31], t->eo[31] >> 1 | r->eo[31] << 31, below->oe[0], below->ee[0] >> 1 | below_r->ee[0] << 31);
}

ALWAYS void odd_in_place(tile *t, const tile *r, tile *below, const tile *below_r, const half *walls, leaving *c, const int solid)
{
    blocks s = seam_of(t, r, below, below_r, walls, solid);
    // The last two groups share a row: both are made before either is written.
    for (int g = 0; g < GROUPS - 2; g++) put_group(t, group_of(t, r, walls, group_at[g], solid), c, g, group_at[g]);
    group a = group_of(t, r, walls, group_at[GROUPS - 2], solid), b = group_of(t, r, walls, group_at[GROUPS - 1], solid);
    put_group(t, a, c, GROUPS - 2, group_at[GROUPS - 2]), put_group(t, b, c, GROUPS - 1, group_at[GROUPS - 1]);
    t->oo[31] = s.ul, t->eo[31] = s.ur << 1 | c->up >> 31, below->oe[0] = s.ll, below->ee[0] = s.lr << 1 | c->low >> 31;
    c->up = s.ur, c->low = s.lr;
}

ALWAYS void odd_row_in_place(tile *tiles, int y, const int solid)
{
    const int z = WORDS - 1;
    tile *row = tiles + y * WORDS, *below = tiles + (y + 1) % WORDS * WORDS;
    const half (*walls)[33] = walled[1].begin + y * WORDS;
    const half *rows = walled[1].rows + y * WORDS;
    leaving c;
    for (int g = 0; g < GROUPS; g++) {
        group b = group_of(row + z, row, walls[z], group_at[g], solid);
        c.upper[g] = b.ur, c.lower[g] = b.lr;
    }
    blocks s = seam_of(row + z, row, below + z, below, walls[z], solid);
    c.up = s.ur, c.low = s.lr;
    tile first_was, below_was;
    memcpy(first_was.ee, row->ee, 128), memcpy(first_was.eo, row->eo, 128);
    below_was.ee[0] = below->ee[0];
    for (int x = 0; x < z; x++) {
        if (solid && rows[x]) odd_in_place(row + x, row + x + 1, below + x, below + x + 1, walls[x], &c, 1);
        else odd_in_place(row + x, row + x + 1, below + x, below + x + 1, walls[x], &c, 0);
    }
    odd_in_place(row + z, &first_was, below + z, &below_was, walls[z], &c, solid);
}

ALWAYS void even_tiles(tile *p, int y, const int solid, const int counted)
{
    for (int i = y * WORDS; i < (y + 1) * WORDS; i++) {
        if (counted) book_obstacles(p + i, i, 0);
        even(p + i, walled[0].begin[i], solid ? walled[0].rows[i] : 0);
        if (counted) book_obstacles(p + i, i, 1);
    }
}

ALWAYS void two_phases(tile *p, const int solid, const int counted)
{
    even_tiles(p, 0, solid, counted);
    for (int y = 0; y < WORDS; y++) {
        if (y + 1 < WORDS) even_tiles(p, y + 1, solid, counted);
        odd_row_in_place(p, y, solid);
    }
}

static void run_in_place(int steps, int each)
{
    int some = some_walls || some_obstacles, both = some_walls && some_obstacles;
    long long before[2] = {0, 0};
    if (some) add_all(first, 0, 1, before);
    for (int t = 0; t < steps; t += 2) {
        both ? two_phases(first, 1, 1) : some ? two_phases(first, 1, 0) : two_phases(first, 0, 0);
        if (some && ((t + 2) % each == 0 || t + 2 == steps)) settle(first, t + 2, before);
    }
}

// ---- by rows

static plane other PAGE;
static const word EVEN = 0x5555555555555555u;

// each cell takes the place of the other in its block's row: blocks begin at even columns, or at odd ones
ALWAYS word swapped(const word *row, int k, int odd)
{
    if (!odd) return (row[k] >> 1 & EVEN) | (row[k] & EVEN) << 1;
    return ((row[k] >> 1 | row[k + 1] << 63) & ~EVEN) | ((row[k] << 1 | row[k - 1] >> 63) & EVEN);
}

// a row's words, and at odd phases the neighbours over the seam before and after them
ALWAYS const word *padded(word *room, const word *row, int odd)
{
    if (!odd) return row;
    memcpy(room + 1, row, WORDS * sizeof(word));
    room[0] = row[WORDS - 1];
    room[WORDS + 1] = row[0];
    return room;
}

ALWAYS void book(word upper, word lower, word walled, word left, long long *account)
{
    word up = upper & walled, low = lower & walled;
    long long ups = __builtin_popcountll(up), lows = __builtin_popcountll(low);
    long long lefts = __builtin_popcountll(up & left) + __builtin_popcountll(low & left);
    account[0] += 2 * (2 * lefts - (ups + lows));
    account[1] += 2 * (ups - lows);
}

// the blocks with a cell of the set, in a pair of rows; 0 if there is none
ALWAYS word walled_in(const plane set, int upper, int lower, word *out, int odd)
{
    word here[WORDS], room[WORDS + 2], any = 0;
    for (int i = 0; i < WORDS; i++) any |= here[i] = set[upper][i] | set[lower][i];
    if (!any) return 0;
    const word *w = padded(room, here, odd);
    for (int i = 0, k = odd; i < WORDS; i++, k++) out[i] = w[k] | swapped(w, k, odd);
    return any;
}

// One phase of a row of blocks. Called with constants, so that the compiler makes a loop for each case.
ALWAYS void turn(const plane from, plane to, int upper, const int odd, const int solid)
{
    int lower = (upper + 1) % SIDE;
    word u_room[WORDS + 2], l_room[WORDS + 2];
    const word *u = padded(u_room, from[upper], odd), *l = padded(l_room, from[lower], odd);
    for (int i = 0, k = odd; i < WORDS; i++, k++) {
        word us = swapped(u, k, odd), ls = swapped(l, k, odd);
        word diagonal = (u[k] ^ us) & (u[k] ^ l[k]) & ~(u[k] ^ ls);
        to[upper][i] = ls ^ diagonal;
        to[lower][i] = us ^ diagonal;
    }
    if (!solid) return;
    word w[WORDS] = {0}, o[WORDS] = {0};
    if (!(walled_in(walls, upper, lower, w, odd) | walled_in(obstacles, upper, lower, o, odd))) return;
    for (int i = 0, k = odd; i < WORDS; i++, k++) {
        word here = w[i] | o[i], left = odd ? ~EVEN : EVEN;
        to[upper][i] ^= (to[upper][i] ^ u[k]) & here;
        to[lower][i] ^= (to[lower][i] ^ l[k]) & here;
        book(u[k], l[k], w[i] & ~o[i], left, took);
        book(u[k], l[k], o[i], left, took + 2);
    }
}

static void run_rows(int steps, int solid)
{
    for (int t = 0; t < steps; t++)
        for (int y = t % 2; y < SIDE; y += 2)
            if (t % 2)
                solid ? turn(other, particles, y, 1, 1) : turn(other, particles, y, 1, 0);
            else
                solid ? turn(particles, other, y, 0, 1) : turn(particles, other, y, 0, 0);
    if (steps % 2) memcpy(particles, other, sizeof particles);
}

// ----

static double now(void)
{
    struct timespec t;
    clock_gettime(CLOCK_MONOTONIC, &t);
    return t.tv_sec + 1e-9 * t.tv_nsec;
}

// count and momenta at a tick: a particle flies to the right if its column and the tick are both even or both odd
static void tell(double microseconds, int tick)
{
    long long count = 0, px = 0, py = 0;
    for (int y = 0; y < SIDE; y++)
        for (int x = 0; x < SIDE; x++)
            if (get(particles, x, y)) {
                count++;
                px += (x + tick) % 2 ? -1 : 1;
                py += (y + tick) % 2 ? -1 : 1;
            }
    printf("%.2f %lld %lld %lld %lld %lld %lld %lld\n", microseconds, count, px, py, took[0], took[1], took[2], took[3]);
}

int main(int count, char **words)
{
    int lines = count == 3 && !strcmp(words[1], "lines"), place = count > 1 && !strcmp(words[1], "place"), classes;
    turns = count > 1 && !strcmp(words[1], "turns");
    classes = (count == 4 || count == 5) && (turns || place || !strcmp(words[1], "classes"));
    if ((!lines && !classes && (count != 4 || strcmp(words[1], "rows"))) || !lay(words[2], lines)) {
        fprintf(stderr, "usage: hpp place|classes|turns|rows free|channels|obstacles|mixed STEPS, hpp place|classes|turns CASE STEPS EACH, or hpp lines CASE\n");
        return 2;
    }
    if (lines) return 0;
    int steps = atoi(words[3]);
    if (classes) begin_classes();
    int each = count == 5 ? atoi(words[4]) : steps;
    if (place && (steps % 2 || each % 2)) {
        fprintf(stderr, "hpp place takes even numbers of steps\n");
        return 2;
    }
    double begin = now();
    place ? run_in_place(steps, each) : classes ? run_classes(steps, each) : run_rows(steps, strcmp(words[2], "free"));
    double end = now();
    if (classes) end_classes();
    tell(1e6 * (end - begin) / steps, steps);
    return 0;
}
