/*
 * Calls every exported function from C, on the starred examples of docs/01-scope.md 7, on skins worked by hand, on materials of every kind, on triangles that turn either way and on mesh
 * files of meshes/files, and looks at the raw bits of NaNs, which no statement sees: the root's, and those that a refused call has to leave in a lent buffer. What takes a material is called
 * in both forms. It is run at the root of the repository.
 */
#include "del_fem.h"
#include <stdio.h>
#include <stdlib.h>
#include <string.h>

static int passed, failed;

static void check(const char *what, int ok) {
    printf("%s  %s\n", ok ? "ok  " : "FAIL", what);
    if (ok) {
        passed++;
    } else {
        failed++;
    }
}

static uint64_t bits(double x) {
    uint64_t w;
    memcpy(&w, &x, sizeof w);
    return w;
}

static double of_bits(uint64_t w) {
    double x;
    memcpy(&x, &w, sizeof x);
    return x;
}

static const uint64_t NAN_BITS = 0x7FF8000000000000;
static const uint64_t INFINITY_BITS = 0x7FF0000000000000;
static const uint64_t HUGE_BITS = 0x7FC0000000000000; /* 2^1021 */

/* both forms of the root, in bits */
static void check_root(const char *what, uint64_t x, uint64_t want) {
    check(what, bits(del_fem_root_sqrt(of_bits(x))) == want && del_fem_root_sqrt_word(x) == want);
}

static int all_plus_zero(const double *xs, int n) {
    for (int i = 0; i < n; i++) {
        if (bits(xs[i]) != 0) {
            return 0;
        }
    }
    return 1;
}

/* What entry i of a lent buffer holds on entry: a NaN with digits of its own, quiet or signalling, of either sign. A store of another number, or of another NaN, is seen. */
static uint64_t scribbled(int i) {
    static const uint64_t nans[4] = {0x7FF8000000C0FFEE, 0xFFF8000000C0FFEE, 0x7FF0000000C0FFEE, 0xFFF0000000C0FFEE};
    return nans[i % 4] + (uint64_t)i * 0x10000000;
}

/* Bytes are copied: an operation on a NaN would make it another. */
static void scribble(double *xs, int n) {
    for (int i = 0; i < n; i++) {
        uint64_t w = scribbled(i);
        memcpy(xs + i, &w, sizeof w);
    }
}

/* each byte of the entries from `from` on is as scribble left it */
static int untouched(const double *xs, int from, int n) {
    for (int i = from; i < from + n; i++) {
        uint64_t w = scribbled(i);
        if (memcmp(xs + i, &w, sizeof w) != 0) {
            return 0;
        }
    }
    return 1;
}

static void version(void) {
    const uint32_t numbers[11] = {0, 1, 2, 3, 7, 6, 4, 5, 8, 9, 4294967295u};
    const char *const meanings[11] = {"accepted", "a length or a limit is wrong", "a triangle names a vertex that does not exist", "a number that is read is a NaN or an infinity",
        "a stiffness is none that a sheet can have", "a triangle turns right: its corners run clockwise", "a divisor is zero", "the finished answer has a NaN or an infinity in it",
        "the mesh file is not as it has to be", "no number that this version gives", "no number that this version gives"};
    int said = 1;
    check("the archive fits the header", del_fem_version() == DEL_FEM_VERSION);
    for (int i = 0; i < 11; i++) {
        char words[DEL_FEM_WORDS + 1], want[DEL_FEM_WORDS] = {0};
        memset(words, 'x', sizeof words);
        memcpy(want, meanings[i], strlen(meanings[i]));
        said = said && del_fem_meaning(numbers[i], words) == strlen(meanings[i]) && memcmp(words, want, DEL_FEM_WORDS) == 0 && words[DEL_FEM_WORDS] == 'x';
    }
    check("each number has its meaning in words, and zeros behind", said);
}

static void roots(void) {
    check_root("root of 4", bits(4.0), bits(2.0));
    check_root("root of 2", bits(2.0), 0x3FF6A09E667F3BCD);
    check_root("root of 2^-1074", 1, 0x1E60000000000000);
    check_root("root of the largest finite double", 0x7FEFFFFFFFFFFFFF, 0x5FEFFFFFFFFFFFFF);
    check_root("root of +0", 0, 0);
    check_root("root of -0", 0x8000000000000000, 0x8000000000000000);
    check_root("root of +infinity", 0x7FF0000000000000, 0x7FF0000000000000);
    check_root("root of -1", bits(-1.0), NAN_BITS);
    check_root("root of -infinity", 0xFFF0000000000000, NAN_BITS);
    check_root("root of -2^-1074", 0x8000000000000001, NAN_BITS);
    check_root("root of a NaN with a payload", 0x7FF8000000C0FFEE, NAN_BITS);
    check_root("root of a negative NaN with a payload", 0xFFF8000000C0FFEE, NAN_BITS);
    check_root("root of a signalling NaN", 0x7FF0000000000001, NAN_BITS);
    check_root("root of a negative signalling NaN", 0xFFF0000000000001, NAN_BITS);
}

static void bending(void) {
    const double ini[4][3] = {{0, 2, 0}, {0, -2, 0}, {0, 0, 0}, {2, 0, 0}};
    const double def[4][3] = {{0, 0, 1}, {0, 0, 0}, {0, 0, 0}, {0, 0, 0}};
    double values[DEL_FEM_BENDING_VALUES + 1];
    scribble(values, DEL_FEM_BENDING_VALUES + 1);
    uint32_t number = del_fem_quadratic_bending_wdw(ini, def, values);
    check("bending, example 11", number == DEL_FEM_ACCEPTED && bits(values[2]) == 0xBFEBB67AE8584CAA);
    check("bending writes no further", untouched(values, DEL_FEM_BENDING_VALUES, 1));
    number = del_fem_quadratic_bending_wdw(def, def, values);
    check("bending refuses an edge of length 0", number == DEL_FEM_ZERO_DIVISOR && all_plus_zero(values, DEL_FEM_BENDING_VALUES));
}

static void strain(void) {
    const double ini[3][2] = {{0, 0}, {1, 0}, {0, 1}};
    const double def[3][3] = {{0, 0, 0}, {2, 0, 0}, {0, 1, 0}};
    const double flat[3][2] = {{0, 0}, {1, 0}, {2, 0}};
    double values[DEL_FEM_STRAIN_VALUES + 1];
    scribble(values, DEL_FEM_STRAIN_VALUES + 1);
    uint32_t number = del_fem_stvk_tri3_wdw(ini, def, values);
    check("strain, example 10", number == DEL_FEM_ACCEPTED && values[0] == 1.5 && values[1] == 0 && values[2] == 0);
    check("strain writes no further", untouched(values, DEL_FEM_STRAIN_VALUES, 1));
    number = del_fem_stvk_tri3_wdw(flat, def, values);
    check("strain refuses a flat triangle", number == DEL_FEM_ZERO_DIVISOR && all_plus_zero(values, DEL_FEM_STRAIN_VALUES));
}

static void green_lagrange(void) {
    const double ini[3][2] = {{0, 0}, {2, 0}, {0, 1}};
    const double def[3][3] = {{0, 0, 0}, {4, 0, 0}, {0, 1, 0}};
    const double flat[3][2] = {{0, 0}, {1, 0}, {2, 0}};
    double values[DEL_FEM_STRAIN_VALUES + 1];
    uint32_t number = del_fem_stvk_tri3_wdw(ini, def, values);
    check("strain, example 14", number == DEL_FEM_ACCEPTED && values[0] == 6 && values[1] == 0 && values[2] == 0);
    scribble(values, DEL_FEM_STRAIN_VALUES + 1);
    number = del_fem_stvk_tri3_wdw_green_lagrange(ini, def, values);
    check("Green-Lagrange strain, example 15", number == DEL_FEM_ACCEPTED && values[0] == 1.5 && values[1] == 0 && values[2] == 0);
    check("Green-Lagrange strain, xx by x of corners 0, 1 and 2", values[3] == -1 && values[6] == 1 && values[9] == 0);
    check("Green-Lagrange strain writes no further", untouched(values, DEL_FEM_STRAIN_VALUES, 1));
    number = del_fem_stvk_tri3_wdw_green_lagrange(flat, def, values);
    check("Green-Lagrange strain refuses a flat triangle", number == DEL_FEM_ZERO_DIVISOR && all_plus_zero(values, DEL_FEM_STRAIN_VALUES));
}

/* No number of a routine: the two forms of a call differ, in their number or in a byte that they wrote. */
static const uint32_t DIFFER = 99;

/* The largest E and the v next below 0.5: lambda is infinite. */
static del_fem_material infinite_lambda(double thickness) {
    return del_fem_young(1400, thickness, of_bits(0x7FEFFFFFFFFFFFFF), of_bits(0x3FDFFFFFFFFFFFFF));
}

static const double UNIT[3][3] = {{0, 0, 0}, {1, 0, 0}, {0, 1, 0}};
static const double LONG[3][3] = {{0, 0, 0}, {2, 0, 0}, {0, 1, 0}};
static const double LINE[3][3] = {{0, 0, 0}, {1, 0, 0}, {2, 0, 0}};

/* An energy's values, and one number more that no call may touch. */
struct energy {
    uint32_t number;
    double values[DEL_FEM_ENERGY_VALUES + 1];
};

static struct energy stvk_of(const double p0[3][3], const double p1[3][3], del_fem_material m) {
    struct energy a, b;
    scribble(a.values, DEL_FEM_ENERGY_VALUES + 1);
    scribble(b.values, DEL_FEM_ENERGY_VALUES + 1);
    a.number = del_fem_stvk_tri3_wdwddw_(p0, p1, m.stiffness, m.density, m.thickness, m.a, m.b, a.values);
    b.number = del_fem_stvk(p0, p1, m, b.values);
    if (a.number != b.number || memcmp(a.values, b.values, sizeof a.values) != 0) {
        a.number = DIFFER;
    }
    return a;
}

static struct energy plate_of(const double p[3][2], const double u[3][3], del_fem_material m) {
    struct energy a, b;
    scribble(a.values, DEL_FEM_ENERGY_VALUES + 1);
    scribble(b.values, DEL_FEM_ENERGY_VALUES + 1);
    a.number = del_fem_mitc_tri3_w_dw_ddw_plate_bending(p, u, m.stiffness, m.density, m.thickness, m.a, m.b, a.values);
    b.number = del_fem_plate(p, u, m, b.values);
    if (a.number != b.number || memcmp(a.values, b.values, sizeof a.values) != 0) {
        a.number = DIFFER;
    }
    return a;
}

static int energy_refused(struct energy a, uint32_t number) {
    return a.number == number && all_plus_zero(a.values, DEL_FEM_ENERGY_VALUES) && untouched(a.values, DEL_FEM_ENERGY_VALUES, 1);
}

/* both accepted, with the same bits throughout */
static int same_energy(struct energy a, struct energy b) {
    return a.number == DEL_FEM_ACCEPTED && b.number == DEL_FEM_ACCEPTED && memcmp(a.values, b.values, sizeof a.values) == 0;
}

static void stvk(void) {
    const struct energy a = stvk_of(UNIT, LONG, del_fem_lame(1400, 2, 0, 1));
    check("StVK, example 9", a.number == DEL_FEM_ACCEPTED && a.values[0] == 1.125 && a.values[1] == -3 && a.values[4] == 3 && a.values[7] == 0);
    check("StVK writes no further", untouched(a.values, DEL_FEM_ENERGY_VALUES, 1));
    check("StVK, example 12", energy_refused(stvk_of(LINE, LONG, del_fem_lame(1400, 2, 0, 1)), DEL_FEM_ZERO_DIVISOR));
}

static const double CORNER[3][2] = {{0, 0}, {1, 0}, {0, 1}};
static const double LIFTED[3][3] = {{0, 0, 0}, {1, 0, 0}, {0, 0, 0}};

static void plate(void) {
    const struct energy a = plate_of(CORNER, LIFTED, del_fem_lame(1400, 2, 0, 1));
    check("plate, example 8", a.number == DEL_FEM_ACCEPTED && a.values[0] == 2);
    check("plate writes no further", untouched(a.values, DEL_FEM_ENERGY_VALUES, 1));
    check("plate, example 8 at thickness 0", energy_refused(plate_of(CORNER, LIFTED, del_fem_lame(1400, 0, 0, 1)), DEL_FEM_ZERO_DIVISOR));
    check("plate, example 13", energy_refused(plate_of(CORNER, LIFTED, del_fem_lame(1400, of_bits(INFINITY_BITS), 0, 1)), DEL_FEM_BAD_INPUT));
}

static const double XY[8] = {0, 0, 6, 0, 0, 6, 6, 6};
static const double EXAMPLE_3[12] = {12, 1, 1, 24, 2, 2, 24, 2, 2, 12, 1, 1};

static uint32_t masses_with(const size_t *tri2vtx, size_t len, const double *xy, del_fem_material m, double *mass, size_t places) {
    double other[13];
    scribble(mass, 13);
    scribble(other, 13);
    uint32_t number = del_fem_mitc_tri3_mass_lumped_plate_bending(tri2vtx, len, xy, 8, m.stiffness, m.density, m.thickness, m.a, m.b, mass, places);
    uint32_t again = del_fem_masses(tri2vtx, len, xy, 8, m, other, places);
    return number == again && memcmp(mass, other, sizeof other) == 0 ? number : DIFFER;
}

/* The scope's density and thickness; the stiffness is none that a sheet can have, and no matter. */
static uint32_t masses_of(const size_t *tri2vtx, size_t len, double *mass) {
    return masses_with(tri2vtx, len, XY, del_fem_young(2, 1, -1, -1), mass, 12);
}

static int are(const double *mass, const double *want) {
    return memcmp(mass, want, 12 * sizeof *want) == 0;
}

static void masses(void) {
    const size_t one[3] = {0, 1, 2}, turned[3] = {0, 2, 1}, panel[6] = {0, 1, 2, 1, 3, 2};
    const size_t four[4] = {0, 1, 2, 3}, missing[3] = {0, 1, 4}, far[3] = {0, 1, 3};
    const double left[12] = {12, 1, 1, 12, 1, 1, 12, 1, 1, 0, 0, 0};
    const double below[12] = {-12, -1, -1, -12, -1, -1, -12, -1, -1, 0, 0, 0};
    double mass[13];
    check("masses, example 1", masses_of(one, 3, mass) == DEL_FEM_ACCEPTED && are(mass, left));
    check("masses, example 2", masses_of(turned, 3, mass) == DEL_FEM_TURNED && untouched(mass, 0, 13));
    check("masses, example 3", masses_of(panel, 6, mass) == DEL_FEM_ACCEPTED && are(mass, EXAMPLE_3));
    check("masses write no further", untouched(mass, 12, 1));
    check("masses, example 4: no names", masses_of(one, 0, mass) == DEL_FEM_ACCEPTED && all_plus_zero(mass, 12));
    check("masses, example 4: four names", masses_of(four, 4, mass) == DEL_FEM_BAD_LENGTH && untouched(mass, 0, 13));
    check("masses, example 4: a name 4", masses_of(missing, 3, mass) == DEL_FEM_BAD_NAME && untouched(mass, 0, 13));
    check("masses, example 4: a name 3", masses_of(far, 3, mass) == DEL_FEM_ACCEPTED);

    const double nan = of_bits(NAN_BITS), infinity = of_bits(INFINITY_BITS), huge = of_bits(HUGE_BITS);
    const del_fem_material m = del_fem_lame(2, 1, 0, 1);
    double xy[8];
    memcpy(xy, XY, sizeof xy);
    xy[7] = nan;
    check("masses, a place too many", masses_with(panel, 6, XY, m, mass, 13) == DEL_FEM_BAD_LENGTH && untouched(mass, 0, 13));
    check("masses, a thickness that is a NaN", masses_with(panel, 6, XY, del_fem_lame(2, nan, 0, 1), mass, 12) == DEL_FEM_BAD_INPUT && untouched(mass, 0, 13));
    check("masses, an infinite density, no names", masses_with(panel, 0, XY, del_fem_lame(infinity, 1, 0, 1), mass, 12) == DEL_FEM_BAD_INPUT && untouched(mass, 0, 13));
    check("masses, a coordinate that is a NaN", masses_with(panel, 6, xy, m, mass, 12) == DEL_FEM_BAD_INPUT && untouched(mass, 0, 13));
    check("masses, a NaN at a vertex without a name", masses_with(one, 3, xy, m, mass, 12) == DEL_FEM_ACCEPTED && are(mass, left) && untouched(mass, 12, 1));
    check("masses of a density below 0", masses_with(one, 3, XY, del_fem_lame(-2, 1, 0, 1), mass, 12) == DEL_FEM_ACCEPTED && are(mass, below));
    check("masses too large", masses_with(panel, 6, XY, del_fem_lame(2, huge, 0, 1), mass, 12) == DEL_FEM_BAD_ANSWER && all_plus_zero(mass, 12) && untouched(mass, 12, 1));
}

/* A unit square at rest, and pulled to twice its length in x; the number behind is for lengths that are too long. */
static const double REST[13] = {0, 0, 0, 1, 0, 0, 0, 1, 0, 1, 1, 0, 0};
static const double PULLED[13] = {0, 0, 0, 2, 0, 0, 0, 1, 0, 2, 1, 0, 0};
static const size_t SQUARE[6] = {0, 1, 2, 1, 3, 2};

struct skin {
    uint32_t number;
    size_t place;
    double w, dw[14];
};

static struct skin skin_of(size_t ini_len, const double *def, size_t def_len, const size_t *tri2vtx, size_t names, del_fem_material m, size_t dw_len) {
    struct skin s = {.place = 99, .w = -7.5}, t = s;
    scribble(s.dw, 14);
    scribble(t.dw, 14);
    s.number = del_fem_skin_wdw(REST, ini_len, def, def_len, tri2vtx, names, m.stiffness, m.density, m.thickness, m.a, m.b, s.dw, dw_len, &s.place, &s.w);
    t.number = del_fem_skin(REST, ini_len, def, def_len, tri2vtx, names, m, t.dw, dw_len, &t.place, &t.w);
    if (s.number != t.number || s.place != t.place || bits(s.w) != bits(t.w) || memcmp(s.dw, t.dw, sizeof s.dw) != 0) {
        s.number = DIFFER;
    }
    return s;
}

static struct skin skin_of_four(const double *def, const size_t *tri2vtx, size_t names, del_fem_material m) {
    return skin_of(12, def, 12, tri2vtx, names, m, 12);
}

/* Each of these looks at all that was lent, by bits. */
static int accepted(struct skin s, double w, const double *dw) {
    return s.number == DEL_FEM_ACCEPTED && s.place == 0 && bits(s.w) == bits(w) && are(s.dw, dw) && untouched(s.dw, 12, 2);
}

static int left_alone(struct skin s, uint32_t number) {
    return s.number == number && s.place == 0 && bits(s.w) == 0 && untouched(s.dw, 0, 14);
}

static int refused(struct skin s, uint32_t number, size_t place) {
    return s.number == number && s.place == place && bits(s.w) == 0 && all_plus_zero(s.dw, 12) && untouched(s.dw, 12, 2);
}

/*
 * By hand, on numbers that no operation rounds. The strain is 1.5 in x, so with lambda 2 and myu 1 the stress is 1.5 * 4 = 6 in x and 1.5 * 2 = 3 in y. The energy is
 * 0.5 * 1.5 * 6 = 4.5 for the square, half of it for one triangle. A side is pulled outwards by 2 * 6 in x or by 3 in y, each end by half of that; a diagonal like the two
 * sides that it cuts off. No sum from +0 is -0.
 */
static void skins(void) {
    const del_fem_material m = del_fem_lame(1400, 2, 2, 1), wrong = del_fem_young(1400, 2, 0, 0.25);
    const double nothing[12] = {0}, square[12] = {-6, -1.5, 0, 6, -1.5, 0, -6, 1.5, 0, 6, 1.5, 0}, one[12] = {-6, -1.5, 0, 6, 0, 0, 0, 1.5, 0, 0, 0, 0};
    const size_t missing[6] = {0, 1, 2, 1, 4, 2}, flat[9] = {0, 1, 2, 1, 1, 2, 1, 3, 2};
    const double nan = of_bits(NAN_BITS), huge = of_bits(HUGE_BITS);
    const del_fem_material no_number = del_fem_lame(1400, 2, nan, 1);
    double def[12];
    size_t again[18];
    memcpy(def, PULLED, sizeof def);
    for (size_t i = 0; i < 18; i++) {
        again[i] = i % 3;
    }
    check("skin of two triangles", accepted(skin_of_four(PULLED, SQUARE, 6, m), 4.5, square));
    check("skin of no names", accepted(skin_of_four(PULLED, SQUARE, 0, m), 0, nothing));
    check("skin of no names, lambda a NaN", accepted(skin_of_four(PULLED, SQUARE, 0, no_number), 0, nothing));
    check("skin of no names, E 0", accepted(skin_of_four(PULLED, SQUARE, 0, wrong), 0, nothing));
    check("skin, a number of vtx2ini too many", left_alone(skin_of(13, PULLED, 12, SQUARE, 6, m, 12), DEL_FEM_BAD_LENGTH));
    check("skin, a number of vtx2def too many", left_alone(skin_of(12, PULLED, 13, SQUARE, 6, m, 12), DEL_FEM_BAD_LENGTH));
    check("skin, a number of vtx2dw too many", left_alone(skin_of(12, PULLED, 12, SQUARE, 6, m, 13), DEL_FEM_BAD_LENGTH));
    check("skin, thirteen numbers each", left_alone(skin_of(13, PULLED, 13, SQUARE, 6, m, 13), DEL_FEM_BAD_LENGTH));
    check("skin of five names", left_alone(skin_of_four(PULLED, SQUARE, 5, m), DEL_FEM_BAD_LENGTH));
    check("skin of five names, E 0", left_alone(skin_of_four(PULLED, SQUARE, 5, wrong), DEL_FEM_BAD_LENGTH));
    check("skin with a name 4", left_alone(skin_of_four(PULLED, missing, 6, m), DEL_FEM_BAD_NAME));
    check("skin with a name 4, E 0", left_alone(skin_of_four(PULLED, missing, 6, wrong), DEL_FEM_BAD_NAME));
    check("skin, lambda a NaN", refused(skin_of_four(PULLED, SQUARE, 6, no_number), DEL_FEM_BAD_INPUT, 0));
    check("skin, E 0", refused(skin_of_four(PULLED, SQUARE, 6, wrong), DEL_FEM_BAD_STIFFNESS, 0));
    check("skin, a vertex twice in its first triangle", refused(skin_of_four(PULLED, flat + 3, 6, m), DEL_FEM_ZERO_DIVISOR, 0));
    check("skin, a vertex twice in its first triangle, E 0", refused(skin_of_four(PULLED, flat + 3, 6, wrong), DEL_FEM_BAD_STIFFNESS, 0));
    check("skin, a vertex twice in its first triangle, an infinite lambda", refused(skin_of_four(PULLED, flat + 3, 6, infinite_lambda(2)), DEL_FEM_ZERO_DIVISOR, 0));
    def[9] = nan;
    check("skin, a NaN in its second triangle", refused(skin_of_four(def, SQUARE, 6, m), DEL_FEM_BAD_INPUT, 1));
    check("skin, a NaN in its second triangle, E 0", refused(skin_of_four(def, SQUARE, 6, wrong), DEL_FEM_BAD_STIFFNESS, 0));
    check("skin, a NaN in its first triangle, E 0", refused(skin_of_four(def, SQUARE + 3, 3, wrong), DEL_FEM_BAD_INPUT, 0));
    check("skin, a NaN in its first triangle, an infinite lambda", refused(skin_of_four(def, SQUARE + 3, 3, infinite_lambda(2)), DEL_FEM_BAD_INPUT, 0));
    check("skin, a NaN in its second triangle, an infinite lambda", refused(skin_of_four(def, SQUARE, 6, infinite_lambda(2)), DEL_FEM_BAD_ANSWER, 0));
    check("skin, a NaN that is not named", accepted(skin_of_four(def, SQUARE, 3, m), 2.25, one));
    check("skin, a vertex twice in its second triangle, a NaN in its third", refused(skin_of_four(def, flat, 9, m), DEL_FEM_ZERO_DIVISOR, 1));
    def[9] = huge;
    check("skin, an answer too large in its second triangle", refused(skin_of_four(def, SQUARE, 6, m), DEL_FEM_BAD_ANSWER, 1));
    check("skin, an answer too large in its first triangle, E 0", refused(skin_of_four(def, SQUARE + 3, 3, wrong), DEL_FEM_BAD_STIFFNESS, 0));
    check("skin, a sum too large", refused(skin_of_four(PULLED, again, 18, del_fem_lame(1400, 2, huge, 1)), DEL_FEM_BAD_ANSWER, 6));
}

static int fields_are(del_fem_material m, uint32_t stiffness, double density, double thickness, double a, double b) {
    return m.stiffness == stiffness && bits(m.density) == bits(density) && bits(m.thickness) == bits(thickness) && bits(m.a) == bits(a) && bits(m.b) == bits(b);
}

static int same_skin(struct skin s, struct skin t) {
    return s.number == DEL_FEM_ACCEPTED && accepted(t, s.w, s.dw);
}

/* Numbers that round at every step, so that another order of operations is seen. */
static const double ROUGH[3][3] = {{0.1, -0.2, 0.3}, {1.7, 0.3, -0.1}, {0.4, 1.9, 0.7}};
static const double ROUGHER[3][3] = {{0.2, -0.3, 0.1}, {2.3, 0.7, 0.3}, {0.1, 1.3, -0.9}};
static const double ROUGH_PLAN[3][2] = {{0.1, -0.2}, {1.7, 0.3}, {0.4, 1.9}};
static const double ROUGH_SKIN[12] = {0.1, -0.2, 0.3, 1.7, 0.3, -0.1, 0.4, 1.9, 0.7, 1.1, 1.3, -0.9};

/* The Lame pair of E and v, by the scope's operations; compiled without contraction of them. */
static del_fem_material pair_of(del_fem_material young) {
    const double e = young.a, v = young.b;
    return del_fem_lame(young.density, young.thickness, (e * v) / ((1 + v) * (1 - 2 * v)), e / (2 * (1 + v)));
}

static void young(void) {
    const struct {
        const char *what;
        double e, v;
    } rows[] = {
        {"E 210e9, v 0.29 are their Lame pair", 210e9, 0.29},
        {"E 7.3, v 0.1 are their Lame pair", 7.3, 0.1},
        {"E 1.1e9, v 0.44 are their Lame pair", 1.1e9, 0.44},
        {"E 0.7, v -0.35 are their Lame pair", 0.7, -0.35},
        {"E 3.3, v -0.999 are their Lame pair", 3.3, -0.999},
        {"E 2.6, v -0 are their Lame pair", 2.6, -0.0},
        {"E 3 * 2^-1074, v 0.25 are their Lame pair", of_bits(3), 0.25},
    };
    for (size_t i = 0; i < sizeof rows / sizeof *rows; i++) {
        const del_fem_material m = del_fem_young(1400, 0.3, rows[i].e, rows[i].v), pair = pair_of(m);
        check(rows[i].what,
            same_energy(stvk_of(ROUGH, ROUGHER, m), stvk_of(ROUGH, ROUGHER, pair)) && same_energy(stvk_of(UNIT, LONG, m), stvk_of(UNIT, LONG, pair))
                && same_energy(plate_of(ROUGH_PLAN, ROUGHER, m), plate_of(ROUGH_PLAN, ROUGHER, pair))
                && same_skin(skin_of_four(ROUGH_SKIN, SQUARE, 6, m), skin_of_four(ROUGH_SKIN, SQUARE, 6, pair)));
    }
}

static void stock_sheet(void) {
    const del_fem_material m = del_fem_stock_sheet();
    const double m0 = 16.40625, m1 = 1.3671875 / 262144; /* 6 * 1,400 / 2^9 and m0 / 12 / 2^18, both exact */
    const double want[12] = {m0, m1, m1, 2 * m0, 2 * m1, 2 * m1, 2 * m0, 2 * m1, 2 * m1, m0, m1, m1};
    double mass[13];
    check("a Lame material's fields", fields_are(del_fem_lame(1, 2, 3, 4), DEL_FEM_LAME, 1, 2, 3, 4) && DEL_FEM_LAME == 2);
    check("a Young material's fields", fields_are(del_fem_young(1, 2, 3, 4), DEL_FEM_YOUNG, 1, 2, 3, 4) && DEL_FEM_YOUNG == 3);
    check("the stock sheet's fields", fields_are(m, 3, 1400, 1.0 / 512, 2147483648.0, 0.25));
    check("the stock sheet's masses", masses_with(SQUARE, 6, XY, m, mass, 12) == DEL_FEM_ACCEPTED && are(mass, want));
    check("the stock sheet's StVK", same_energy(stvk_of(ROUGH, ROUGHER, m), stvk_of(ROUGH, ROUGHER, pair_of(m))));
    check("the stock sheet's plate", same_energy(plate_of(ROUGH_PLAN, ROUGHER, m), plate_of(ROUGH_PLAN, ROUGHER, pair_of(m))));
    check("the stock sheet's skin", same_skin(skin_of_four(ROUGH_SKIN, SQUARE, 6, m), skin_of_four(ROUGH_SKIN, SQUARE, 6, pair_of(m))));
}

/* what looks at the stiffness gives this number, of good corners */
static int all_give(del_fem_material m, uint32_t number) {
    if (number == DEL_FEM_ACCEPTED) {
        return stvk_of(UNIT, LONG, m).number == number && plate_of(CORNER, LIFTED, m).number == number && skin_of_four(PULLED, SQUARE, 6, m).number == number;
    }
    return energy_refused(stvk_of(UNIT, LONG, m), number) && energy_refused(plate_of(CORNER, LIFTED, m), number) && refused(skin_of_four(PULLED, SQUARE, 6, m), number, 0);
}

static void edges_of_seven(void) {
    const uint64_t one = bits(1), quarter = bits(0.25), infinity = INFINITY_BITS, minus = 0x8000000000000000;
    const struct {
        const char *what;
        uint64_t e, v;
        uint32_t number;
    } rows[] = {
        {"stiffness, E +0", 0, quarter, 7},
        {"stiffness, E -0", minus, quarter, 7},
        {"stiffness, E 2^-1074", 1, quarter, 0},
        {"stiffness, E -2^-1074", minus | 1, quarter, 7},
        {"stiffness, E -1", minus | one, quarter, 7},
        {"stiffness, v a place below -1", one, 0xBFF0000000000001, 7},
        {"stiffness, v -1", one, 0xBFF0000000000000, 7},
        {"stiffness, v a place above -1", one, 0xBFEFFFFFFFFFFFFF, 0},
        {"stiffness, v +0", one, 0, 0},
        {"stiffness, v -0", one, minus, 0},
        {"stiffness, v a place below 0.5", one, 0x3FDFFFFFFFFFFFFF, 0},
        {"stiffness, v 0.5", one, 0x3FE0000000000000, 7},
        {"stiffness, v a place above 0.5", one, 0x3FE0000000000001, 7},
        {"stiffness, v the largest finite double", one, 0x7FEFFFFFFFFFFFFF, 7},
        {"stiffness, E a NaN, v 0.5", NAN_BITS, 0x3FE0000000000000, 3},
        {"stiffness, E infinite", infinity, quarter, 3},
        {"stiffness, E -infinite", minus | infinity, quarter, 3},
        {"stiffness, E 0, v a NaN", 0, NAN_BITS, 3},
        {"stiffness, E 0, v infinite", 0, infinity, 3},
        {"stiffness, v -infinite", one, minus | infinity, 3},
        {"stiffness, an infinite lambda", 0x7FEFFFFFFFFFFFFF, 0x3FDFFFFFFFFFFFFF, 5},
        {"stiffness, lambda and myu infinite", 0x7FEFFFFFFFFFFFFF, 0xBFEFFFFFFFFFFFFF, 5},
    };
    for (size_t i = 0; i < sizeof rows / sizeof *rows; i++) {
        check(rows[i].what, all_give(del_fem_young(1400, 2, of_bits(rows[i].e), of_bits(rows[i].v)), rows[i].number));
    }
    const del_fem_material odd[3] = {del_fem_lame(1400, 2, 0, 1), del_fem_lame(1400, 2, 0, -1), del_fem_lame(1400, 2, -0.25, 0.5)};
    check("stiffness, Lame pairs that would be 7 as E and v", all_give(odd[0], DEL_FEM_ACCEPTED) && all_give(odd[1], DEL_FEM_ACCEPTED) && all_give(odd[2], DEL_FEM_ACCEPTED));
}

static void order_of_seven(void) {
    const double nan = of_bits(NAN_BITS), huge = of_bits(HUGE_BITS);
    const del_fem_material good = del_fem_young(1400, 2, 1, 0.25), wrong = del_fem_young(1400, 2, 0, 0.25);
    const double far[3][3] = {{0, 0, 0}, {huge, 0, 0}, {0, huge, 0}}, nowhere[3][3] = {{0, 0, 0}, {nan, 0, 0}, {0, 1, 0}};
    const double no_plan[3][2] = {{0, 0}, {nan, 0}, {0, 1}};
    check("StVK, 3 before 7, at rest", energy_refused(stvk_of(nowhere, LONG, wrong), DEL_FEM_BAD_INPUT));
    check("StVK, 3 before 7, deformed", energy_refused(stvk_of(UNIT, nowhere, wrong), DEL_FEM_BAD_INPUT));
    check("StVK, 7 before 4", energy_refused(stvk_of(LINE, LONG, wrong), DEL_FEM_BAD_STIFFNESS) && energy_refused(stvk_of(LINE, LONG, good), DEL_FEM_ZERO_DIVISOR));
    check("StVK, 7 before 5", energy_refused(stvk_of(UNIT, far, wrong), DEL_FEM_BAD_STIFFNESS) && energy_refused(stvk_of(UNIT, far, good), DEL_FEM_BAD_ANSWER));
    check("StVK, 4 with an infinite lambda", energy_refused(stvk_of(LINE, LONG, infinite_lambda(2)), DEL_FEM_ZERO_DIVISOR));
    check("plate, 3 before 7: corners, displacements, thickness",
        energy_refused(plate_of(no_plan, LIFTED, wrong), DEL_FEM_BAD_INPUT) && energy_refused(plate_of(CORNER, nowhere, wrong), DEL_FEM_BAD_INPUT)
            && energy_refused(plate_of(CORNER, LIFTED, del_fem_young(1400, nan, 0, 0.25)), DEL_FEM_BAD_INPUT));
    check("plate, 7 before 4",
        energy_refused(plate_of(CORNER, LIFTED, del_fem_young(1400, 0, 0, 0.25)), DEL_FEM_BAD_STIFFNESS)
            && energy_refused(plate_of(CORNER, LIFTED, del_fem_young(1400, 0, 1, 0.25)), DEL_FEM_ZERO_DIVISOR));
    check("plate, 7 before 5", energy_refused(plate_of(CORNER, far, wrong), DEL_FEM_BAD_STIFFNESS) && energy_refused(plate_of(CORNER, far, good), DEL_FEM_BAD_ANSWER));
    check("plate, 4 with an infinite lambda", energy_refused(plate_of(CORNER, LIFTED, infinite_lambda(0)), DEL_FEM_ZERO_DIVISOR));
}

/* a and b would do for either word that there is. */
static void other_words(void) {
    const double nan = of_bits(NAN_BITS), infinity = of_bits(INFINITY_BITS);
    const uint32_t words[4] = {0, 1, 4, 0xFFFFFFFF};
    const char *const names[4] = {"stiffness, word 0", "stiffness, word 1", "stiffness, word 4", "stiffness, word 2^32 - 1"};
    for (int i = 0; i < 4; i++) {
        const del_fem_material m = {words[i], 2, 1, 1, 0.25}, no_a = {words[i], 2, 1, nan, 0.25}, no_b = {words[i], 2, 1, 1, infinity};
        double mass[13];
        check(names[i],
            all_give(m, DEL_FEM_BAD_STIFFNESS) && all_give(no_a, DEL_FEM_BAD_INPUT) && all_give(no_b, DEL_FEM_BAD_INPUT)
                && energy_refused(stvk_of(LINE, LONG, m), DEL_FEM_BAD_STIFFNESS) && masses_with(SQUARE, 6, XY, m, mass, 12) == DEL_FEM_ACCEPTED && are(mass, EXAMPLE_3));
    }
}

static void unused_numbers(void) {
    const double nan = of_bits(NAN_BITS), infinity = of_bits(INFINITY_BITS), nothing[12] = {0};
    const del_fem_material lame = del_fem_lame(2, 1, 0.7, 0.3), young = del_fem_young(2, 1, 0.7, 0.3);
    const del_fem_material bare_lame = del_fem_lame(nan, nan, 0.7, 0.3), bare_young = del_fem_young(infinity, nan, 0.7, 0.3);
    const del_fem_material of_nans = {0xFFFFFFFF, nan, nan, nan, nan};
    double mass[13];
    check("masses, a and b NaNs", masses_with(SQUARE, 6, XY, del_fem_lame(2, 1, nan, nan), mass, 12) == DEL_FEM_ACCEPTED && are(mass, EXAMPLE_3));
    check("masses, E and v infinite", masses_with(SQUARE, 6, XY, del_fem_young(2, 1, infinity, infinity), mass, 12) == DEL_FEM_ACCEPTED && are(mass, EXAMPLE_3));
    check("plate, a density that is a NaN", same_energy(plate_of(ROUGH_PLAN, ROUGHER, lame), plate_of(ROUGH_PLAN, ROUGHER, del_fem_lame(nan, 1, 0.7, 0.3))));
    check("plate, an infinite density", same_energy(plate_of(ROUGH_PLAN, ROUGHER, young), plate_of(ROUGH_PLAN, ROUGHER, del_fem_young(infinity, 1, 0.7, 0.3))));
    check("StVK, density and thickness NaNs", same_energy(stvk_of(ROUGH, ROUGHER, lame), stvk_of(ROUGH, ROUGHER, bare_lame)));
    check("StVK, density infinite, thickness a NaN", same_energy(stvk_of(ROUGH, ROUGHER, young), stvk_of(ROUGH, ROUGHER, bare_young)));
    check("skin, density and thickness NaNs", same_skin(skin_of_four(ROUGH_SKIN, SQUARE, 6, lame), skin_of_four(ROUGH_SKIN, SQUARE, 6, bare_lame)));
    check("skin, density infinite, thickness a NaN", same_skin(skin_of_four(ROUGH_SKIN, SQUARE, 6, young), skin_of_four(ROUGH_SKIN, SQUARE, 6, bare_young)));
    check("skin of no names, a material of NaNs", accepted(skin_of_four(PULLED, SQUARE, 0, of_nans), 0, nothing));
    check("StVK, E 0, density and thickness NaNs", energy_refused(stvk_of(UNIT, LONG, del_fem_young(nan, nan, 0, 0.25)), DEL_FEM_BAD_STIFFNESS));
}

/* The plane area by the scope's operations; compiled without contraction of them. */
static double area_of(const double p[3][2]) {
    return ((p[1][0] - p[0][0]) * (p[2][1] - p[0][1]) - (p[2][0] - p[0][0]) * (p[1][1] - p[0][1])) * 0.5;
}

/* One triangle gives this number, and the buffer holds what belongs to it; vertex 3 has no name. */
static int masses_give(const double p[3][2], uint32_t number) {
    const size_t names[3] = {0, 1, 2};
    const double a = area_of(p), m0 = 0.0 + a / 3 * 2 * 1, m1 = 0.0 + a / 3 * 2 * 1 * 1 * 1 / 12;
    const double want[12] = {m0, m1, m1, m0, m1, m1, m0, m1, m1, 0, 0, 0};
    double xy[8] = {0}, mass[13];
    memcpy(xy, p, 6 * sizeof *xy);
    if (masses_with(names, 3, xy, del_fem_lame(2, 1, 0, 1), mass, 12) != number) {
        return 0;
    }
    switch (number) {
    case DEL_FEM_ACCEPTED:
        return are(mass, want) && untouched(mass, 12, 1);
    case DEL_FEM_BAD_ANSWER:
        return all_plus_zero(mass, 12) && untouched(mass, 12, 1);
    default:
        return untouched(mass, 0, 13);
    }
}

static int plate_gives(const double p[3][2], del_fem_material m, uint32_t number) {
    const struct energy a = plate_of(p, LIFTED, m);
    return number == DEL_FEM_ACCEPTED ? a.number == number && untouched(a.values, DEL_FEM_ENERGY_VALUES, 1) : energy_refused(a, number);
}

/*
 * Each triangle with the numbers of its masses and of its plate, whose thickness is 1. The last three are in a line where they are read as decimals; the doubles next to those make a left, a
 * right and a right triangle by the exact area, which does not count.
 */
static void ways_round(void) {
    const double tiny = of_bits(1), small = of_bits(0x1A70000000000000), huge = of_bits(HUGE_BITS), half = huge / 2; /* small: 2^-600 */
    const struct {
        const char *what;
        double p[3][2];
        uint32_t masses, plate;
    } rows[] = {
        {"counterclockwise, from corner 0", {{0, 0}, {1, 0}, {0, 1}}, 0, 0},
        {"counterclockwise, from corner 1", {{1, 0}, {0, 1}, {0, 0}}, 0, 0},
        {"counterclockwise, from corner 2", {{0, 1}, {0, 0}, {1, 0}}, 0, 0},
        {"clockwise, from corner 0", {{0, 0}, {0, 1}, {1, 0}}, 6, 6},
        {"clockwise, from corner 2", {{0, 1}, {1, 0}, {0, 0}}, 6, 6},
        {"clockwise, from corner 1", {{1, 0}, {0, 0}, {0, 1}}, 6, 6},
        {"corners in a line", {{0, 0}, {1, 0}, {2, 0}}, 0, 4},
        {"two corners in one place", {{0, 0}, {1, 1}, {1, 1}}, 0, 4},
        {"three corners in one place", {{3, 5}, {3, 5}, {3, 5}}, 0, 4},
        {"an area of -0 from a zero", {{0, 0}, {-1, 0}, {1, 0}}, 0, 4},
        {"twice the area 2^-1074", {{0, 0}, {tiny, 0}, {0, 1}}, 0, 4},
        {"twice the area -2^-1074", {{0, 0}, {0, 1}, {tiny, 0}}, 0, 4},
        {"an area of 2^-1074", {{0, 0}, {2 * tiny, 0}, {0, 1}}, 0, 5},
        {"an area of -2^-1074", {{0, 0}, {0, 1}, {2 * tiny, 0}}, 6, 6},
        {"clockwise, its products too small for a double", {{0, 0}, {0, small}, {small, 0}}, 0, 4},
        {"an area of +infinity", {{0, 0}, {huge, 0}, {0, huge}}, 5, 5},
        {"an area of -infinity", {{0, 0}, {0, huge}, {huge, 0}}, 6, 6},
        {"counterclockwise, its area a NaN", {{0, 0}, {huge, half}, {half, huge}}, 5, 5},
        {"clockwise, its area a NaN", {{0, 0}, {half, huge}, {huge, half}}, 5, 5},
        {"in a line, by its doubles right", {{0.1, 8.6}, {2.9, 5.1}, {4.1, 3.6}}, 6, 6},
        {"in a line, by its doubles left", {{1.8, 0.2}, {4.6, 3.4}, {3.9, 2.6}}, 0, 0},
        {"in a line, by its doubles flat", {{0.8, 5.7}, {5.1, 6.2}, {9.4, 6.7}}, 0, 4},
    };
    for (size_t i = 0; i < sizeof rows / sizeof *rows; i++) {
        char what[80];
        snprintf(what, sizeof what, "masses, %s", rows[i].what);
        check(what, masses_give(rows[i].p, rows[i].masses));
        snprintf(what, sizeof what, "plate, %s", rows[i].what);
        check(what, plate_gives(rows[i].p, del_fem_lame(2, 1, 0, 1), rows[i].plate));
    }
    const double edge[3][2] = {{0, 0}, {0, 1}, {tiny, 0}};
    check("plate of thickness 2, twice the area -2^-1074: no dot is zero", plate_gives(edge, del_fem_lame(2, 2, 0, 1), DEL_FEM_BAD_ANSWER));
}

/* Panels with a triangle that turns right. Whatever is returned is no answer, and the buffer keeps its bytes. */
static void turned_panels(void) {
    const double nan = of_bits(NAN_BITS), infinity = of_bits(INFINITY_BITS), huge = of_bits(HUGE_BITS);
    const del_fem_material m = del_fem_lame(2, 1, 0, 1), none = {0xFFFFFFFF, 2, 1, nan, nan};
    const double nowhere[8] = {0, 0, 6, 0, 0, 6, 6, nan}, far[8] = {0, 0, huge, 0, 0, huge, 6, 6};
    const struct {
        const char *what;
        size_t len, names[9];
        const double *xy;
        del_fem_material m;
        size_t places;
        uint32_t number;
    } rows[] = {
        {"masses, the first of three turned", 9, {0, 2, 1, 1, 3, 2, 0, 1, 3}, XY, m, 12, 6},
        {"masses, the second of three turned", 9, {0, 1, 2, 1, 2, 3, 0, 1, 3}, XY, m, 12, 6},
        {"masses, the third of three turned", 9, {0, 1, 2, 1, 3, 2, 0, 3, 1}, XY, m, 12, 6},
        {"masses, all three turned", 9, {2, 1, 0, 2, 3, 1, 3, 1, 0}, XY, m, 12, 6},
        {"masses, one turned after one without an area", 6, {0, 0, 1, 0, 2, 1}, XY, m, 12, 6},
        {"masses, one turned that takes away what the first gave", 6, {0, 1, 2, 0, 2, 1}, XY, m, 12, 6},
        {"masses, turned, a density below 0", 3, {0, 2, 1}, XY, del_fem_lame(-2, 1, 0, 1), 12, 6},
        {"masses, turned, density and thickness 0", 3, {0, 2, 1}, XY, del_fem_lame(0, 0, 0, 1), 12, 6},
        {"masses, turned, no stiffness at all", 3, {0, 2, 1}, XY, none, 12, 6},
        {"masses, turned, a NaN at a vertex without a name", 3, {0, 2, 1}, nowhere, m, 12, 6},
        {"masses, 1 before 6: four names", 4, {0, 2, 1, 0}, XY, m, 12, 1},
        {"masses, 1 before 6: a place too many", 3, {0, 2, 1}, XY, m, 13, 1},
        {"masses, 2 before 6: a name 4 in the next triangle", 6, {0, 2, 1, 0, 1, 4}, XY, m, 12, 2},
        {"masses, 2 before 6: a name 4 in the triangle before", 6, {0, 1, 4, 0, 2, 1}, XY, m, 12, 2},
        {"masses, 3 before 6: a thickness that is a NaN", 3, {0, 2, 1}, XY, del_fem_lame(2, nan, 0, 1), 12, 3},
        {"masses, 3 before 6: an infinite density", 3, {0, 2, 1}, XY, del_fem_lame(infinity, 1, 0, 1), 12, 3},
        {"masses, 3 before 6: a NaN in the next triangle", 6, {0, 2, 1, 1, 3, 2}, nowhere, m, 12, 3},
        {"masses, 6 before 5: a mass too large in it", 3, {0, 2, 1}, XY, del_fem_lame(2, huge, 0, 1), 12, 6},
        {"masses, 6 before 5: a mass too large before it", 6, {0, 1, 2, 1, 2, 3}, XY, del_fem_lame(2, huge, 0, 1), 12, 6},
        {"masses, 6 before 5: an area too large before it", 6, {0, 1, 2, 0, 2, 3}, far, m, 12, 6},
    };
    for (size_t i = 0; i < sizeof rows / sizeof *rows; i++) {
        double mass[13];
        check(rows[i].what, masses_with(rows[i].names, rows[i].len, rows[i].xy, rows[i].m, mass, rows[i].places) == rows[i].number && untouched(mass, 0, 13));
    }
    const size_t thin[9] = {0, 0, 1, 0, 1, 2, 2, 2, 2};
    const double left[12] = {12, 1, 1, 12, 1, 1, 12, 1, 1, 0, 0, 0};
    double mass[13];
    check("masses, triangles without an area beside one", masses_with(thin, 9, XY, m, mass, 12) == DEL_FEM_ACCEPTED && are(mass, left) && untouched(mass, 12, 1));
}

static const double BEHIND[3][2] = {{0, 0}, {0, 1}, {1, 0}};

static void order_of_six(void) {
    const double nan = of_bits(NAN_BITS), infinity = of_bits(INFINITY_BITS), huge = of_bits(HUGE_BITS);
    const del_fem_material good = del_fem_young(1400, 2, 1, 0.25), wrong = del_fem_young(1400, 2, 0, 0.25), thin = del_fem_young(1400, 0, 1, 0.25), word = {4, 1400, 2, 1, 0.25};
    const double far[3][3] = {{0, 0, 0}, {huge, 0, 0}, {0, huge, 0}}, nowhere[3][3] = {{0, 0, 0}, {nan, 0, 0}, {0, 1, 0}}, no_plan[3][2] = {{0, 0}, {0, 1}, {infinity, 0}};
    check("plate, turned", energy_refused(plate_of(BEHIND, LIFTED, good), DEL_FEM_TURNED));
    check("plate, turned, a density that is a NaN", energy_refused(plate_of(BEHIND, LIFTED, del_fem_young(nan, 2, 1, 0.25)), DEL_FEM_TURNED));
    check("plate, turned, a thickness below 0", energy_refused(plate_of(BEHIND, LIFTED, del_fem_lame(1400, -2, 0, 1)), DEL_FEM_TURNED));
    check("plate, 3 before 6: corners, displacements, thickness, stiffness",
        energy_refused(plate_of(no_plan, LIFTED, good), DEL_FEM_BAD_INPUT) && energy_refused(plate_of(BEHIND, nowhere, good), DEL_FEM_BAD_INPUT)
            && energy_refused(plate_of(BEHIND, LIFTED, del_fem_young(1400, nan, 1, 0.25)), DEL_FEM_BAD_INPUT)
            && energy_refused(plate_of(BEHIND, LIFTED, del_fem_lame(1400, 2, nan, 1)), DEL_FEM_BAD_INPUT)
            && energy_refused(plate_of(BEHIND, LIFTED, del_fem_lame(1400, 2, 0, infinity)), DEL_FEM_BAD_INPUT));
    check("plate, 7 before 6: E 0, a word that is none",
        energy_refused(plate_of(BEHIND, LIFTED, wrong), DEL_FEM_BAD_STIFFNESS) && energy_refused(plate_of(BEHIND, LIFTED, word), DEL_FEM_BAD_STIFFNESS));
    check("plate, 6 before 4", energy_refused(plate_of(BEHIND, LIFTED, thin), DEL_FEM_TURNED) && energy_refused(plate_of(CORNER, LIFTED, thin), DEL_FEM_ZERO_DIVISOR));
    check("plate, 6 before 5", energy_refused(plate_of(BEHIND, far, good), DEL_FEM_TURNED) && energy_refused(plate_of(CORNER, far, good), DEL_FEM_BAD_ANSWER));
    check("plate, 6 before 5: an infinite lambda",
        energy_refused(plate_of(BEHIND, LIFTED, infinite_lambda(2)), DEL_FEM_TURNED) && energy_refused(plate_of(CORNER, LIFTED, infinite_lambda(2)), DEL_FEM_BAD_ANSWER));
}

/* The sheets of examples 9, 10 and 15 and the square skin, each triangle with two corners exchanged. */
static void others_turn_either_way(void) {
    const double wide[3][2] = {{0, 0}, {0, 1}, {2, 0}}, pulled[3][3] = {{0, 0, 0}, {0, 1, 0}, {2, 0, 0}}, wider[3][3] = {{0, 0, 0}, {0, 1, 0}, {4, 0, 0}};
    const double rest[3][3] = {{0, 0, 0}, {0, 1, 0}, {1, 0, 0}}, square[12] = {-6, -1.5, 0, 6, -1.5, 0, -6, 1.5, 0, 6, 1.5, 0};
    const size_t turned[6] = {0, 2, 1, 1, 2, 3};
    double values[DEL_FEM_STRAIN_VALUES];
    uint32_t number = del_fem_stvk_tri3_wdw(BEHIND, pulled, values);
    check("strain, turned", number == DEL_FEM_ACCEPTED && values[0] == 1.5 && values[1] == 0 && values[2] == 0);
    number = del_fem_stvk_tri3_wdw_green_lagrange(wide, wider, values);
    check("Green-Lagrange strain, turned", number == DEL_FEM_ACCEPTED && values[0] == 1.5 && values[1] == 0 && values[2] == 0);
    const struct energy a = stvk_of(rest, pulled, del_fem_lame(1400, 2, 0, 1));
    check("StVK, turned", a.number == DEL_FEM_ACCEPTED && a.values[0] == 1.125 && a.values[1] == -3 && a.values[4] == 0 && a.values[7] == 3);
    check("skin, turned", accepted(skin_of_four(PULLED, turned, 6, del_fem_lame(1400, 2, 2, 1)), 4.5, square));
}

/* What the three calls over a file give, and the file. */
struct mesh {
    uint8_t file[2048];
    size_t len;
    uint32_t read, points, cells;
    size_t n, m, place, points_place, points_length, cells_place, cells_length;
};

/* The first len bytes of a file of meshes/files, all of them for a len that is longer. */
static struct mesh mesh_of(const char *name, size_t len) {
    struct mesh a;
    char path[64];
    memset(&a, 0x5a, sizeof a);
    snprintf(path, sizeof path, "meshes/files/%s.vtk", name);
    FILE *in = fopen(path, "rb");
    if (in == NULL) {
        fprintf(stderr, "%s cannot be opened\n", path);
        exit(1);
    }
    a.len = fread(a.file, 1, len < sizeof a.file ? len : sizeof a.file, in);
    fclose(in);
    a.read = del_fem_mesh_read(a.file, a.len, &a.n, &a.m, &a.place);
    a.points = del_fem_mesh_points(a.file, a.len, &a.points_place, &a.points_length);
    a.cells = del_fem_mesh_cells(a.file, a.len, &a.cells_place, &a.cells_length);
    return a;
}

static const size_t WHOLE = SIZE_MAX;

static int mesh_is(struct mesh a, size_t n, size_t m, size_t points, size_t cells) {
    return a.read == DEL_FEM_ACCEPTED && a.n == n && a.m == m && a.place == 0
        && a.points == DEL_FEM_ACCEPTED && a.points_place == points && a.points_length == 24 * n
        && a.cells == DEL_FEM_ACCEPTED && a.cells_place == cells && a.cells_length == 16 * m;
}

static int mesh_refused(struct mesh a, size_t place) {
    return a.read == DEL_FEM_BAD_FILE && a.n == 0 && a.m == 0 && a.place == place
        && a.points == DEL_FEM_BAD_FILE && a.points_place == place && a.points_length == 0
        && a.cells == DEL_FEM_BAD_FILE && a.cells_place == place && a.cells_length == 0;
}

static int no_coordinate(const uint8_t *points, size_t len, size_t point, size_t axis) {
    double x = del_fem_mesh_coordinate(points, len, point, axis);
    return x != x;
}

static int no_name(const uint8_t *cells, size_t len, size_t triangle, size_t corner) {
    return del_fem_mesh_name(cells, len, triangle, corner) == DEL_FEM_NO_NAME;
}

/* All z are one value: only then are x and y the panel's own, and masses taken from them its masses. A NaN is not equal to anything. */
static int is_flat(const uint8_t *points, size_t length) {
    for (size_t i = 0; i < length / 24; i++) {
        if (!(del_fem_mesh_coordinate(points, length, i, 2) == del_fem_mesh_coordinate(points, length, 0, 2))) {
            return 0;
        }
    }
    return 1;
}

/* Counts, places and where the blocks begin are those of the table in meshes/README.md; the square is that of the scope's examples. */
static void meshes(void) {
    const size_t names[6] = {0, 1, 2, 1, 3, 2};
    const uint64_t far[9] = {NAN_BITS, 0x8000000000000000, 0x7FF0000000000000, 1, 0xFFF0000000000000, 0x7FEFFFFFFFFFFFFF, 0, bits(1), bits(2)};
    struct mesh square = mesh_of("two", WHOLE), empty = mesh_of("empty", WHOLE), any = mesh_of("any_double", WHOLE);
    check("mesh of VTK's square", mesh_is(square, 4, 2, 87, 194));
    check("mesh of nothing", mesh_is(empty, 0, 0, 84, 95));
    check("mesh of points alone", mesh_is(mesh_of("points_only", WHOLE), 4, 0, 85, 192));
    check("mesh with any doubles", mesh_is(any, 3, 1, 87, 170));
    check("mesh file of another version", mesh_refused(mesh_of("vtk_42", WHOLE), 0));
    check("mesh file with a name 4", mesh_refused(mesh_of("name_4", WHOLE), 218));
    check("mesh file with a byte too many", mesh_refused(mesh_of("byte_too_many", WHOLE), 249));
    int cut = 1;
    for (size_t k = 0; k < square.len; k++) {
        cut = cut && mesh_refused(mesh_of("two", k), k);
    }
    check("mesh file cut after any of its 249 bytes", cut && square.len == 249);

    const uint8_t *points = square.file + square.points_place, *cells = square.file + square.cells_place;
    size_t tri2vtx[6];
    double vtx2xy[8], mass[13];
    int here = 1;
    struct mesh folded = mesh_of("folded", WHOLE);
    check("the square is flat, a folded wall is not",
        is_flat(points, square.points_length) && mesh_is(folded, 25, 32, folded.points_place, folded.cells_place) && !is_flat(folded.file + folded.points_place, folded.points_length));
    for (size_t i = 0; i < 4; i++) {
        vtx2xy[2 * i] = del_fem_mesh_coordinate(points, square.points_length, i, 0);
        vtx2xy[2 * i + 1] = del_fem_mesh_coordinate(points, square.points_length, i, 1);
    }
    for (size_t i = 0; i < 6; i++) {
        tri2vtx[i] = del_fem_mesh_name(cells, square.cells_length, i / 3, i % 3);
    }
    check("coordinates of the square", memcmp(vtx2xy, XY, sizeof XY) == 0);
    check("names of the square", memcmp(tri2vtx, names, sizeof names) == 0);
    check("masses, example 3, from a mesh file",
        is_flat(points, square.points_length) && masses_with(tri2vtx, 6, vtx2xy, del_fem_lame(2, 1, 0, 1), mass, 12) == DEL_FEM_ACCEPTED && are(mass, EXAMPLE_3)
            && untouched(mass, 12, 1));
    for (size_t i = 0; i < 6; i++) {
        tri2vtx[i] = del_fem_mesh_name(cells, square.cells_length, i / 3, 2 - i % 3);
    }
    check("masses of the square, its names read backwards", masses_with(tri2vtx, 6, vtx2xy, del_fem_lame(2, 1, 0, 1), mass, 12) == DEL_FEM_TURNED && untouched(mass, 0, 13));
    for (size_t i = 1; i < 9; i++) {
        here = here && bits(del_fem_mesh_coordinate(any.file + any.points_place, any.points_length, i / 3, i % 3)) == far[i];
    }
    check("coordinates keep their bits", here && no_coordinate(any.file + any.points_place, any.points_length, 0, 0));
    check("no point 4 of 4", no_coordinate(points, 96, 4, 0));
    check("no axis 3", no_coordinate(points, 96, 0, 3) && no_coordinate(points, 96, 0, SIZE_MAX));
    check("no point where 24 times it is past the largest number", no_coordinate(points, 96, SIZE_MAX, 0) && no_coordinate(points, 96, SIZE_MAX / 24 + 1, 0));
    check("no point where a byte of it is missing", no_coordinate(points, 95, 3, 0) && bits(del_fem_mesh_coordinate(points, 95, 2, 1)) == bits(6));
    check("no point in no bytes", no_coordinate(empty.file + empty.points_place, empty.points_length, 0, 0));
    check("no triangle 2 of 2", no_name(cells, 32, 2, 0));
    check("no corner 3", no_name(cells, 32, 0, 3) && no_name(cells, 32, 0, SIZE_MAX));
    check("no triangle where 16 times it is past the largest number", no_name(cells, 32, SIZE_MAX, 0) && no_name(cells, 32, SIZE_MAX / 16 + 1, 0));
    check("no triangle where a byte of it is missing", no_name(cells, 31, 1, 0) && del_fem_mesh_name(cells, 31, 0, 2) == 2);
    check("no triangle in no bytes", no_name(empty.file + empty.cells_place, empty.cells_length, 0, 0));
}

int main(void) {
    version();
    roots();
    bending();
    strain();
    green_lagrange();
    stvk();
    plate();
    masses();
    skins();
    young();
    stock_sheet();
    edges_of_seven();
    order_of_seven();
    other_words();
    unused_numbers();
    ways_round();
    turned_panels();
    order_of_six();
    others_turn_either_way();
    meshes();
    printf("%d checks passed, %d failed\n", passed, failed);
    return failed != 0;
}
