/*
 * Calls an exported function many times, so that the instructions of one call can be counted as C sees it (docs/SPEED.md). Standard input holds runs of big-endian 64-bit words: the routine's
 * number of docs/REPLAY.md, how many calls, and 24 numbers by their bits, its inputs first; for masses in place of these the lengths of the two lists, the material, the coordinates and the
 * names; for a skin how many numbers each of its point lists has, how many names, the material, the points at rest, those deformed and the names. A material is five words, the first a whole
 * number: stiffness, density, thickness, a, b. A line for each run: the bits of the sum of what the calls gave. `speed PATH CALLS` calls del_fem_mesh_read on the file at PATH instead.
 */
#include "del_fem.h"
#include <stdio.h>
#include <stdlib.h>
#include <string.h>

/* By how much every number moves from one call to the next; of a panel the thickness alone, of a skin a. */
static const double STEP = 1.0 / 1048576.0;

static int next_word(uint64_t *w) {
    unsigned char b[8];
    if (fread(b, 1, 8, stdin) < 8) {
        return 0;
    }
    *w = 0;
    for (int i = 0; i < 8; i++) {
        *w = *w << 8 | b[i];
    }
    return 1;
}

static uint64_t whole(void) {
    uint64_t w = 0;
    if (!next_word(&w)) {
        exit(1);
    }
    return w;
}

static double number(void) {
    uint64_t w = whole();
    double x;
    memcpy(&x, &w, sizeof x);
    return x;
}

static del_fem_material material(void) {
    del_fem_material m;
    m.stiffness = (uint32_t)whole();
    m.density = number();
    m.thickness = number();
    m.a = number();
    m.b = number();
    return m;
}

static void *list(size_t n, size_t size) {
    void *p = calloc(n + 1, size);
    if (p == NULL) {
        exit(1);
    }
    return p;
}

/* Of call k; values at changing places are taken. stiffness is a material's word, which stands among x but is no number. */
static double call(uint64_t kind, uint32_t stiffness, const double x[24], uint64_t k) {
    double v[DEL_FEM_ENERGY_VALUES], a[4][3], b[4][3], p[3][2];
    uint64_t at = k % 81;
    memcpy(p, x, sizeof p);
    switch (kind) {
    case 1:
        return del_fem_root_sqrt(x[0]);
    case 2:
        memcpy(a, x, sizeof a);
        memcpy(b, x + 12, sizeof b);
        del_fem_quadratic_bending_wdw((const double (*)[3])a, (const double (*)[3])b, v);
        return v[k % 36 % 3] + v[3 + k % 36];
    case 3:
        memcpy(b, x + 6, 9 * sizeof *x);
        del_fem_stvk_tri3_wdw((const double (*)[2])p, (const double (*)[3])b, v);
        return v[k % 27 % 3] + v[3 + k % 27];
    case 4:
        memcpy(a, x, 9 * sizeof *x);
        memcpy(b, x + 9, 9 * sizeof *x);
        del_fem_stvk_tri3_wdwddw_((const double (*)[3])a, (const double (*)[3])b, stiffness, x[19], x[20], x[21], x[22], v);
        return v[0] + v[1 + at % 9] + v[10 + at];
    case 5:
        memcpy(b, x + 6, 9 * sizeof *x);
        del_fem_mitc_tri3_w_dw_ddw_plate_bending((const double (*)[2])p, (const double (*)[3])b, stiffness, x[16], x[17], x[18], x[19], v);
        return v[0] + v[1 + at % 9] + v[10 + at];
    case 8:
        memcpy(b, x + 6, 9 * sizeof *x);
        del_fem_stvk_tri3_wdw_green_lagrange((const double (*)[2])p, (const double (*)[3])b, v);
        return v[k % 27 % 3] + v[3 + k % 27];
    default:
        return 0;
    }
}

static double kernel(uint64_t kind, uint64_t count) {
    double x[24], moved[24], s = 0, sum = 0;
    uint64_t word;
    for (int i = 0; i < 24; i++) {
        x[i] = number();
    }
    memcpy(&word, x + (kind == 4 ? 18 : 15), sizeof word);
    for (uint64_t k = 0; k < count; k++) {
        for (int i = 0; i < 24; i++) {
            moved[i] = x[i] + s;
        }
        sum += call(kind, (uint32_t)word, moved, k);
        s += STEP;
    }
    return sum;
}

static double panel(uint64_t count) {
    size_t coordinates = whole(), names = whole(), places = coordinates / 2 * 3;
    del_fem_material m = material();
    double s = 0, sum = 0;
    double *xy = list(coordinates, sizeof *xy), *mass = list(places, sizeof *mass);
    size_t *tri = list(names, sizeof *tri);
    for (size_t i = 0; i < coordinates; i++) {
        xy[i] = number();
    }
    for (size_t i = 0; i < names; i++) {
        tri[i] = whole();
    }
    for (uint64_t k = 0; k < count; k++) {
        del_fem_mitc_tri3_mass_lumped_plate_bending(tri, names, xy, coordinates, m.stiffness, m.density, m.thickness + s, m.a, m.b, mass, places);
        sum += places == 0 ? 0 : mass[places - 1];
        s += STEP;
    }
    free(xy);
    free(mass);
    free(tri);
    return sum;
}

static double skin(uint64_t count) {
    size_t numbers = whole(), names = whole(), place;
    del_fem_material m = material();
    double w, s = 0, sum = 0;
    double *ini = list(numbers, sizeof *ini), *def = list(numbers, sizeof *def), *dw = list(numbers, sizeof *dw);
    size_t *tri = list(names, sizeof *tri);
    for (size_t i = 0; i < numbers; i++) {
        ini[i] = number();
    }
    for (size_t i = 0; i < numbers; i++) {
        def[i] = number();
    }
    for (size_t i = 0; i < names; i++) {
        tri[i] = whole();
    }
    for (uint64_t k = 0; k < count; k++) {
        del_fem_skin_wdw(ini, numbers, def, numbers, tri, names, m.stiffness, m.density, m.thickness, m.a + s, m.b, dw, numbers, &place, &w);
        sum += w;
        sum += numbers == 0 ? 0 : dw[numbers - 1];
        s += STEP;
    }
    free(ini);
    free(def);
    free(dw);
    free(tri);
    return sum;
}

/* Loads a mesh file and reads it so many times: the line is the number, the counts and the place, all 0 where it is only loaded. */
static int mesh(const char *path, const char *times) {
    FILE *in = fopen(path, "rb");
    long len = in == NULL || fseek(in, 0, SEEK_END) != 0 ? -1 : ftell(in);
    if (len < 0 || fseek(in, 0, SEEK_SET) != 0) {
        return 1;
    }
    uint8_t *file = list((size_t)len, 1);
    if (fread(file, 1, (size_t)len, in) != (size_t)len) {
        return 1;
    }
    fclose(in);
    uint32_t number = 0;
    size_t n = 0, m = 0, place = 0;
    for (unsigned long count = strtoul(times, NULL, 10); count > 0; count--) {
        number = del_fem_mesh_read(file, (size_t)len, &n, &m, &place);
    }
    printf("%lu %zu %zu %zu\n", (unsigned long)number, n, m, place);
    free(file);
    return 0;
}

int main(int words, char **word) {
    uint64_t kind, bits;
    if (words == 3) {
        return mesh(word[1], word[2]);
    }
    while (next_word(&kind)) {
        uint64_t count = whole();
        double sum = kind == 6 ? panel(count) : kind == 7 ? skin(count) : kernel(kind, count);
        memcpy(&bits, &sum, sizeof bits);
        printf("%016llx\n", (unsigned long long)bits);
    }
    return 0;
}
