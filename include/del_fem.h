/*
 * How heavy and how stiff thin triangles are: the routines of del_fem for C99 and C++, over crates/del_fem/out/libdel_fem.a (x86-64 Linux; built by `rt lib` in crates/del_fem).
 *
 * Each routine's source is proved to give what docs/01-scope.md says, on every input, to end, and to read and write nothing but what it is lent. Not part of the proof, and run by c/run: the
 * compiler, the border to C, the inline functions below, and the bits of a NaN (docs/EXCEPTIONS.md), for the logic knows one NaN and no more of it: that the root's NaN is
 * 0x7FF8000000000000, and that a NaN in a buffer which is left as it was keeps its sign and its digits. del_fem_root_sqrt_word, which takes and gives whole numbers, is proved to the last
 * bit for NaNs too.
 *
 * There is no state between calls: several threads may call at once, each with a buffer of its own. Nothing is allocated; of the C library memcpy and memset are used, no more.
 *
 * Units are the caller's, any that fit each other. With whole millimetres for coordinates, kg/m^3 for the density and metres for the thickness, masses come out in milligrams; coordinates
 * are whole numbers then, so the proved bound on the masses holds (01-scope 6.2: sizes up to 1,048,576, density and thickness from 2^-40 to 2^40).
 *
 * What the caller owes:
 *   - every pointer is aligned, is not null, and has as many entries behind it as is stated here. NULL is not allowed even with length 0, since the compiler may take any pointer for one to
 *     something: an empty list is any aligned address with length 0;
 *   - what a function writes to (`values`, vtx2mass, vtx2dw, place, w, n, m, length, words) overlaps no other argument (the others may overlap each other);
 *   - floating point is as a program starts with it: rounding to nearest, no exception unmasked (a kernel divides before it refuses), subnormal numbers not flushed to zero (a program that is
 *     linked with -ffast-math may flush them). Exception flags may be left raised.
 *
 * A kernel (the five with `values`) returns its number and fills all of `values`, whatever was in them: the answer's numbers in the order stated where it returns 0, +0 throughout where it refuses.
 * ISO C before C23 lets only arrays that are themselves const pass for `const double p[3][2]`; compilers complain about others under -pedantic alone.
 */
#ifndef DEL_FEM_H
#define DEL_FEM_H

#include <stddef.h>
#include <stdint.h>

#ifdef __cplusplus
extern "C" {
#endif

/*
 * Which header the archive fits: 1000 times the major number and the minor one. The major number grows where a call of before no longer means the same, the minor one where something was
 * added. A program that was built with this header may use an archive of the same major number and no lower minor one.
 */
#define DEL_FEM_VERSION 3000u
uint32_t del_fem_version(void);

/*
 * What is returned: the first whose condition holds, in the order 1, 2, 3, 7, 6, 4, 5 (01-scope 2.1); each routine lists its own in that order. Of a skin's triangles the first in the list
 * that is refused gives its own.
 *
 * The corners of a triangle have to run counterclockwise (x to the right, y up), for masses and plate. Where 6 is returned, exchange two of its three names, or two of a plate's corners
 * together with their u; of a wall that is drawn from behind, do so in every triangle. What decides is the plane area ((x1 - x0)(y2 - y0) - (x2 - x0)(y1 - y0)) times 0.5, each operation
 * rounded (01-scope 3.2): the triangle turns left where it is above 0, right where it is below, infinities included, and is flat otherwise, at a zero of either sign and at a NaN. So of corners
 * that are nearly in a line rounding decides.
 */
#define DEL_FEM_ACCEPTED 0u      /* none of the others */
#define DEL_FEM_BAD_LENGTH 1u    /* masses and skin alone: a length or a limit is wrong */
#define DEL_FEM_BAD_NAME 2u      /* masses and skin alone: a triangle names a vertex that does not exist */
#define DEL_FEM_BAD_INPUT 3u     /* a number that the routine reads is a NaN or an infinity */
#define DEL_FEM_BAD_STIFFNESS 7u /* StVK, plate and skin alone: a stiffness is none that a sheet can have */
#define DEL_FEM_TURNED 6u        /* masses and plate alone: a triangle turns right, its corners run clockwise */
#define DEL_FEM_ZERO_DIVISOR 4u  /* a kernel's divisor is zero, of either sign */
#define DEL_FEM_BAD_ANSWER 5u    /* the finished answer has a NaN or an infinity in it */
#define DEL_FEM_BAD_FILE 8u      /* mesh files alone: the file is not as it has to be */

/*
 * What a number means in words, for people: fills all 64 bytes, whatever was in them, with a text and zeros behind it, a string of C. Returns how many bytes the text has, 63 at most. A number
 * that this archive does not give has words as well, which say so.
 */
#define DEL_FEM_WORDS 64
size_t del_fem_meaning(uint32_t number, char words[DEL_FEM_WORDS]);

/* How many numbers a kernel's `values` hold. */
#define DEL_FEM_BENDING_VALUES 39 /* w 3, dwdp 36 */
#define DEL_FEM_STRAIN_VALUES 30  /* w 3, dw 27 */
#define DEL_FEM_ENERGY_VALUES 91  /* w 1, dw 9, ddw 81 */

/*
 * A material (01-scope 5.11): density, thickness and a stiffness, which is a word and two numbers a and b. Masses look at density and thickness, the plate at thickness and the stiffness, StVK and the
 * skin at the stiffness alone; whatever the rest is, a NaN too, it changes nothing. del_fem_masses, del_fem_plate, del_fem_stvk and del_fem_skin take it as one record.
 *
 * Young's modulus E and Poisson's ratio v give lambda = (E v) / ((1 + v)(1 - 2v)) and myu = E / (2 (1 + v)), each operation rounded, in that order.
 *
 * What looks at the stiffness returns 3 where a or b is not finite, whatever the word is; then 7 where E is not above 0 or v not strictly between -1 and 0.5, and for every word but these
 * two. A Lame pair is never 7. A lambda or a myu that comes out infinite from a finite E and v is no 3: it shows as 4 or 5.
 */
#define DEL_FEM_LAME 2u  /* a is lambda, b is myu */
#define DEL_FEM_YOUNG 3u /* a is E, b is v */

typedef struct del_fem_material {
    uint32_t stiffness; /* DEL_FEM_LAME or DEL_FEM_YOUNG */
    double density;
    double thickness;
    double a;
    double b;
} del_fem_material;

static inline del_fem_material del_fem_lame(double density, double thickness, double lambda, double myu) {
    const del_fem_material material = {DEL_FEM_LAME, density, thickness, lambda, myu};
    return material;
}

static inline del_fem_material del_fem_young(double density, double thickness, double e, double v) {
    const del_fem_material material = {DEL_FEM_YOUNG, density, thickness, e, v};
    return material;
}

/* The shop's stock sheet: density 1,400, thickness 2^-9, E 2^31, v 0.25. */
static inline del_fem_material del_fem_stock_sheet(void) {
    return del_fem_young(1400.0, 0.001953125, 2147483648.0, 0.25);
}

/* The largest panel, the largest skin and the largest mesh of a file (01-scope 2.3, 2.5, 2.6). */
#define DEL_FEM_MAX_VERTICES 65536
#define DEL_FEM_MAX_TRIANGLES 131072

/* What del_fem_mesh_name gives where there is no name: masses and skin refuse it, for no panel or skin has so many vertices. */
#define DEL_FEM_NO_NAME ((size_t)0xFFFFFFFF)

/*
 * IEEE 754's squareRoot, to nearest (01-scope 4). -0 gives -0; every NaN and everything below zero gives the NaN with the bits 0x7FF8000000000000. It refuses nothing.
 * Proved but for those bits, which are run.
 */
double del_fem_root_sqrt(double x);

/* The same on bit patterns: w and the answer are the bits of a double. Proved, the NaN's bits too. */
uint64_t del_fem_root_sqrt_word(uint64_t w);

/*
 * How far two triangles bend about the edge that they share, from corner 2 to corner 3; corners 0 and 1 stand across it (01-scope 5.6). p_ini at rest, p_def deformed.
 * values: w[i_dim] at i_dim; dwdp[i_dim][node][dim] at 3 + (i_dim * 4 + node) * 3 + dim.
 * Returns 3; 4 where the edge's length, a triangle's height on it, or root(area0 + area1) times the length is zero; 5; else 0.
 */
uint32_t del_fem_quadratic_bending_wdw(const double p_ini[4][3], const double p_def[4][3], double values[DEL_FEM_BENDING_VALUES]);

/*
 * Three strains of a plane rest triangle that is deformed into space, and their derivatives by the deformed corners, as the original computes them (01-scope 5.4): the Green-Lagrange strain only
 * where the heights on both edges at corner 0 are 1.
 * values: w[k] at k; dw[k][ino][idim] at 3 + (k * 3 + ino) * 3 + idim.
 * Returns 3; 4 where twice the rest area or a contravariant vector's norm is zero; 5; else 0.
 */
uint32_t del_fem_stvk_tri3_wdw(const double p_ini[3][2], const double p_def[3][3], double values[DEL_FEM_STRAIN_VALUES]);

/*
 * The Green-Lagrange strain of such a triangle in its own axes, (F^T F - I) / 2, and its derivatives (01-scope 5.10).
 * values: xx, yy and twice xy at 0, 1, 2; dw as above.
 * Returns 3; 4 where the rest normal's norm or a dot that scales a contravariant vector is zero; 5; else 0.
 */
uint32_t del_fem_stvk_tri3_wdw_green_lagrange(const double p_ini[3][2], const double p_def[3][3], double values[DEL_FEM_STRAIN_VALUES]);

/*
 * The StVK energy of a triangle with the corners p0 at rest and p1 deformed, its gradient and Hessian by p1 (01-scope 5.5). Of the material it looks at stiffness, a and b: no thickness
 * enters.
 * values: w at 0; dw[ino][idim] at 1 + ino * 3 + idim; ddw[ino][jno][idim * 3 + jdim] at 10 + (ino * 3 + jno) * 9 + idim * 3 + jdim.
 * Returns 3 where a coordinate, a or b is not finite; 7; 4 where the rest normal's norm or a dot that scales a contravariant vector is zero; 5; else 0.
 */
uint32_t del_fem_stvk_tri3_wdwddw_(const double p0[3][3], const double p1[3][3], uint32_t stiffness, double density, double thickness, double a, double b,
    double values[DEL_FEM_ENERGY_VALUES]);

static inline uint32_t del_fem_stvk(const double p0[3][3], const double p1[3][3], del_fem_material material, double values[DEL_FEM_ENERGY_VALUES]) {
    return del_fem_stvk_tri3_wdwddw_(p0, p1, material.stiffness, material.density, material.thickness, material.a, material.b, values);
}

/*
 * The energy of a plate over the plane corners p, its gradient and Hessian by u: at each corner the displacement in z and the rotations about x and y (01-scope 5.2). The corners have to run
 * counterclockwise. Of the material it looks at thickness, stiffness, a and b.
 * values: w at 0; dw[ino][idof] at 1 + ino * 3 + idof; ddw[ino][jno][idof * 3 + jdof] at 10 + (ino * 3 + jno) * 9 + idof * 3 + jdof.
 * Returns 3 where a number of p or u, thickness, a or b is not finite; 7; 6 where the corners turn right; 4 where a dot of the inverse is zero, as of a triangle without an area or a
 * plate without thickness; 5; else 0.
 */
uint32_t del_fem_mitc_tri3_w_dw_ddw_plate_bending(const double p[3][2], const double u[3][3], uint32_t stiffness, double density, double thickness, double a, double b,
    double values[DEL_FEM_ENERGY_VALUES]);

static inline uint32_t del_fem_plate(const double p[3][2], const double u[3][3], del_fem_material material, double values[DEL_FEM_ENERGY_VALUES]) {
    return del_fem_mitc_tri3_w_dw_ddw_plate_bending(p, u, material.stiffness, material.density, material.thickness, material.a, material.b, values);
}

/*
 * The lumped masses of a panel (01-scope 5.3). Each length counts entries. Of the material it looks at density and thickness; whatever stiffness, a and b are, it never returns 7.
 * The panel is flat: coordinates are x and y in its own plane. Of a mesh in space take them only where all z are one value: a wall that stands upright would weigh 0, a folded one too
 * little, and number 0 may be returned with either. The corners of every triangle have to run counterclockwise; one without an area is taken and adds no mass.
 * tri2vtx: three vertices for each triangle. vtx2xy: two coordinates for each vertex; a left-over last number is not read. vtx2mass: three masses for each vertex, for its translation and its
 * two rotations.
 * Returns 1 where there are more than DEL_FEM_MAX_VERTICES vertices or DEL_FEM_MAX_TRIANGLES triangles, where 3 does not divide tri2vtx_len, or where vtx2mass_len is not three times the
 * vertices; 2 where a vertex that is named does not exist; 3 where density, thickness or a coordinate of a named vertex is not finite; 6 where a triangle of the list turns right; 5; else 0.
 * vtx2mass holds the masses after 0, +0 throughout after 5, and what it held before after 1, 2, 3 and 6. A mass is below 0 only where density or thickness is.
 */
uint32_t del_fem_mitc_tri3_mass_lumped_plate_bending(const size_t *tri2vtx, size_t tri2vtx_len, const double *vtx2xy, size_t vtx2xy_len, uint32_t stiffness,
    double density, double thickness, double a, double b, double *vtx2mass, size_t vtx2mass_len);

static inline uint32_t del_fem_masses(const size_t *tri2vtx, size_t tri2vtx_len, const double *vtx2xy, size_t vtx2xy_len, del_fem_material material,
    double *vtx2mass, size_t vtx2mass_len) {
    return del_fem_mitc_tri3_mass_lumped_plate_bending(
        tri2vtx, tri2vtx_len, vtx2xy, vtx2xy_len, material.stiffness, material.density, material.thickness, material.a, material.b, vtx2mass, vtx2mass_len);
}

/*
 * The StVK energy of a whole skin and its gradient by the deformed points: what del_fem_stvk_tri3_wdwddw_ gives for each triangle, added in the list's order from +0 (01-scope 5.8, 2.5).
 * Each length counts entries. Of the material it looks at stiffness, a and b.
 * vtx2ini, vtx2def: three coordinates for each vertex, at rest and deformed. tri2vtx: three vertices for each triangle. vtx2dw: three numbers for each vertex. place, w: one each.
 * Returns 1 where vtx2ini_len, vtx2def_len and vtx2dw_len are not the same or 3 does not divide them, where there are more than DEL_FEM_MAX_VERTICES vertices or
 * DEL_FEM_MAX_TRIANGLES triangles, or where 3 does not divide tri2vtx_len; 2 where a vertex that is named does not exist; what del_fem_stvk_tri3_wdwddw_ returns for the first triangle in
 * the list that it refuses (3, 7, 4 or 5; 5 also where only that triangle's Hessian is not finite); 5 where it refuses none, but the energy or an entry of the gradient is not finite;
 * else 0.
 * Nothing but triangles looks at the material and the points: an empty list is accepted whatever they are.
 * vtx2dw holds the gradient after 0 (+0 at a vertex that is not named), +0 throughout after 3, 7, 4 and 5, and what it held before after 1 and 2.
 * place and w are written by every call, whatever was in them. place: 0 after 0, 1 and 2; after 3, 7, 4 and 5 that of the refused triangle in the list, counted from 0, or how many
 * triangles there are where none is refused. w: the energy after 0, +0 after a refusal.
 */
uint32_t del_fem_skin_wdw(const double *vtx2ini, size_t vtx2ini_len, const double *vtx2def, size_t vtx2def_len, const size_t *tri2vtx, size_t tri2vtx_len, uint32_t stiffness,
    double density, double thickness, double a, double b, double *vtx2dw, size_t vtx2dw_len, size_t *place, double *w);

static inline uint32_t del_fem_skin(const double *vtx2ini, size_t vtx2ini_len, const double *vtx2def, size_t vtx2def_len, const size_t *tri2vtx, size_t tri2vtx_len,
    del_fem_material material, double *vtx2dw, size_t vtx2dw_len, size_t *place, double *w) {
    return del_fem_skin_wdw(vtx2ini, vtx2ini_len, vtx2def, vtx2def_len, tri2vtx, tri2vtx_len, material.stiffness, material.density, material.thickness, material.a, material.b, vtx2dw,
        vtx2dw_len, place, w);
}

/*
 * Mesh files (01-scope 5.9, 2.6): triangles in binary legacy VTK, version 3.0. In this order, each line and each block with one newline (10) after it and nothing behind the last:
 *   # vtk DataFile Version 3.0
 *   a title: any bytes but a newline, 256 at most with it
 *   BINARY
 *   DATASET UNSTRUCTURED_GRID
 *   POINTS n double
 *   the points block: n points of three doubles, 24 bytes each; the values are not looked at
 *   CELLS m 4m
 *   the cells block: m cells of four 32-bit numbers, 16 bytes each: 3 and three vertices below n
 *   CELL_TYPES m
 *   the types block: m 32-bit numbers 5
 * Numbers in blocks have their highest byte first. Counts are decimal without leading zeros, n at most DEL_FEM_MAX_VERTICES, m at most DEL_FEM_MAX_TRIANGLES; both may be 0.
 *
 * A file that is not so is refused at a place, counted in bytes from 0: that of the first thing in it that is wrong. It is where the line begins, or the number in a block; the
 * very byte where the newline after a block is missing, or where one follows the last newline; file_len where the file ends early, in a line that is right so far, or in a number, whatever
 * its bytes are.
 *
 * file, points and cells are bytes, and each length counts them. What stands behind n, m, place and length is written by every call, whatever was in it. A file is read in one pass at
 * each call of del_fem_mesh_read, del_fem_mesh_points and del_fem_mesh_cells.
 */

/* Returns 0: n and m are the counts of points and triangles, place is 0. Or 8: n and m are 0, place is where the file is refused. */
uint32_t del_fem_mesh_read(const uint8_t *file, size_t file_len, size_t *n, size_t *m, size_t *place);

/*
 * Finds the points block, which stays where it is: nothing is copied.
 * Returns 0: it begins at file + place and has length bytes, 24 n, all of them in the file. Or 8: place is where the file is refused, length is 0.
 */
uint32_t del_fem_mesh_points(const uint8_t *file, size_t file_len, size_t *place, size_t *length);

/* The same for the cells block, which has 16 m bytes. */
uint32_t del_fem_mesh_cells(const uint8_t *file, size_t file_len, size_t *place, size_t *length);

/*
 * Coordinate axis (0, 1, 2 for x, y, z) of a point, counted from 0, in a points block: file + place and length as del_fem_mesh_points finds them. The sign of zero is kept.
 * It is a NaN, which kernels, masses and skin refuse where they read it, where the file has a NaN, where axis is above 2, and where the block has no such point; it refuses nothing itself.
 * For masses, look first whether all z are one value (is_flat in c/test.c).
 */
double del_fem_mesh_coordinate(const uint8_t *points, size_t points_len, size_t point, size_t axis);

/*
 * The vertex that a triangle, counted from 0, names at a corner (0, 1, 2), in a cells block: file + place and length as del_fem_mesh_cells finds them.
 * It is DEL_FEM_NO_NAME where corner is above 2 and where the block has no such triangle.
 */
size_t del_fem_mesh_name(const uint8_t *cells, size_t cells_len, size_t triangle, size_t corner);

#ifdef __cplusplus
}
#endif

#endif
