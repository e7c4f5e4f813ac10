/* The verdicts on tables, cell and operations; those on sets are in measures.c. */
#include "verdicts.h"
#include "gullyfork.h"
#include "progress.h"
#include "words.h"

#include <math.h>
#include <stdio.h>
#include <stdlib.h>
#include <string.h>

/* ---- tables and positions */

void tables_verdict(const struct delivery *d, struct verdict *v)
{
    size_t n = d->n_satom, p = d->n_patom, s = d->num_trans;
    begin_step("check of", "tables.txt");
    uint8_t answer = gf_check_shift_tables(d->p2s, p, d->s2pp, n, d->nsym_list, n, d->perms, s * n, n, p, s);
    end_step();
    v->fault = answer != GF_DONE;
    snprintf(v->words, WORDS, "%s", answer == GF_DONE ? "every rule is kept" : gf_words(answer));
}

/* whether the positions, each moved by the matrix and the shift that takes atom 0 to its image, stand where the row says, each atom on one of its
   element; what is odd is named */
static int sends(const struct delivery *d, const double turn[9], double near, const int64_t *row, char odd[256])
{
    size_t n = d->n_satom, pair[2] = {0, 0};
    const uint8_t everywhere[3] = {1, 1, 1};
    for (size_t a = 0; a < n; a++)
        if (row[a] < 0 || (size_t)row[a] >= n)
            return 0;
    double *moved = room(n * 3, sizeof *moved);
    int64_t *slots = room(n, sizeof *slots);
    for (size_t a = 0; a < n; a++)
        for (size_t x = 0; x < 3; x++) {
            double sum = d->pos[(size_t)row[0] * 3 + x];
            for (size_t y = 0; y < 3; y++)
                sum += turn[x * 3 + y] * (d->pos[a * 3 + y] - d->pos[y]);
            moved[a * 3 + x] = sum;
        }
    uint8_t answer = gf_compute_permutation(slots, n, d->lattice, 9, near, everywhere, 3, d->pos, n * 3, moved, n * 3, pair, 2, n);
    int same = answer == GF_DONE && memcmp(slots, row, n * sizeof *row) == 0;
    if (answer == GF_MATCH_NO_NUMBER && !*odd)
        snprintf(odd, 256, ": position %zu against slot %zu: the distance is not a number", pair[0], pair[1]);
    for (size_t a = 0; a < n && same; a++)
        if (strcmp(d->elements[a], d->elements[row[a]]) != 0) {
            same = 0;
            if (!*odd)
                snprintf(odd, 256, ": %s %zu goes to %s %zu", d->elements[a], a, d->elements[row[a]], (size_t)row[a]);
        }
    free(moved);
    free(slots);
    return same;
}

void positions_verdict(const struct delivery *d, struct verdict *v)
{
    static const double turn[9] = {1, 0, 0, 0, 1, 0, 0, 0, 1};
    size_t same = 0, first = d->num_trans;
    char odd[256] = "";
    begin_step("matching of", "cell.txt");
    for (size_t t = 0; t < d->num_trans; t++) {
        int fits = d->n_satom > 0 && sends(d, turn, 1e-5, d->perms + t * d->n_satom, odd);
        same += (size_t)fits;
        first = fits || first < d->num_trans ? first : t;
        how_far(t + 1, d->num_trans);
    }
    end_step();
    v->fault = same != d->num_trans;
    size_t at = (size_t)snprintf(v->words, WORDS, "%zu of %zu shifts send them as their row of the tables says", same, d->num_trans);
    if (v->fault)
        snprintf(v->words + at, WORDS - at, "; not shift %zu%s", first, odd);
}

/* ---- the cell */

static double determinant(const double *a)
{
    return a[0] * (a[4] * a[8] - a[5] * a[7]) - a[1] * (a[3] * a[8] - a[5] * a[6]) + a[2] * (a[3] * a[7] - a[4] * a[6]);
}

/* how many atoms of each element, in the order in which the elements come */
static size_t formula(const struct delivery *d, char *words, size_t size)
{
    size_t at = 0;
    for (size_t a = 0; a < d->n_satom && at < size; a++) {
        size_t count = 0, first = 0;
        while (strcmp(d->elements[first], d->elements[a]) != 0)
            first++;
        for (size_t b = a; b < d->n_satom && first == a; b++)
            count += strcmp(d->elements[a], d->elements[b]) == 0;
        if (first == a)
            at += (size_t)snprintf(words + at, size - at, "%s%s%zu", at ? " " : "", d->elements[a], count);
    }
    return at < size ? at : size;
}

/* which atoms are of which element, by rising number */
static size_t runs(const struct delivery *d, char *words, size_t size)
{
    size_t at = 0;
    for (size_t a = 0, b; a < d->n_satom && at < size; a = b) {
        for (b = a + 1; b < d->n_satom && strcmp(d->elements[a], d->elements[b]) == 0;)
            b++;
        at += (size_t)snprintf(words + at, size - at, b == a + 1 ? "%s%s %zu" : "%s%s %zu-%zu", at ? ", " : "", d->elements[a], a, b - 1);
    }
    return at < size ? at : size;
}

void cell_verdict(const struct delivery *d, struct verdict *v)
{
    const double *l = d->lattice;
    char volume[NUMBER], length[3][NUMBER];
    size_t at = formula(d, v->words, WORDS - 512);
    at += (size_t)snprintf(v->words + at, WORDS - at, ": ");
    at += runs(d, v->words + at, WORDS - at - 256);
    for (size_t i = 0; i < 3; i++)
        digits(sqrt(l[i] * l[i] + l[3 + i] * l[3 + i] + l[6 + i] * l[6 + i]), length[i]);
    snprintf(v->words + at, WORDS - at, "; vectors of %s %s %s, volume %s", length[0], length[1], length[2],
             number(fabs(determinant(l)), volume));
    v->fault = 0;
}

/* ---- the crystal's operations */

static void product(const double a[9], const double b[9], double out[9])
{
    for (size_t x = 0; x < 3; x++)
        for (size_t y = 0; y < 3; y++)
            out[x * 3 + y] = a[x * 3] * b[y] + a[x * 3 + 1] * b[3 + y] + a[x * 3 + 2] * b[6 + y];
}

static int near(const double a[9], const double b[9], double wide)
{
    for (size_t k = 0; k < 9; k++)
        if (!(fabs(a[k] - b[k]) <= wide))
            return 0;
    return 1;
}

static int orthogonal(const double r[9])
{
    static const double one[9] = {1, 0, 0, 0, 1, 0, 0, 0, 1};
    const double back[9] = {r[0], r[3], r[6], r[1], r[4], r[7], r[2], r[5], r[8]};
    double both[9];
    product(r, back, both);
    return near(both, one, 1e-4);
}

/* the same operation on positions in the lattice's vectors; 0 if the lattice has no such operation, whose entries would be whole numbers */
static int on_positions(const struct delivery *d, const double r[9], double out[9])
{
    const double *l = d->lattice;
    double volume = determinant(l), inverse[9], half[9], exact[9];
    for (size_t x = 0; x < 3; x++)
        for (size_t y = 0; y < 3; y++) {
            size_t a = (y + 1) % 3 * 3, b = (y + 2) % 3 * 3, c = (x + 1) % 3, e = (x + 2) % 3;
            inverse[x * 3 + y] = (l[a + c] * l[b + e] - l[a + e] * l[b + c]) / volume;
        }
    product(r, l, half);
    product(inverse, half, exact);
    for (size_t k = 0; k < 9; k++)
        out[k] = rint(exact[k]);
    return near(exact, out, 1e-3);
}

/* the product of any two matrices is one of them; the first that is not */
static int closed(const struct delivery *d, char odd[256])
{
    for (size_t a = 0; a < d->num_rot; a++)
        for (size_t b = 0; b < d->num_rot; b++) {
            double both[9];
            size_t c = 0;
            product(d->r_carts + a * 9, d->r_carts + b * 9, both);
            while (c < d->num_rot && !near(d->r_carts + c * 9, both, 1e-3))
                c++;
            if (c == d->num_rot) {
                snprintf(odd, 256, "; they are no group: operation %zu after operation %zu is none of them", a, b);
                return 0;
            }
        }
    snprintf(odd, 256, "; they are a group");
    return 1;
}

void operations_verdict(const struct delivery *d, struct verdict *v)
{
    size_t n = d->n_satom, fit = 0, first = d->num_rot;
    char odd[256] = "", group[256];
    begin_step("matching of", "operations.txt");
    for (size_t r = 0; r < d->num_rot; r++) {
        double turn[9];
        const double *matrix = d->r_carts + r * 9;
        int good = n > 0 && orthogonal(matrix) && on_positions(d, matrix, turn) && sends(d, turn, 1e-4, d->operations + r * n, odd);
        fit += (size_t)good;
        first = good || first < d->num_rot ? first : r;
        how_far(r + 1, d->num_rot);
    }
    end_step();
    v->fault = !closed(d, group) || fit != d->num_rot;
    size_t at = (size_t)snprintf(v->words, WORDS, "%zu of %zu send the atoms as they say%s", fit, d->num_rot, group);
    if (fit != d->num_rot)
        snprintf(v->words + at, WORDS - at, "; not operation %zu%s", first, odd);
}
