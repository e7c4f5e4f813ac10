#include "job.h"
#include "gullyfork.h"

#include <stdarg.h>
#include <stdio.h>
#include <stdlib.h>
#include <string.h>

#define LEVEL 3        /* of second order, as phonopy has it */
#define HIGHER_LEVEL 1 /* of third and fourth order: it leaves nothing but rounding */

size_t faults;

void fault(const char *what, ...)
{
    va_list args;
    va_start(args, what);
    fputs("FAULT: ", stdout);
    vprintf(what, args);
    putchar('\n');
    va_end(args);
    faults++;
}

void must(uint8_t answer, const char *what)
{
    if (answer != GF_DONE) {
        fflush(stdout);
        fprintf(stderr, "%s: %s refused, %d: %s\n", program, what, answer, gf_words(answer));
        exit(1);
    }
}

/* ---- second order: a compact set is read out, symmetrized fully and cut to its rows, since the call for compact sets leaves drift */

static void second_compact(const struct delivery *d, struct set *s)
{
    size_t n = d->n_satom, p = d->n_patom, t = d->num_trans, row = n * 9;
    double *full = room(n * row, sizeof *full);
    uint8_t *done = room(p * n, 1);
    must(gf_compact_to_full_fc2(full, n * row, s->numbers, s->count, d->p2s, p, d->s2pp, n, d->nsym_list, n, d->perms, t * n, n, p, t),
         "compact_to_full_fc2");
    must(gf_perm_trans_symmetrize_fc(full, n * row, n, LEVEL), "perm_trans_symmetrize_fc");
    for (size_t i = 0; i < p; i++)
        memcpy(s->numbers + i * row, full + (size_t)d->p2s[i] * row, row * sizeof *full);
    must(gf_set_index_permutation_symmetry_compact_fc(s->numbers, s->count, d->p2s, p, d->s2pp, n, d->nsym_list, n, d->perms, t * n, done, p * n, n, p,
                                                      t, false),
         "set_index_permutation_symmetry_compact_fc");
    free(full);
    free(done);
}

/* ---- third and fourth order */

uint8_t symmetrize_third(const struct delivery *d, const int64_t *nsym_list, double *fc3, size_t len, uint8_t *done)
{
    size_t n = d->n_satom, p = d->n_patom, t = d->num_trans;
    return gf_set_permutation_symmetry_compact_fc3(fc3, len, d->p2s, p, d->s2pp, n, nsym_list, n, d->perms, t * n, done, p * n * n, n, p, t);
}

/* the work slices have a byte for each block of the set, and a block of sums for each block of one atom less */
static void higher(const struct delivery *d, struct set *s)
{
    size_t n = d->n_satom, p = d->n_patom, t = d->num_trans, lines = s->order == 3 ? p * n : p * n * n;
    size_t blocks = lines * n, sums = lines * (s->order == 3 ? 27 : 81);
    uint8_t *done = room(blocks, 1);
    double *drift = room(sums, sizeof *drift);
    must((s->order == 3 ? gf_perm_trans_symmetrize_compact_fc3 : gf_perm_trans_symmetrize_compact_fc4)(
             s->numbers, s->count, d->p2s, p, d->s2pp, n, d->nsym_list, n, d->perms, t * n, done, blocks, drift, sums, n, p, t, HIGHER_LEVEL),
         s->order == 3 ? "perm_trans_symmetrize_compact_fc3" : "perm_trans_symmetrize_compact_fc4");
    free(done);
    free(drift);
}

void symmetrize(const struct delivery *d, struct set *s)
{
    if (s->order > 2)
        higher(d, s);
    else if (s->full)
        must(gf_perm_trans_symmetrize_fc(s->numbers, s->count, d->n_satom, LEVEL), "perm_trans_symmetrize_fc");
    else
        second_compact(d, s);
}
