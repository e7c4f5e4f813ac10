/*
 * Times the calls that read a compact set out beside a copy of the full set.
 *   cc -std=c99 -D_POSIX_C_SOURCE=199309L -O2 -I include -o target/full_sets_bench oracle/full_sets_bench.c target/staticlib/libcapi.a
 * Prints a table: the least of many runs, both in turns.
 */
#include "gullyfork.h"

#include <stdio.h>
#include <stdlib.h>
#include <string.h>
#include <time.h>

static double now(void)
{
    struct timespec t;
    clock_gettime(CLOCK_MONOTONIC, &t);
    return (double)t.tv_sec * 1e9 + (double)t.tv_nsec;
}

struct tables {
    int64_t *p2s, *s2pp, *nsym_list, *perms;
    size_t n_satom, n_patom, num_trans;
};

/* n_patom atoms with their images in a circle of shifts */
static struct tables circle(size_t n_patom, size_t num_trans)
{
    size_t n = n_patom * num_trans;
    struct tables t = {malloc(n_patom * 8), malloc(n * 8), malloc(n * 8), malloc(n * num_trans * 8), n, n_patom, num_trans};
    if (!t.p2s || !t.s2pp || !t.nsym_list || !t.perms)
        exit(1);
    for (size_t p = 0; p < n_patom; p++) {
        t.p2s[p] = (int64_t)(p * num_trans);
        for (size_t e = 0; e < num_trans; e++) {
            size_t a = p * num_trans + e;
            t.s2pp[a] = (int64_t)p;
            t.nsym_list[a] = (int64_t)((num_trans - e) % num_trans);
            for (size_t s = 0; s < num_trans; s++)
                t.perms[s * n + a] = (int64_t)(p * num_trans + (e + s) % num_trans);
        }
    }
    return t;
}

typedef uint8_t read_out(double *, size_t, const double *, size_t, const int64_t *, size_t, const int64_t *, size_t, const int64_t *, size_t,
                         const int64_t *, size_t, size_t, size_t, size_t);

static uint8_t call(read_out *f, double *full, size_t full_len, const double *set, size_t set_len, const struct tables *t)
{
    return f(full, full_len, set, set_len, t->p2s, t->n_patom, t->s2pp, t->n_satom, t->nsym_list, t->n_satom, t->perms, t->n_satom * t->num_trans,
             t->n_satom, t->n_patom, t->num_trans);
}

static void row(size_t order, size_t n_patom, size_t n_satom)
{
    const size_t num_trans = n_satom / n_patom;
    read_out *const calls[] = {gf_compact_to_full_fc2, gf_compact_to_full_fc3, gf_compact_to_full_fc4};
    struct tables t = circle(n_patom, num_trans);
    size_t set_len = n_patom, full_len = t.n_satom;
    for (size_t k = 0; k < order; k++) {
        set_len *= 3 * (k ? t.n_satom : 1);
        full_len *= 3 * (k ? t.n_satom : 1);
    }
    double *set = malloc(set_len * 8), *full = malloc(full_len * 8), *other = malloc(full_len * 8), read = 1e99, copy = 1e99, check = 1e99;
    if (!set || !full || !other)
        exit(1);
    for (size_t k = 0; k < set_len; k++)
        set[k] = (double)k;
    memset(full, 0, full_len * 8);
    memset(other, 0, full_len * 8);
    size_t often = 1 + 4000000 / full_len;
    for (int run = 0; run < 9; run++) {
        double start = now();
        for (size_t k = 0; k < often; k++)
            if (call(calls[order - 2], full, full_len, set, set_len, &t))
                exit(1);
        double middle = now();
        for (size_t k = 0; k < often; k++) {
            memcpy(other, full, full_len * 8);
            full[k % full_len] = other[full_len - 1];
        }
        double end = now();
        for (size_t k = 0; k < often; k++)
            gf_check_shift_tables(t.p2s, n_patom, t.s2pp, t.n_satom, t.nsym_list, t.n_satom, t.perms, t.n_satom * num_trans, t.n_satom, n_patom, num_trans);
        double last = now() - end;
        read = middle - start < read ? middle - start : read;
        copy = end - middle < copy ? end - middle : copy;
        check = last < check ? last : check;
    }
    double n = (double)often * 1e3;
    printf("| %zu | %zu x %zu | %.1f | %.1f | %.1f | %.1f | %.2f |\n", order, n_patom, t.n_satom, (double)full_len * 8e-6, copy / n, read / n, check / n, read / copy);
    free(t.p2s), free(t.s2pp), free(t.nsym_list), free(t.perms), free(set), free(full), free(other);
}

int main(void)
{
    puts("| order | n_patom x n_satom | full set, MB | a copy, us | the call, us | of it the check of the tables, us | ratio |\n| --- | --- | --- | --- | --- | --- | --- |");
    row(2, 2, 16), row(2, 2, 64), row(2, 64, 256), row(2, 4, 512), row(2, 2, 1024);
    row(3, 2, 8), row(3, 2, 16), row(3, 8, 64), row(3, 2, 128);
    row(4, 2, 4), row(4, 2, 8), row(4, 2, 16), row(4, 4, 32);
    return 0;
}
